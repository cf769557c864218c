/* One feed of 256 MiB of empty frames, on a stack of its own that was marked: how much of it was used.
   Status 0 if every byte was consumed, every header counted, and no more than 64 KB used; and if the measure sees a use of more. */
#include "feeds.h"
#define MARKED (1ul << 20)
#include "../stack.h"

#define BYTES (1ul << 28)
#define LIMIT (64ul << 10)

static u8 frames[BYTES];
static Cells at;
static Report told;

static void fed(void) { told = eist_feed(at, frames, BYTES, ~0ul); }

static void deep(void) {
    volatile u8 much[LIMIT];
    for (usize i = 0; i < sizeof much; i++) much[i] = 0;
}

static usize put(u8 *line, const char *text, u64 number) {
    usize n = 0;
    u8 digits[20];
    int k = 0;
    while (text[n]) line[n] = (u8)text[n], n++;
    do digits[k++] = (u8)('0' + number % 10);
    while (number /= 10);
    while (k) line[n++] = digits[--k];
    return n;
}

/* The frame is the two bytes of an empty one; the stream stands before its header section, or behind it. */
static int run(const char *what, u8 type, u64 phase) {
    for (usize i = 0; i < BYTES; i += 2) frames[i] = type, frames[i + 1] = 0;
    at = (Cells){.phase = phase};
    usize used = used_by(fed);
    u8 line[256];
    usize n = put(line, what, told.used);
    n += put(line + n, " bytes consumed, headers ", told.heads);
    n += put(line + n, ", stack bytes ", used);
    line[n++] = '\n';
    write(1, line, n);
    int whole = told.number == 0 && told.event == 0 && told.used == BYTES && told.heads == BYTES / 2;
    int same = told.cells.mode == 0 && told.cells.due == 0 && told.cells.phase == phase && told.cells.sum == 0;
    return whole && same && used <= LIMIT;
}

int main(void) {
    int skipped = run("empty unknown frames: ", 0x21, 0);
    int data = run("empty DATA: ", 0x00, 1);
    return !(skipped && data && used_by(deep) > LIMIT);
}
