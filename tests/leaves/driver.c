/* Answers questions from standard input by the proved leaves (crates/tried_c), a batch at a time.
   A batch: how many questions, how many bytes; then the questions. A question: the call, how many bytes, a place, the bytes.
   An answer: the number, and the four numbers of out, each MARK where the call left it. All are 64 bits wide, as the machine has them.
   It is a program of its own since the leaves are compiled for x86-64 alone. */
typedef unsigned char u8;
typedef unsigned long u64;
typedef unsigned long usize;

extern long read(int, void *, usize);
extern long write(int, const void *, usize);

/* A slice crosses as its pointer and its length. */
extern u64 eist_read(const u8 *, usize, usize at, u64 *out);
extern u64 eist_settings(const u8 *, usize, u64 *out);
extern u64 eist_header_section(const u8 *, usize, u64 *out);
extern u64 eist_trailers(const u8 *, usize);
extern u64 eist_write_integer(u64 value, u8 *room, usize, u64 *out);
extern u64 eist_write_header(u64 type, u64 length, u8 *room, usize, u64 *out);
extern u64 eist_write_integer_frame(u64 type, u64 value, u8 *room, usize, u64 *out);
extern u64 eist_write_opening(u8 *room, usize, u64 *out);
extern u64 eist_write_goaway(_Bool sent, u64 up, u64 id, u8 *room, usize, u64 *out);

#define MARK (~0ul)
#define BYTES (1ul << 22)
#define QUESTIONS (1ul << 16)

static u64 questions[BYTES / 8];
static u64 answers[QUESTIONS][5];

static int moved(int out, u8 *at, usize left) {
    while (left) {
        long n = out ? write(1, at, left) : read(0, at, left);
        if (n <= 0) return 0;
        at += n;
        left -= (usize)n;
    }
    return 1;
}

/* A write: its two numbers stand before the room, of up to 16 bytes, which goes back behind the count. */
static u64 wrote(u64 call, const u8 *bytes, usize length, u64 place, u64 *out) {
    u64 a[2], number;
    u8 room[16] = {0};
    usize n = length - sizeof a;
    __builtin_memcpy(a, bytes, sizeof a);
    for (usize i = 0; i < n; i++) room[i] = bytes[sizeof a + i];
    switch (call) {
    case 4: number = eist_write_integer(a[0], room, n, out); break;
    case 5: number = eist_write_header(a[0], a[1], room, n, out); break;
    case 6: number = eist_write_integer_frame(a[0], a[1], room, n, out); break;
    case 7: number = eist_write_opening(room, n, out); break;
    default: number = eist_write_goaway(place != 0, a[0], a[1], room, n, out); break;
    }
    __builtin_memcpy(out + 1, room, sizeof room);
    return number;
}

static u64 number(u64 call, const u8 *bytes, usize length, u64 place, u64 *out) {
    switch (call) {
    case 0: return eist_read(bytes, length, place, out);
    case 1: return eist_settings(bytes, length, out);
    case 2: return eist_header_section(bytes, length, out);
    case 3: return eist_trailers(bytes, length);
    default: return wrote(call, bytes, length, place, out);
    }
}

int main(void) {
    u64 batch[2];
    while (moved(0, (u8 *)batch, sizeof batch)) {
        if (batch[0] > QUESTIONS || batch[1] > BYTES || !moved(0, (u8 *)questions, batch[1])) return 2;
        const u8 *at = (const u8 *)questions;
        for (u64 i = 0; i < batch[0]; i++) {
            u64 asked[3];
            __builtin_memcpy(asked, at, sizeof asked);
            at += sizeof asked;
            for (int k = 1; k < 5; k++) answers[i][k] = MARK;
            answers[i][0] = number(asked[0], at, asked[1], asked[2], answers[i] + 1);
            at += asked[1];
        }
        if (!moved(1, (u8 *)answers, batch[0] * sizeof answers[0])) return 2;
    }
    return 0;
}
