/* Coverage-guided schedules of calls: the bytes are a schedule (played.h), and each call of it is held (held.h). */
#include "played.h"

int dprintf(int file, const char *restrict format, ...);

int LLVMFuzzerTestOneInput(const uint8_t *bytes, size_t count) {
    static play p = {.by = invoke};
    const char *rule = played(&p, bytes, count);
    if (!rule) return 0;
    dprintf(2, "FAILED: %s, of %s with number 0x%llx\n", rule, kind_names[p.kind], (unsigned long long)p.number);
    abort();
}
