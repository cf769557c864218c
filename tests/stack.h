/* How much stack a call uses: it runs on a stack of its own that was marked. The includer says how large that is, MARKED. */
#ifndef STACK_H
#define STACK_H

#define MARK 0xa5a5a5a5a5a5a5a5ul

static unsigned long marked[MARKED / sizeof(unsigned long)] __attribute__((aligned(16)));

/* Calls f with the stack pointer at top. The registers named are those that a call may change, and the one that keeps the old pointer. */
static void on_stack(void *top, void (*f)(void)) {
#if defined(__x86_64__)
    __asm__ volatile("movq %%rsp, %%rbx\n\t"
                     "movq %0, %%rsp\n\t"
                     "callq *%1\n\t"
                     "movq %%rbx, %%rsp"
                     :
                     : "r"(top), "r"(f)
                     : "rbx", "rax", "rcx", "rdx", "rsi", "rdi", "r8", "r9", "r10", "r11", "memory", "cc", "xmm0", "xmm1",
                       "xmm2", "xmm3", "xmm4", "xmm5", "xmm6", "xmm7", "xmm8", "xmm9", "xmm10", "xmm11", "xmm12", "xmm13",
                       "xmm14", "xmm15");
#elif defined(__aarch64__)
    __asm__ volatile("mov x19, sp\n\t"
                     "mov sp, %0\n\t"
                     "blr %1\n\t"
                     "mov sp, x19"
                     :
                     : "r"(top), "r"(f)
                     : "x19", "x0", "x1", "x2", "x3", "x4", "x5", "x6", "x7", "x8", "x9", "x10", "x11", "x12", "x13", "x14", "x15",
                       "x16", "x17", "x18", "x30", "memory", "cc", "v0", "v1", "v2", "v3", "v4", "v5", "v6", "v7", "v8", "v9", "v10",
                       "v11", "v12", "v13", "v14", "v15", "v16", "v17", "v18", "v19", "v20", "v21", "v22", "v23", "v24", "v25",
                       "v26", "v27", "v28", "v29", "v30", "v31");
#else
#error "on_stack is written for x86-64 and aarch64"
#endif
}

static unsigned long used_by(void (*f)(void)) {
    const unsigned long words = MARKED / sizeof *marked;
    unsigned long left = 0;
    for (unsigned long i = 0; i < words; i++) marked[i] = MARK;
    on_stack(marked + words, f);
    while (left < words && marked[left] == MARK) left++;
    return (words - left) * sizeof *marked;
}

#endif
