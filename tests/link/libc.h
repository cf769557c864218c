/* What these tests use of the C library. It is declared here because the kit has an x86-64 library and no headers for it. */
#ifndef LIBC_H
#define LIBC_H

#include <stddef.h>

void *malloc(size_t bytes);
void free(void *block);
void *memcpy(void *restrict to, const void *restrict from, size_t bytes);
void *memset(void *to, int byte, size_t bytes);
int memcmp(const void *a, const void *b, size_t bytes);
int strcmp(const char *a, const char *b);
int printf(const char *restrict format, ...);
void abort(void) __attribute__((noreturn));
int open(const char *path, int flags, ...);
long read(int file, void *to, size_t bytes);
int close(int file);
void *mmap(void *at, size_t bytes, int protection, int flags, int file, long offset);
int mprotect(void *at, size_t bytes, int protection);

enum { READ_ONLY = 0, SHUT = 0, READ_AND_WRITE = 3, PRIVATE_AND_OF_NO_FILE = 0x22 };

#endif
