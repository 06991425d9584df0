/* Counts the calls of malloc, calloc and realloc, refuses the one of number REFUSED, and writes to the file COUNTED how
   many there were. A program is run with it by LD_PRELOAD. */
#define _GNU_SOURCE
#include <errno.h>
#include <fcntl.h>
#include <stdio.h>
#include <stdlib.h>
#include <string.h>
#include <sys/syscall.h>
#include <unistd.h>

extern void *__libc_malloc(size_t);
extern void *__libc_calloc(size_t, size_t);
extern void *__libc_realloc(void *, size_t);

static long calls, refused;

static int refuses(void) {
    int is_refused = __atomic_add_fetch(&calls, 1, __ATOMIC_SEQ_CST) == refused;
    if (is_refused) errno = ENOMEM;
    return is_refused;
}

void *malloc(size_t size) { return refuses() ? NULL : __libc_malloc(size); }
void *calloc(size_t count, size_t size) { return refuses() ? NULL : __libc_calloc(count, size); }
void *realloc(void *block, size_t size) { return refuses() ? NULL : __libc_realloc(block, size); }

__attribute__((constructor)) static void begin(void) {
    const char *number = getenv("REFUSED");
    calls = 0;
    refused = number ? atol(number) : 0;
}

__attribute__((destructor)) static void end(void) {
    const char *name = getenv("COUNTED");
    char text[32];
    int file = name ? open(name, O_WRONLY | O_CREAT | O_TRUNC, 0600) : -1;
    if (file >= 0) {
        int length = snprintf(text, sizeof text, "%ld", calls);
        if (write(file, text, length) != length) syscall(SYS_exit_group, 125);
        close(file);
    }
}

/* A program with threads ends so, and no destructor runs. */
void _exit(int status) {
    end();
    syscall(SYS_exit_group, status);
    __builtin_unreachable();
}
