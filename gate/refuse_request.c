// Refuses one request for memory of the program that it is loaded into: the one that REFUSED_REQUEST numbers, counted
// from 1 in the order in which the program makes them. At the end it tells whether that request came, and how many
// blocks were never freed.
#include <stddef.h>
#include <stdio.h>
#include <stdlib.h>
#include <sys/syscall.h>
#include <unistd.h>

void *__libc_malloc(size_t size);
void *__libc_realloc(void *block, size_t size);
void __libc_free(void *block);

static long refused_request, requests, kept;

__attribute__((constructor)) static void begin(void) {
    const char *number = getenv("REFUSED_REQUEST");
    refused_request = number ? atol(number) : 0;
    requests = kept = 0;
}

__attribute__((destructor)) static void tell(void) {
    char text[64];
    const char *met = refused_request > 0 && requests >= refused_request ? "refused" : "granted";
    int length = snprintf(text, sizeof text, "memory: %s, %ld kept\n", met, kept);
    if (write(STDERR_FILENO, text, length) != length)
        abort();
}

// A program with threads ends by this call, and runs no destructor.
void _exit(int status) { tell(), syscall(SYS_exit_group, status), abort(); }

static int is_refused(void) { return __atomic_add_fetch(&requests, 1, __ATOMIC_SEQ_CST) == refused_request; }

// A block that was given counts as kept until it is freed.
static void *given(void *block) {
    if (block)
        __atomic_add_fetch(&kept, 1, __ATOMIC_SEQ_CST);
    return block;
}

void *malloc(size_t size) { return is_refused() ? NULL : given(__libc_malloc(size)); }

void *realloc(void *block, size_t size) {
    if (is_refused())
        return NULL;
    return block ? __libc_realloc(block, size) : given(__libc_realloc(NULL, size));
}

void free(void *block) {
    if (block)
        __atomic_sub_fetch(&kept, 1, __ATOMIC_SEQ_CST);
    __libc_free(block);
}
