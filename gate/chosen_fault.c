/* Which fault a run of gate/faults.py has: the number in FAULT. At its end a run tells how many blocks of memory it
   requested, and how many it kept. A run without that copies its program, which `rt try` alone can build. */
#include <stdbool.h>
#include <stdint.h>
#include <stdio.h>
#include <stdlib.h>
#include <sys/stat.h>

int __sanitizer_install_malloc_and_free_hooks(void (*)(const volatile void *, size_t), void (*)(const volatile void *));

static long chosen, requests, ends;

static void requested(const volatile void *block, size_t size) { (void)block, (void)size, ++requests; }
static void ended(const volatile void *block) { ends += block != NULL; }
static void tell(void) { fprintf(stderr, "memory: %ld requests, %ld kept\n", requests, requests - ends); }

static void copy(const char *program) {
    static char part[1 << 16];
    FILE *from = fopen(program, "r"), *to = fopen("COPY", "w");
    for (size_t size; from && to && (size = fread(part, 1, sizeof part, from));) fwrite(part, 1, size, to);
    if (from) fclose(from);
    if (to) fclose(to);
    chmod("COPY", 0755);
}

__attribute__((constructor)) static void choose(int count, char **words) {
    const char *fault = getenv("FAULT");
    if (!fault) return copy(count ? words[0] : "");
    chosen = atol(fault);
    atexit(tell);
    __sanitizer_install_malloc_and_free_hooks(requested, ended);
}

bool fault_is(uint32_t number) { return chosen == (long)number; }
