/* Counts the blocks that a program asks for, where it is preloaded, and tells their number on standard error at the end. */
#include <stddef.h>
#include <stdio.h>

extern void *__libc_malloc(size_t size);

static unsigned long blocks;

void *malloc(size_t size) {
    blocks++;
    return __libc_malloc(size);
}

__attribute__((destructor)) static void tell(void) {
    fprintf(stderr, "%lu\n", blocks);
}
