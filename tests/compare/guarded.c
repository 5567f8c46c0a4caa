#define _DEFAULT_SOURCE

#include "guarded.h"

#include <stdio.h>
#include <stdlib.h>
#include <sys/mman.h>

/* A whole number of pages, whatever their usual size. */
#define PAGES 65536

void *guarded_end(size_t bytes)
{
    size_t size = (bytes + PAGES - 1) / PAGES * PAGES;
    char *room = mmap(NULL, size + PAGES, PROT_READ | PROT_WRITE, MAP_PRIVATE | MAP_ANONYMOUS, -1, 0);
    if (room == MAP_FAILED || mprotect(room + size, PAGES, PROT_NONE) != 0) {
        fprintf(stderr, "no memory for guarded tables and rows\n");
        exit(2);
    }
    return room + size;
}
