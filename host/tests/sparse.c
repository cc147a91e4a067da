#define _DEFAULT_SOURCE /* for MAP_ANONYMOUS and MAP_NORESERVE */
#include "sparse.h"

#include <stdio.h>
#include <stdlib.h>
#include <sys/mman.h>

uint8_t *sparse(size_t length)
{
    if (length == 0)
        return NULL;
    void *bytes = mmap(NULL, length, PROT_READ | PROT_WRITE, MAP_PRIVATE | MAP_ANONYMOUS | MAP_NORESERVE, -1, 0);
    if (bytes == MAP_FAILED) {
        printf("no room for 0x%zx bytes of guest memory\n", length);
        exit(1);
    }
    return bytes;
}
