/* The version of the header, as text and as its numbers, and that of the archive, which a host may compare. */
#include "nested_gcc.h"
#include <stdio.h>

int main(void) {
    uint32_t archive = nested_gcc_version();
    printf("header %s %u.%u.%u\n", NESTED_GCC_VERSION, NESTED_GCC_VERSION_MAJOR, NESTED_GCC_VERSION_MINOR,
           NESTED_GCC_VERSION_PATCH);
    printf("archive %u.%u.%u\n", (unsigned)(archive >> 16), (unsigned)(archive >> 8 & 255), (unsigned)(archive & 255));
    return archive == NESTED_GCC_VERSION_NUMBER ? 0 : 1;
}
