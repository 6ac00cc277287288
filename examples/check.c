/* Checks the book M8: n = 3, k = 2, masks 3 3 3, one row: type 0, end 2, lower 1, no upper. */
#include "nested_gcc.h"
#include <stdio.h>

int main(void) {
    static const uint8_t book[] = {
        3, 0, 2, 0, 1, 0, 12, 0, 24, 0, 32, 0,  /* n, k, no idle type, r, masks at, rows at, length */
        3, 0, 0, 0, 3, 0, 0, 0, 3, 0, 0, 0,     /* masks */
        0, 0, 2, 0, 1, 0, 255, 255,             /* type, 0, end, lower, upper */
    };
    printf("whole: %u\n", (unsigned)nested_gcc_check(book, sizeof book));
    printf("11 bytes: %u\n", (unsigned)nested_gcc_check(book, 11));
    return 0;
}
