/* The run M8: n = 3, k = 2, masks 3 3 3, one row: type 0, end 2, lower 1, no upper; nine calls. Prints how the session
 * opened, each call's index and two words, and the last masks. */
#include "nested_gcc.h"
#include <stdio.h>

#define SLOTS 3
#define CALLS 9

/* The element of 32 bits at index i. */
static unsigned long element(const uint8_t *elements, int i) {
    const uint8_t *bytes = elements + 4 * i;
    return bytes[0] + 256ul * bytes[1] + 65536ul * bytes[2] + 16777216ul * bytes[3];
}

int main(void) {
    static const uint8_t book[] = {
        3, 0, 2, 0, 1, 0, 12, 0, 24, 0, 32, 0,  /* n, k, no idle type, r, masks at, rows at, length */
        3, 0, 0, 0, 3, 0, 0, 0, 3, 0, 0, 0,     /* masks */
        0, 0, 2, 0, 1, 0, 255, 255,             /* type, 0, end, lower, upper */
    };
    static const uint8_t calls[4 * CALLS] = {   /* kind, type, slot */
        NESTED_GCC_MARK, 0, 0, 0,
        NESTED_GCC_ASSIGN, 1, 0, 0,
        NESTED_GCC_UPPER_WALLS, 1, 0, 0,
        NESTED_GCC_BACK, 0, 0, 0,
        NESTED_GCC_UPPER_WALLS, 1, 0, 0,
        NESTED_GCC_REMOVE, 0, 1, 0,
        NESTED_GCC_SHOW, 0, 0, 0,
        NESTED_GCC_ASSIGN, 1, 0, 0,
        NESTED_GCC_ASSIGN, 0, 2, 0,
    };
    uint8_t answers[8 * CALLS], masks[4 * SLOTS];
    uint32_t answer =
        nested_gcc_session(book, sizeof book, calls, sizeof calls, answers, sizeof answers, masks, sizeof masks);
    int i;
    if (answer >= NESTED_GCC_REFUSED) {
        printf("refused %u\n", (unsigned)(answer - NESTED_GCC_REFUSED));
        return 0;
    }
    printf("open %u\n", (unsigned)answer);
    for (i = 0; i < CALLS; i++) {
        printf("%d %lu %lu\n", i, element(answers, 2 * i), element(answers, 2 * i + 1));
    }
    printf("masks");
    for (i = 0; i < SLOTS; i++) {
        printf(" %lu", element(masks, i));
    }
    printf("\n");
    return 0;
}
