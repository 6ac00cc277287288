/* The idle type of a book: struck leaves it out, and nothing else changes. A line of 4 slots and 3 types, of which
 * type 2 means that the line stands; of type 0 at least 2 within all 4 slots, of type 2 at most 1. The same two
 * decisions are made on the book without an idle type and with type 2 idle. Then type 3, which the book lacks. */
#include "nested_gcc.h"
#include <stdio.h>

#define SLOTS 4
#define TYPES 3
#define CALLS 2
#define IDLE_BYTE 3 /* where the book has it: 0, or the idle type plus 1 */

/* The element of 32 bits at index i. */
static unsigned long element(const uint8_t *elements, int i) {
    const uint8_t *bytes = elements + 4 * i;
    return bytes[0] + 256ul * bytes[1] + 65536ul * bytes[2] + 16777216ul * bytes[3];
}

static void run(const char *name, const uint8_t *book, size_t length) {
    static const uint8_t calls[4 * CALLS] = { /* kind, type, slot */
        NESTED_GCC_ASSIGN, 2, 0, 0,
        NESTED_GCC_REMOVE, 0, 1, 0,
    };
    uint8_t answers[8 * CALLS], masks[4 * SLOTS];
    uint32_t answer =
        nested_gcc_session(book, length, calls, sizeof calls, answers, sizeof answers, masks, sizeof masks);
    int i;
    printf("%s:", name);
    if (answer == NESTED_GCC_IDLE_TYPE) {
        printf(" refused, the book has no such type\n");
        return;
    }
    for (i = 0; i < CALLS; i++) printf(" %lu %lu,", element(answers, 2 * i), element(answers, 2 * i + 1));
    printf(" masks");
    for (i = 0; i < SLOTS; i++) printf(" %lu", element(masks, i));
    printf("\n");
}

int main(void) {
    uint8_t book[] = {
        SLOTS, 0, TYPES, 0, 2, 0, 12, 0, 28, 0, 44, 0,  /* n, k, no idle type, r, masks at, rows at, length */
        7, 0, 0, 0, 7, 0, 0, 0, 7, 0, 0, 0, 7, 0, 0, 0, /* masks */
        0, 0, 4, 0, 2, 0, 255, 255,                     /* type, 0, end, lower, upper: 2 or more of type 0 */
        2, 0, 4, 0, 0, 0, 1, 0,                         /* 1 or none of type 2 */
    };
    run("no idle type", book, sizeof book);
    book[IDLE_BYTE] = 2 + 1;
    run("type 2 idle", book, sizeof book);
    book[IDLE_BYTE] = 3 + 1;
    run("type 3 idle", book, sizeof book);
    return 0;
}
