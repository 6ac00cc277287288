/* Closes the book M2: n = 5, k = 2, masks 3 3 3 3 3, one row: type 0, end 4, lower 2, no upper. Then the same
 * with lower 5, which is dead, and with an output that is too short. */
#include "nested_gcc.h"
#include <stdio.h>

#define SLOTS 5
#define TYPES 2
#define BYTES (2 * TYPES * (SLOTS + 1))

/* The bound for type v and end t. */
static unsigned bound(const uint8_t *bounds, int v, int t) {
    const uint8_t *element = bounds + 2 * (v * (SLOTS + 1) + t);
    return element[0] + 256u * element[1];
}

static void print_line(const char *name, const uint8_t *bounds, int v) {
    int t;
    printf("type %d %s:", v, name);
    for (t = 0; t <= SLOTS; t++) {
        printf(" %u", bound(bounds, v, t));
    }
    printf("\n");
}

int main(void) {
    static uint8_t book[] = {
        5, 0, 2, 0, 1, 0, 12, 0, 32, 0, 40, 0,                       /* n, k, no idle type, r, offsets, length */
        3, 0, 0, 0, 3, 0, 0, 0, 3, 0, 0, 0, 3, 0, 0, 0, 3, 0, 0, 0,  /* masks */
        0, 0, 4, 0, 2, 0, 255, 255,                                  /* type, 0, end, lower, upper */
    };
    uint8_t lowers[BYTES], uppers[BYTES];
    uint32_t answer;
    int lower, v;
    for (lower = 2; lower <= 5; lower += 3) {
        book[36] = (uint8_t)lower;
        answer = nested_gcc_close(book, sizeof book, lowers, sizeof lowers, uppers, sizeof uppers);
        printf("lower %d: %u\n", lower, (unsigned)answer);
        for (v = 0; v < TYPES; v++) {
            print_line("lower", lowers, v);
            print_line("upper", uppers, v);
        }
    }
    answer = nested_gcc_close(book, sizeof book, lowers, sizeof lowers, uppers, sizeof uppers - 1);
    printf("an output one byte short: %u\n", (unsigned)answer);
    return 0;
}
