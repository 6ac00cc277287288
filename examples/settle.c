/* Settles M4 with only type 0 in its first two slots: n = 5, k = 3, masks 1 1 7 7 7, at end 5 type 1 lower 2 and
 * type 2 lower 1. Then with a third such slot, which is dead, and with an output that is too short. */
#include "nested_gcc.h"
#include <stdio.h>

#define SLOTS 5

int main(void) {
    static uint8_t book[] = {
        5, 0, 3, 0, 2, 0, 12, 0, 32, 0, 48, 0,                       /* n, k, no idle type, r, offsets, length */
        1, 0, 0, 0, 1, 0, 0, 0, 7, 0, 0, 0, 7, 0, 0, 0, 7, 0, 0, 0,  /* masks */
        1, 0, 5, 0, 2, 0, 255, 255,                                  /* type, 0, end, lower, upper */
        2, 0, 5, 0, 1, 0, 255, 255,
    };
    uint8_t masks[4 * SLOTS];
    uint32_t answer;
    int third, s;
    for (third = 7; third >= 1; third -= 6) {
        book[12 + 4 * 2] = (uint8_t)third;
        answer = nested_gcc_settle(book, sizeof book, masks, sizeof masks);
        printf("1 1 %d 7 7: %u, masks", third, (unsigned)answer);
        for (s = 0; s < SLOTS; s++) {
            printf(" %u", masks[4 * s]); /* of 3 types; the other bytes are 0 */
        }
        printf("\n");
    }
    answer = nested_gcc_settle(book, sizeof book, masks, sizeof masks - 1);
    printf("an output one byte short: %u\n", (unsigned)answer);
    return 0;
}
