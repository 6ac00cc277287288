#include "nested_gcc.h"
#include <stdio.h>

/* 4 slots, 5 types: slot 0 may have the types 2 3 4, the others 0 1 2; at most one of each of the types 0 1 2 */
static const uint8_t book[] = {
    4, 0, 5, 0, 3, 0, 12, 0, 28, 0, 52, 0,
    28, 0, 0, 0, 7, 0, 0, 0, 7, 0, 0, 0, 7, 0, 0, 0,
    0, 0, 4, 0, 0, 0, 1, 0, 1, 0, 4, 0, 0, 0, 1, 0, 2, 0, 4, 0, 0, 0, 1, 0,
};
static nested_gcc_state state; /* the session, in memory of the program */

/* Whether there is a plan from where the session stands; each mask then has one type. */
static int search(void) {
    uint32_t answer[2], slot = 0, type = 0;
    if (nested_gcc_standing(&state) != NESTED_GCC_STANDING_LIVE) return 0;
    while (slot < nested_gcc_slots(&state) && (state.masks[slot] & (state.masks[slot] - 1)) == 0) slot++;
    if (slot == nested_gcc_slots(&state)) return 1;
    while ((state.masks[slot] >> type & 1) == 0) type++;
    nested_gcc_call(&state, NESTED_GCC_MARK, 0, 0, answer);
    nested_gcc_call(&state, NESTED_GCC_ASSIGN, type, slot, answer); /* the slot's lowest type; or, if that fails, */
    if (search()) return 1;
    nested_gcc_call(&state, NESTED_GCC_BACK, 0, 0, answer);
    nested_gcc_call(&state, NESTED_GCC_REMOVE, type, slot, answer); /* one of its others */
    return search();
}

int main(void) {
    uint32_t slot, type;
    if (nested_gcc_open(book, sizeof book, &state) >= NESTED_GCC_REFUSED || !search()) {
        printf("refused, or no plan\n");
        return 1;
    }
    printf("plan");
    for (slot = 0; slot < nested_gcc_slots(&state); slot++) {
        for (type = 0; state.masks[slot] >> type != 1; type++) {}
        printf(" %u", (unsigned)type);
    }
    printf(", after %u calls\n", (unsigned)nested_gcc_calls_made(&state)); /* type 2 in slot 0 was taken back */
    return 0;
}
