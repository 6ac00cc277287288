/* The run M8 (session.c) on a kept session: opened once, then stepped by a list, by a list without calls, by one that is
 * refused, and by single calls. Prints how it opened, each call's number and two words, how it stands after each piece,
 * and the last masks; then the same of a copy that was made before the single calls and goes another way. */
#include "nested_gcc.h"
#include <stdio.h>

static const uint8_t book[] = {
    3, 0, 2, 0, 1, 0, 12, 0, 24, 0, 32, 0,  /* n, k, no idle type, r, masks at, rows at, length */
    3, 0, 0, 0, 3, 0, 0, 0, 3, 0, 0, 0,     /* masks */
    0, 0, 2, 0, 1, 0, 255, 255,             /* type, 0, end, lower, upper */
};
static const uint8_t list[] = {             /* kind, type, slot */
    NESTED_GCC_MARK, 0, 0, 0,
    NESTED_GCC_ASSIGN, 1, 0, 0,
    NESTED_GCC_UPPER_WALLS, 1, 0, 0,
    NESTED_GCC_BACK, 0, 0, 0,
    NESTED_GCC_UPPER_WALLS, 1, 0, 0,
};

static nested_gcc_state state, copy;

static void print_words(uint64_t call, const uint32_t *words) {
    printf("%lu %lu %lu\n", (unsigned long)call, (unsigned long)words[0], (unsigned long)words[1]);
}

static void print_standing(const nested_gcc_state *of) {
    printf("standing %u, call %lu, calls %lu, marks %u\n", (unsigned)nested_gcc_standing(of),
           (unsigned long)nested_gcc_dead_call(of), (unsigned long)nested_gcc_calls_made(of),
           (unsigned)nested_gcc_open_marks(of));
}

static void print_masks(const nested_gcc_state *of) {
    uint32_t slot;
    printf("masks");
    for (slot = 0; slot < nested_gcc_slots(of); slot++) printf(" %lu", (unsigned long)of->masks[slot]);
    printf("\n");
}

/* Makes the calls of the list in one step. */
static void step(const uint8_t *calls, size_t length) {
    uint32_t answers[2 * sizeof list / 4];
    uint64_t call = nested_gcc_calls_made(&state);
    size_t i;
    printf("step %u\n", (unsigned)nested_gcc_step(&state, calls, length, answers, sizeof answers / sizeof *answers));
    for (i = 0; i < length / 4; i++) print_words(call + i, answers + 2 * i);
    print_standing(&state);
}

static void call(nested_gcc_state *on, uint32_t kind, uint32_t type, uint32_t slot) {
    uint32_t answer[2];
    uint64_t number = nested_gcc_calls_made(on);
    nested_gcc_call(on, kind, type, slot, answer);
    print_words(number, answer);
}

int main(void) {
    printf("a state of %lu bytes\n", (unsigned long)sizeof state);
    printf("open %u\n", (unsigned)nested_gcc_open(book, sizeof book, &state));
    printf("slots %u, types %u\n", (unsigned)nested_gcc_slots(&state), (unsigned)nested_gcc_types(&state));
    print_standing(&state);
    step(list, sizeof list);
    step(list, 0);
    step(list, 3); /* not whole calls */
    copy = state;
    call(&state, NESTED_GCC_REMOVE, 0, 1);
    call(&state, NESTED_GCC_SHOW, 0, 0);
    call(&state, NESTED_GCC_ASSIGN, 1, 0);
    call(&state, NESTED_GCC_ASSIGN, 0, 2);
    print_standing(&state);
    print_masks(&state);
    printf("the copy\n");
    call(&copy, NESTED_GCC_ASSIGN, 0, 0);
    print_standing(&copy);
    print_masks(&copy);
    printf("refused: %u\n", (unsigned)nested_gcc_open(book, sizeof book - 1, &copy)); /* the copy stays */
    print_masks(&copy);
    return 0;
}
