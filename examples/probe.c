/* Before a planner picks a type for a slot: which picks would die. A line of 4 slots and 3 types; of type 0 at least 1
 * within the first 2 slots, and at most 1 in all; slot 3 may not have type 2. Prints the menus of slots 1 and 3; then
 * that of slot 1 with 2 of type 0 due within the first 2 slots, which is dead; and what refuses a list that has a
 * remove. */
#include "nested_gcc.h"
#include <stdio.h>

#define SLOTS 4
#define TYPES 3
#define LOWER 32 /* where the book has the lower of its first row */

static void write_call(uint8_t *call, unsigned kind, unsigned type, unsigned slot) {
    call[0] = (uint8_t)kind;
    call[1] = (uint8_t)type;
    call[2] = (uint8_t)(slot % 256);
    call[3] = (uint8_t)(slot / 256);
}

static void print_refusal(uint32_t answer) {
    const char *meaning = "a fault of the book or of the buffers";
    switch (answer) {
    case NESTED_GCC_CALL_KIND: meaning = "a call is no assign"; break;
    case NESTED_GCC_CALL_SLOT: meaning = "there is no such slot"; break;
    case NESTED_GCC_CALL_TYPE: meaning = "there is no such type"; break;
    }
    printf("refused by %u, %s\n", (unsigned)(answer - NESTED_GCC_REFUSED), meaning);
}

static void print_menu(const uint8_t *book, size_t length, unsigned slot) {
    uint8_t calls[4 * TYPES], dead[TYPES];
    uint32_t answer;
    unsigned type;
    for (type = 0; type < TYPES; type++) write_call(calls + 4 * type, NESTED_GCC_ASSIGN, type, slot);
    answer = nested_gcc_probe(book, length, calls, sizeof calls, dead, sizeof dead);
    printf("slot %u: ", slot);
    if (answer >= NESTED_GCC_REFUSED) {
        print_refusal(answer);
        return;
    }
    printf("the book is %s", answer == NESTED_GCC_LIVE ? "live" : "dead");
    for (type = 0; type < TYPES; type++) {
        printf("%s type %u would %s", type == 0 ? ";" : ",", type, dead[type] ? "die" : "live");
    }
    printf("\n");
}

int main(void) {
    uint8_t book[] = {
        SLOTS, 0, TYPES, 0, 2, 0, 12, 0, 28, 0, 44, 0,  /* n, k, no idle type, r, masks at, rows at, length */
        7, 0, 0, 0, 7, 0, 0, 0, 7, 0, 0, 0, 3, 0, 0, 0, /* masks */
        0, 0, 2, 0, 1, 0, 255, 255,                     /* type, 0, end, lower, upper: 1 or more of type 0 */
        0, 0, 4, 0, 0, 0, 1, 0,                         /* 1 or none of type 0 */
    };
    uint8_t calls[8], dead[2];
    print_menu(book, sizeof book, 1);
    print_menu(book, sizeof book, 3);
    book[LOWER] = 2;
    print_menu(book, sizeof book, 1);
    book[LOWER] = 1;
    write_call(calls, NESTED_GCC_ASSIGN, 0, 1);
    write_call(calls + 4, NESTED_GCC_REMOVE, 0, 1);
    printf("an assign and a remove: ");
    print_refusal(nested_gcc_probe(book, sizeof book, calls, sizeof calls, dead, sizeof dead));
    return 0;
}
