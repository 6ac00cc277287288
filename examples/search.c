/* Searches for a plan, depth first, with a kept session as the filter. The book has 16 slots and 4 types:
 *   slots 0 to 3 may have the types 0 1 2, slots 4 to 7 the types 0 2 3, slots 8 to 11 the types 1 2 3, the others all;
 *   at most 2 of type 0 within the first 6 slots; at least 6 of type 1 within 12 and 8 within 16; at least 2 of
 *   type 2 within 14; at least 3 of type 3 within 16.
 * The first slot with more than one type is assigned its lowest, behind a mark. Where that is dead the search goes back
 * and removes the type instead, and where that is dead too it goes back to the mark before. It has to: after
 * 0 0 1 1 2 2 0 2 1 1 1 1 the last four slots owe two of type 1 and three of type 3. An assign that is in force took a
 * choice from its slot, so no more marks are open than there are slots: 256 suffice for every book.
 *
 * A node is the opened book or what a decision led to, live or dead. Each costs its own calls: a mark and an assign, or a
 * back and a remove. The other way, without a state, is to send nested_gcc_session the decisions in force for each node:
 * it then opens the book anew and makes every decision of the way again, d(d + 1)/2 on a way of d decisions down.
 * Measured (docs/PERFORMANCE.md), a node then costs some 70 to 110 times as much at 64 slots and 8 types, and some 200
 * to 300 times at 256 slots and 32 types. nested_gcc_session is the form for a host that sends whole
 * lists (session.c). */
#include "nested_gcc.h"
#include <stdio.h>
#include <stdlib.h>

#define SLOTS 16
#define TYPES 4
#define ROWS 5
#define BOOK_BYTES (12 + 4 * SLOTS + 8 * ROWS)

static const unsigned book_masks[SLOTS] = { 7, 7, 7, 7, 13, 13, 13, 13, 14, 14, 14, 14, 15, 15, 15, 15 };

static const struct row {
    unsigned type, end, lower, upper;
} rows[ROWS] = {
    { 0, 6, 0, 2 },
    { 1, 12, 6, NESTED_GCC_NO_UPPER },
    { 1, 16, 8, NESTED_GCC_NO_UPPER },
    { 2, 14, 2, NESTED_GCC_NO_UPPER },
    { 3, 16, 3, NESTED_GCC_NO_UPPER },
};

static uint8_t book[BOOK_BYTES];
static nested_gcc_state state; /* 60 KB: static or allocated, and not on a small stack */
static int nodes, dead_nodes;

/* ---- the book ---- */

static void put16(uint8_t *at, unsigned value) {
    at[0] = (uint8_t)(value & 255u);
    at[1] = (uint8_t)(value >> 8);
}

static void write_book(void) {
    const unsigned fields[] = { SLOTS, TYPES, ROWS, 12, 12 + 4 * SLOTS, BOOK_BYTES }; /* TYPES: k, and no idle type */
    int i;
    for (i = 0; i < 6; i++) put16(book + 2 * i, fields[i]);
    for (i = 0; i < SLOTS; i++) put16(book + 12 + 4 * i, book_masks[i]); /* the other two bytes are 0 */
    for (i = 0; i < ROWS; i++) {
        uint8_t *row = book + 12 + 4 * SLOTS + 8 * i;
        put16(row, rows[i].type); /* and then a byte 0 */
        put16(row + 2, rows[i].end);
        put16(row + 4, rows[i].lower);
        put16(row + 6, rows[i].upper);
    }
}

/* ---- the search ---- */

static int first_type(uint32_t mask) {
    int v = 0;
    while ((mask >> v & 1) == 0) v++;
    return v;
}

static int first_open_slot(void) {
    int slot = 0;
    while (slot < SLOTS && state.masks[slot] == (uint32_t)1 << first_type(state.masks[slot])) slot++;
    return slot;
}

/* Makes the call; the first word of its answer. */
static uint32_t call(uint32_t kind, int type, int slot) {
    uint32_t answer[2];
    if (nested_gcc_call(&state, kind, (uint32_t)type, (uint32_t)slot, answer) >= NESTED_GCC_REFUSED) {
        printf("refused %u\n", (unsigned)(answer[0] - NESTED_GCC_REFUSED));
        exit(1);
    }
    return answer[0];
}

/* Whether there is a plan; the masks then have one type each. */
static int search(void) {
    struct { int slot, type; } assigned[SLOTS]; /* one for each open mark */
    int depth = 0, live = nested_gcc_standing(&state) == NESTED_GCC_STANDING_LIVE;
    for (;;) {
        nodes++;
        dead_nodes += !live;
        if (live) {
            int slot = first_open_slot();
            if (slot == SLOTS) return 1;
            assigned[depth].slot = slot;
            assigned[depth].type = first_type(state.masks[slot]);
            call(NESTED_GCC_MARK, 0, 0);
            live = call(NESTED_GCC_ASSIGN, assigned[depth].type, slot) == NESTED_GCC_CALL_LIVE;
            depth++;
        } else {
            if (depth == 0) return 0;
            depth--;
            call(NESTED_GCC_BACK, 0, 0);
            live = call(NESTED_GCC_REMOVE, assigned[depth].type, assigned[depth].slot) == NESTED_GCC_CALL_LIVE;
        }
    }
}

/* ---- the plan, looked at without the library ---- */

static unsigned count_before(const int *plan, unsigned type, unsigned end) {
    unsigned slot, count = 0;
    for (slot = 0; slot < end; slot++) count += plan[slot] == (int)type;
    return count;
}

static int keeps_masks_and_rows(const int *plan) {
    int i;
    for (i = 0; i < SLOTS; i++) {
        if ((book_masks[i] >> plan[i] & 1) == 0) return 0;
    }
    for (i = 0; i < ROWS; i++) {
        unsigned count = count_before(plan, rows[i].type, rows[i].end);
        if (count < rows[i].lower || count > rows[i].upper) return 0;
    }
    return 1;
}

int main(void) {
    int plan[SLOTS], slot;
    uint32_t opened;
    write_book();
    opened = nested_gcc_open(book, sizeof book, &state);
    if (opened >= NESTED_GCC_REFUSED) {
        printf("refused %u\n", (unsigned)(opened - NESTED_GCC_REFUSED));
        return 1;
    }
    if (!search()) {
        printf("no plan\n");
        return 1;
    }
    for (slot = 0; slot < SLOTS; slot++) plan[slot] = first_type(state.masks[slot]);
    if (!keeps_masks_and_rows(plan)) {
        printf("the masks or the rows are broken\n");
        return 1;
    }
    printf("plan");
    for (slot = 0; slot < SLOTS; slot++) printf(" %d", plan[slot]);
    printf("\nnodes %d, of which %d dead\n", nodes, dead_nodes);
    return 0;
}
