/* Imports the CSV file named as the argument, or data/orders.csv, and prints what check, close and settle answer for
 * its book; of a live one also, for each slot, the types that it may have and how many of each type are made up to it,
 * at least and at most. A refused file is told by its number and what that means, with status 1. */
#include "nested_gcc.h"
#include <stdio.h>
#include <stdlib.h>

static uint8_t book[NESTED_GCC_BOOK_BYTES];
static uint8_t lowers[NESTED_GCC_TABLE_BYTES], uppers[NESTED_GCC_TABLE_BYTES], masks[NESTED_GCC_MASKS_BYTES];

/* Reads the whole file into memory that it allocates. Ends the program if the file cannot be read. */
static uint8_t *read_text(const char *name, size_t *length) {
    FILE *file = fopen(name, "rb");
    uint8_t *text = NULL;
    size_t room = 0, got;
    *length = 0;
    if (file == NULL) {
        perror(name);
        exit(1);
    }
    do {
        if (*length == room) {
            room = 2 * room + 4096;
            text = (uint8_t *)realloc(text, room);
            if (text == NULL) {
                perror(name);
                exit(1);
            }
        }
        got = fread(text + *length, 1, room - *length, file);
        *length += got;
    } while (got > 0);
    if (ferror(file)) {
        perror(name);
        exit(1);
    }
    fclose(file);
    return text;
}

/* What each refusal of nested_gcc_import_csv means, as far as a CSV can have it: it has no second byte of a row. */
static const char *meaning(uint32_t refusal) {
    switch (refusal) {
    case NESTED_GCC_OUT_OF_RANGE: return "n, k or r out of range";
    case NESTED_GCC_ROW_TYPE: return "row type k or more";
    case NESTED_GCC_ROW_END: return "end 0 or above n";
    case NESTED_GCC_ROW_BOUND: return "lower above 256; upper above 256, not 65535";
    case NESTED_GCC_OUTPUT_TOO_SHORT: return "a lent output too short";
    case NESTED_GCC_QUOTING: return "quoting or a line end breaks RFC 4180";
    case NESTED_GCC_FIELD: return "wrong number of fields, or a field not one to five digits";
    default: return "no answer of this library";
    }
}

/* The number of two bytes. */
static unsigned two(const uint8_t *at) {
    return at[0] + 256u * at[1];
}

static int may_have(unsigned slot, unsigned type) {
    return masks[4 * slot + type / 8] >> type % 8 & 1;
}

static unsigned count_struck(unsigned slots, unsigned types) {
    unsigned slot, type, struck = 0;
    for (slot = 0; slot < slots; slot++) {
        for (type = 0; type < types; type++) struck += !may_have(slot, type);
    }
    return struck;
}

static void print_slots(unsigned slots, unsigned types) {
    unsigned slot, type;
    char made[16];
    printf("For each slot the types that it may have, and how many of each are made up to it, at least-at most:\n");
    printf("%-*s", (int)(4 + 3 * types), "slot");
    for (type = 0; type < types; type++) printf("%6s%3u", "type", type);
    printf("\n");
    for (slot = 0; slot < slots; slot++) {
        printf("%4u", slot);
        for (type = 0; type < types; type++) {
            if (may_have(slot, type)) printf("%3u", type);
            else printf("  .");
        }
        for (type = 0; type < types; type++) {
            unsigned at = 2 * (type * (slots + 1) + slot + 1); /* the end slot + 1: with this slot */
            snprintf(made, sizeof made, "%u-%u", two(lowers + at), two(uppers + at));
            printf("%9s", made);
        }
        printf("\n");
    }
}

int main(int argc, char **argv) {
    const char *name = argc > 1 ? argv[1] : "data/orders.csv";
    size_t length;
    uint8_t *text = read_text(name, &length);
    uint32_t answer = nested_gcc_import_csv(text, length, book, sizeof book);
    unsigned slots, types;
    free(text);
    if (answer >= NESTED_GCC_REFUSED) {
        printf("%s: refused by %u: %s\n", name, (unsigned)(answer - NESTED_GCC_REFUSED), meaning(answer));
        return 1;
    }
    length = nested_gcc_book_length(book); /* of the whole buffer just the book is lent on */
    slots = two(book);
    types = book[2];
    printf("%s: %u slots, %u types, %u rows\n", name, slots, types, two(book + 4));
    answer = nested_gcc_check(book, length);
    if (answer != NESTED_GCC_GOOD) {
        printf("check %u: no good book\n", (unsigned)answer);
        return 1;
    }
    printf("check 0: a good book of %u bytes\n", (unsigned)length);
    answer = nested_gcc_close(book, length, lowers, sizeof lowers, uppers, sizeof uppers);
    printf("close %u: %s\n", (unsigned)answer, answer == NESTED_GCC_LIVE ? "live" : "dead, there is no plan");
    answer = nested_gcc_settle(book, length, masks, sizeof masks);
    if (answer != NESTED_GCC_LIVE) {
        printf("settle %u: dead, there is no plan\n", (unsigned)answer);
        return 0;
    }
    printf("settle 0: live, %u of %u types struck from the slots\n", count_struck(slots, types), slots * types);
    print_slots(slots, types);
    return 0;
}
