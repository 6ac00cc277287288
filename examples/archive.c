/* Turns the book file named as the argument into its canonical book, for an archive: prints how many rows and bytes the
 * two have, and the canonical rows. A second argument names the file that the canonical book is written to. A dead book
 * is told as such, and no file is written. A refused one is told by its number and what that means, with status 1.
 * Without arguments it takes three books of its own: nine orders, of which most follow from others; M2, whose canonical
 * book has a row more; and M5, which is dead. */
#include "book_file.h"
#include "nested_gcc.h"
#include <stdio.h>

/* 6 slots and 2 types. */
static const uint8_t nine_orders[] = {
    6, 0, 2, 0, 9, 0, 12, 0, 36, 0, 108, 0,                                         /* n, k, no idle type, r, .. */
    3, 0, 0, 0, 3, 0, 0, 0, 3, 0, 0, 0, 3, 0, 0, 0, 3, 0, 0, 0, 3, 0, 0, 0,         /* masks */
    0, 0, 3, 0, 1, 0, 255, 255, 0, 0, 6, 0, 2, 0, 255, 255, 0, 0, 6, 0, 0, 0, 3, 0, /* type, 0, end, lower, upper */
    0, 0, 5, 0, 1, 0, 255, 255, 0, 0, 6, 0, 1, 0, 4, 0, 0, 0, 6, 0, 2, 0, 255, 255, /* these follow */
    0, 0, 4, 0, 1, 0, 4, 0, 1, 0, 6, 0, 3, 0, 255, 255, 1, 0, 4, 0, 0, 0, 3, 0,
};

/* 5 slots and 2 types, of type 0 at least 2 within 4 slots. Of type 1 that leaves at most 2 there. */
static const uint8_t m2[] = {
    5, 0, 2, 0, 1, 0, 12, 0, 32, 0, 40, 0, 3, 0, 0, 0, 3, 0, 0, 0, 3, 0, 0, 0, 3, 0, 0, 0, 3, 0, 0, 0,
    0, 0, 4, 0, 2, 0, 255, 255,
};

/* 2 slots and 2 types, of type 0 at least 2 in the first slot. */
static const uint8_t m5[] = {
    2, 0, 2, 0, 1, 0, 12, 0, 20, 0, 28, 0, 3, 0, 0, 0, 3, 0, 0, 0,
    0, 0, 1, 0, 2, 0, 255, 255,
};

/* What each refusal of nested_gcc_canonical means. */
static const char *meaning(uint32_t refusal) {
    switch (refusal) {
    case NESTED_GCC_TOO_SHORT: return "book under 12 bytes";
    case NESTED_GCC_OUT_OF_RANGE: return "n, k or r out of range";
    case NESTED_GCC_IDLE_TYPE: return "byte 3 above k";
    case NESTED_GCC_LAYOUT: return "an offset or length differs";
    case NESTED_GCC_MASK: return "mask 0, or a bit from k up";
    case NESTED_GCC_ROW_TYPE: return "row type k or more, or its second byte not 0";
    case NESTED_GCC_ROW_END: return "end 0 or above n";
    case NESTED_GCC_ROW_BOUND: return "lower above 256; upper above 256, not 65535";
    case NESTED_GCC_OUTPUT_TOO_SHORT: return "a lent output too short";
    case NESTED_GCC_TOO_MANY_ROWS: return "the canonical book needs more than 1,024 rows";
    default: return "no answer of this library";
    }
}

/* The number of two bytes. */
static unsigned two(const uint8_t *at) {
    return at[0] + 256u * at[1];
}

static void print_counts(const uint8_t *book, const uint8_t *canonical) {
    unsigned had = two(book + 4), has = two(canonical + 4);
    printf("rows: %u, canonical: %u, ", had, has);
    if (has < had) printf("saved %u", had - has);
    else if (has > had) printf("%u more", has - had);
    else printf("as many");
    printf("; bytes: %u, canonical: %u\n", (unsigned)nested_gcc_book_length(book),
           (unsigned)nested_gcc_book_length(canonical));
}

static void print_rows(const uint8_t *book) {
    unsigned i, rows = two(book + 4);
    for (i = 0; i < rows; i++) {
        const uint8_t *row = book + two(book + 8) + 8 * i;
        unsigned lower = two(row + 4), upper = two(row + 6);
        printf("  type %u, end %u:", (unsigned)row[0], two(row + 2));
        if (lower > 0) printf(" at least %u", lower);
        if (upper != NESTED_GCC_NO_UPPER) printf("%s at most %u", lower > 0 ? "," : "", upper);
        printf("\n");
    }
}

/* Writes the book to the file. Ends the program if it cannot be written. */
static void write_book(const char *name, const uint8_t *book) {
    size_t length = nested_gcc_book_length(book); /* of the whole buffer just the book */
    FILE *file = fopen(name, "wb");
    if (file == NULL) {
        perror(name);
        exit(1);
    }
    if (fwrite(book, 1, length, file) != length || fclose(file) != 0) {
        perror(name);
        exit(1);
    }
}

/* Returns the program's status. A to of NULL names no file. */
static int archive(const char *name, const uint8_t *book, size_t length, const char *to) {
    static uint8_t canonical[NESTED_GCC_BOOK_BYTES];
    uint32_t answer = nested_gcc_canonical(book, length, canonical, sizeof canonical);
    printf("%s: ", name);
    if (answer >= NESTED_GCC_REFUSED) {
        printf("refused by %u: %s\n", (unsigned)(answer - NESTED_GCC_REFUSED), meaning(answer));
        return 1;
    }
    if (answer == NESTED_GCC_DEAD) {
        printf("dead, there is no plan and no canonical book\n");
        return 0;
    }
    print_counts(book, canonical);
    print_rows(canonical);
    if (to != NULL) write_book(to, canonical);
    return 0;
}

int main(int argc, char **argv) {
    static uint8_t book[BOOK_MOST];
    int status;
    if (argc > 1) {
        size_t length = read_book(argv[1], book);
        return archive(argv[1], book, length, argc > 2 ? argv[2] : NULL);
    }
    status = archive("nine orders", nine_orders, sizeof nine_orders, NULL);
    status |= archive("M2", m2, sizeof m2, NULL);
    status |= archive("M5", m5, sizeof m5, NULL);
    return status;
}
