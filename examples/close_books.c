/* Closes each file named as an argument: prints its name, the number answered, and for a live book the
 * bounds of each type at the ends 0 to n. */
#include "book_file.h"
#include "nested_gcc.h"
#include <stdio.h>

/* The bounds of one type: two bytes for each end. */
static void print_line(const char *name, const uint8_t *line, int ends) {
    int t;
    printf("  %s", name);
    for (t = 0; t < ends; t++) {
        printf(" %u", line[2 * t] + 256u * line[2 * t + 1]);
    }
}

static void print_table(const uint8_t *lowers, const uint8_t *uppers, int types, int ends) {
    int v;
    for (v = 0; v < types; v++) {
        printf("  type %d:", v);
        print_line("lower", lowers + 2 * v * ends, ends);
        print_line("upper", uppers + 2 * v * ends, ends);
        printf("\n");
    }
}

int main(int argc, char **argv) {
    static uint8_t book[BOOK_MOST], lowers[NESTED_GCC_TABLE_BYTES], uppers[NESTED_GCC_TABLE_BYTES];
    int i;
    for (i = 1; i < argc; i++) {
        size_t length = read_book(argv[i], book);
        uint32_t answer = nested_gcc_close(book, length, lowers, sizeof lowers, uppers, sizeof uppers);
        printf("%s: %u", argv[i], (unsigned)answer);
        if (answer == NESTED_GCC_LIVE) {
            printf(" live\n");
            print_table(lowers, uppers, book[2], book[0] + 256 * book[1] + 1);
        } else {
            printf(answer == NESTED_GCC_DEAD ? " dead\n" : " refused\n");
        }
    }
    return 0;
}
