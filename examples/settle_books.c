/* Settles each file named as an argument: prints its name, the number answered, and for a live book the mask
 * of each slot. */
#include "book_file.h"
#include "nested_gcc.h"
#include <stdio.h>

static void print_masks(const uint8_t *masks, int slots) {
    int s;
    printf("  masks");
    for (s = 0; s < slots; s++) {
        const uint8_t *mask = masks + 4 * s;
        printf(" %lu", mask[0] + 256ul * mask[1] + 65536ul * mask[2] + 16777216ul * mask[3]);
    }
    printf("\n");
}

int main(int argc, char **argv) {
    static uint8_t book[BOOK_MOST], masks[NESTED_GCC_MASKS_BYTES];
    int i;
    for (i = 1; i < argc; i++) {
        size_t length = read_book(argv[i], book);
        uint32_t answer = nested_gcc_settle(book, length, masks, sizeof masks);
        printf("%s: %u", argv[i], (unsigned)answer);
        if (answer == NESTED_GCC_LIVE) {
            printf(" live\n");
            print_masks(masks, book[0] + 256 * book[1]);
        } else {
            printf(answer == NESTED_GCC_DEAD ? " dead\n" : " refused\n");
        }
    }
    return 0;
}
