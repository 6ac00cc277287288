/* Checks each file named as an argument: prints its name, the number answered, and what that means. */
#include "book_file.h"
#include "nested_gcc.h"
#include <stdio.h>

static const char *meaning(uint32_t answer) {
    switch (answer) {
    case NESTED_GCC_GOOD: return "good book";
    case NESTED_GCC_TOO_SHORT: return "book under 12 bytes";
    case NESTED_GCC_OUT_OF_RANGE: return "n, k or r out of range";
    case NESTED_GCC_IDLE_TYPE: return "byte 3 above k";
    case NESTED_GCC_LAYOUT: return "an offset or length differs, or the lent length does";
    case NESTED_GCC_MASK: return "mask 0, or a bit from k up";
    case NESTED_GCC_ROW_TYPE: return "row type k or more, or its second byte not 0";
    case NESTED_GCC_ROW_END: return "end 0 or above n";
    case NESTED_GCC_ROW_BOUND: return "lower above 256; upper above 256, not 65535";
    default: return "no answer of this library";
    }
}

int main(int argc, char **argv) {
    static uint8_t book[BOOK_MOST];
    int i;
    for (i = 1; i < argc; i++) {
        size_t length = read_book(argv[i], book);
        uint32_t answer = nested_gcc_check(book, length);
        printf("%s: %u %s\n", argv[i], (unsigned)answer, meaning(answer));
    }
    return 0;
}
