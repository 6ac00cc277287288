/* Reads the book files of the examples that take file names. */
#include "nested_gcc.h"
#include <stdint.h>
#include <stdio.h>
#include <stdlib.h>

/* Of a file that is longer than any good book only the first bytes are read, one more than the longest has, and no
 * book of that length is good. */
#define BOOK_MOST (NESTED_GCC_BOOK_BYTES + 1)

/* Reads the file into book, which has BOOK_MOST bytes, and returns how many bytes were read. Ends the program
 * if the file cannot be read. */
static size_t read_book(const char *name, uint8_t *book) {
    FILE *file = fopen(name, "rb");
    size_t length;
    if (file == NULL) {
        perror(name);
        exit(1);
    }
    length = fread(book, 1, BOOK_MOST, file);
    if (ferror(file)) {
        perror(name);
        exit(1);
    }
    fclose(file);
    return length;
}
