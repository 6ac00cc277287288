/* Buffers of length 0, each passed as NULL. So an empty std::vector may be passed as v.data() and v.size(), whatever its
 * data() is. The book has one slot, two types and no rows; the one call shows slot 0, the one pick is type 1 there. A
 * second book asks for two of type 0 in its one slot, and is dead. */
#include "nested_gcc.h"
#include <stdio.h>

static const uint8_t book[] = {
    1, 0, 2, 0, 0, 0, 12, 0, 16, 0, 16, 0,  /* n, k, no idle type, r, masks at, rows at, length */
    3, 0, 0, 0,                             /* mask */
};
static const uint8_t dead_book[] = {
    1, 0, 2, 0, 1, 0, 12, 0, 16, 0, 24, 0,  /* the same with one row */
    3, 0, 0, 0,                             /* mask */
    0, 0, 1, 0, 2, 0, 255, 255,             /* type, 0, end, lower, no upper */
};
static const uint8_t call[] = { NESTED_GCC_SHOW, 0, 0, 0 };
static const uint8_t pick[] = { NESTED_GCC_ASSIGN, 1, 0, 0 };
static nested_gcc_state state;

static void print(const char *what, uint32_t answer) {
    printf("%s: %u\n", what, (unsigned)answer);
}

int main(void) {
    static const uint8_t text[] = { '1', ',', '2' };
    uint8_t lowers[8], uppers[8], answers[8], masks[4] = { 0, 0, 0, 0 }, dead[1], written[sizeof book];
    print("check, no book", nested_gcc_check(NULL, 0));
    print("close, no book", nested_gcc_close(NULL, 0, lowers, sizeof lowers, uppers, sizeof uppers));
    print("close, no lowers", nested_gcc_close(book, sizeof book, NULL, 0, uppers, sizeof uppers));
    print("close, no uppers", nested_gcc_close(book, sizeof book, lowers, sizeof lowers, NULL, 0));
    print("settle, no book", nested_gcc_settle(NULL, 0, masks, sizeof masks));
    print("settle, no masks", nested_gcc_settle(book, sizeof book, NULL, 0));
    print("session, no book",
          nested_gcc_session(NULL, 0, call, sizeof call, answers, sizeof answers, masks, sizeof masks));
    print("session, a call and no answers",
          nested_gcc_session(book, sizeof book, call, sizeof call, NULL, 0, masks, sizeof masks));
    print("session, a call and no masks",
          nested_gcc_session(book, sizeof book, call, sizeof call, answers, sizeof answers, NULL, 0));
    print("nothing at all", nested_gcc_session(NULL, 0, NULL, 0, NULL, 0, NULL, 0));
    print("session, no calls and no answers",
          nested_gcc_session(book, sizeof book, NULL, 0, NULL, 0, masks, sizeof masks));
    printf("mask of slot 0: %u\n", masks[0]);
    print("open, no book", nested_gcc_open(NULL, 0, &state));
    print("open", nested_gcc_open(book, sizeof book, &state));
    print("step, no calls and no answers", nested_gcc_step(&state, NULL, 0, NULL, 0));
    print("step, a call and no answers", nested_gcc_step(&state, call, sizeof call, NULL, 0));
    printf("calls made: %u\n", (unsigned)nested_gcc_calls_made(&state));
    print("probe, no book", nested_gcc_probe(NULL, 0, pick, sizeof pick, dead, sizeof dead));
    print("probe, a pick and no output", nested_gcc_probe(book, sizeof book, pick, sizeof pick, NULL, 0));
    print("probe, no picks and no output", nested_gcc_probe(book, sizeof book, NULL, 0, NULL, 0));
    print("canonical, no book", nested_gcc_canonical(NULL, 0, written, sizeof written));
    print("canonical, no output", nested_gcc_canonical(book, sizeof book, NULL, 0));
    print("canonical, a dead book and no output", nested_gcc_canonical(dead_book, sizeof dead_book, NULL, 0));
    print("import, no text", nested_gcc_import_csv(NULL, 0, written, sizeof written));
    print("import, no text and no book", nested_gcc_import_csv(NULL, 0, NULL, 0));
    print("import, no book", nested_gcc_import_csv(text, sizeof text, NULL, 0));
    return 0;
}
