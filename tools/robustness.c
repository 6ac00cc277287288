/*
 * Random and damaged inputs for the functions of nested_gcc.h, made and judged here; tools/robustness builds
 * and runs it. As a program: robustness SEED FIRST COUNT runs the inputs FIRST to FIRST + COUNT - 1 of that seed
 * and prints how many of each kind gave each answer. An input follows from the seed and its number alone, so that a
 * failure is run again by its number. Built with -DFUZZ it is a target of libFuzzer instead.
 *
 * Check, close, settle, session and probe run twice on each input: once with every buffer against an unreadable page
 * behind it, once with one in front, and NULL for a buffer without a byte; the outputs hold other bytes each time, and
 * for one input in eight the stack does. What must hold:
 * - the answers are those that nested_gcc.h names, and agree with each other: check refuses a book as a plain reading
 *   does, the others as check does, 10 and 9 are answered exactly where the lengths say so, 11 to 13 where the first
 *   bad call of a list of probes does, a book dead in closing is dead in settling, and session and probe open as settle
 *   answers; close answers and writes as a plain closing does;
 * - an output is written exactly as far as the answer says, nowhere if it is a refusal; every other byte, and the
 *   256 on the open side of each buffer, are as they were; book and calls too;
 * - both runs answer and write the same;
 * - dead writes zeros; live writes lowers at most uppers, and masks that are not empty and lie within the book's; the
 *   last masks of a session lie within those of settle;
 * - a call is refused exactly where a number applies to it, by the first in the order 11, 12, 13, 15, 14, 16, with the
 *   flag and the marks that the words before it tell; the words of any other are such as its kind has;
 * - probe's bytes are 1 on a dead book; on a live one each is the first word of its call in a kept session that goes
 *   back after each, and some of a list are that of a session of the one call.
 * Then a good book goes once more through the entries, with another idle type or none. What must hold:
 * - the answers and all that is written are the same, but for the second word of an answer live; that is not less for
 *   the book that has no idle type;
 * - in a session without marks the struck figures add up to what the masks lost since settle's, the idle type left out.
 * Then the same book and calls go twice through a kept session (open, step, call), each time cut into other pieces, in
 * a state that held other bytes, with lists and lengths to be refused between them and the state moved now and then.
 * What must hold:
 * - a refused open, a refused step, and an open with a slice too short leave every byte of the state as it was; open
 *   answers as check, settle and session do;
 * - after every piece the bytes about the state and the masks past the n-th are as they were, and what the state says
 *   of itself (sizes, calls made, standing, marks) follows from the words so far;
 * - the words and the last masks are those of session where it took the list, and the same both times where not.
 * Then the book goes through canonical, twice as the entries do, with an output that has no byte, or one too few, or is
 * as long as the canonical book, or longer, or has any length. What must hold:
 * - the answer is that of a plain reading and a plain closing: the book's refusal, dead, 19, 9 by the output's length,
 *   or 0; both runs answer and write the same;
 * - the canonical book is written to the front of the output and nothing else is, on a refusal and of a dead book
 *   nothing; the book is kept;
 * - what is written is the front of the book with a row at each corner of the plain table; check takes it, close writes
 *   the same table for both, and it is its own canonical book.
 * Then a text goes through import: twice as the entries do, and once with an output that has room for every book. What
 * must hold:
 * - the answer is one of import's, and the one that the making of the text says where it does; with more room it is the
 *   same, but for 9, which is answered exactly where the book is longer than the output;
 * - the book is written to the front of the output and nothing else is, on a refusal nothing; the text is kept;
 * - both runs answer and write the same;
 * - check takes the book, all its masks are full, it is the one that the text was made from, if it was; and its own
 *   records, written plainly, import as the same book.
 * With -DSHAM=1 to 48 a wrong library is judged, and must be found out: see the functions `sham` below.
 */
#define _DEFAULT_SOURCE
#include "nested_gcc.h"
#include <signal.h>
#include <stdarg.h>
#include <stdio.h>
#include <stdlib.h>
#include <string.h>
#include <sys/mman.h>
#include <unistd.h>

#define PAGE 4096u
#define GUARD 256u
#define BOOK_ROOM (3 * PAGE)     /* more than NESTED_GCC_BOOK_BYTES */
#define CALLS_ROOM (5 * PAGE)    /* more than NESTED_GCC_CALLS_BYTES */
#define TABLE_ROOM (5 * PAGE)    /* NESTED_GCC_TABLE_BYTES and more */
#define ANSWERS_ROOM (9 * PAGE)  /* NESTED_GCC_ANSWERS_BYTES and more */
#define TEXT_ROOM (10 * PAGE)    /* more than 1030 records of the longest fields */

#ifndef SHAM
#define SHAM 0
#endif

/* ---- failures ---- */

static unsigned long long seed, number;

static void fail(const char *format, ...) {
    va_list arguments;
    va_start(arguments, format);
    fprintf(stderr, "input %llu of seed %llu: ", number, seed);
    vfprintf(stderr, format, arguments);
    fputc('\n', stderr);
    va_end(arguments);
#ifdef FUZZ
    abort(); /* libFuzzer then keeps the input */
#else
    exit(1);
#endif
}

#ifndef FUZZ

/* An access outside the lent buffers, or a crash. */
static void on_signal(int signal_number) {
    char line[128];
    int length = snprintf(line, sizeof line, "input %llu of seed %llu: signal %d\n", number, seed, signal_number);
    if (write(2, line, (size_t)length) != length) _exit(4);
    _exit(3);
}

static void watch_signals(void) {
    static uint8_t handler_stack[64 * 1024];
    static const int signals[] = { SIGSEGV, SIGBUS, SIGILL, SIGFPE };
    struct sigaction action;
    stack_t stack;
    size_t i;
    memset(&stack, 0, sizeof stack);
    stack.ss_sp = handler_stack;
    stack.ss_size = sizeof handler_stack;
    sigaltstack(&stack, NULL);
    memset(&action, 0, sizeof action);
    action.sa_handler = on_signal;
    action.sa_flags = SA_ONSTACK;
    for (i = 0; i < sizeof signals / sizeof *signals; i++) sigaction(signals[i], &action, NULL);
}

#endif

/* ---- buffers ---- */

/* Whole pages between two unreadable ones. */
struct region {
    uint8_t *at;
    size_t size;
};

static struct region book_region, calls_region, first_region, second_region, text_region;

static struct region new_region(size_t size) {
    struct region region;
    uint8_t *at = mmap(NULL, size + 2 * PAGE, PROT_NONE, MAP_PRIVATE | MAP_ANONYMOUS, -1, 0);
    if (at == MAP_FAILED || mprotect(at + PAGE, size, PROT_READ | PROT_WRITE) != 0) {
        perror("mmap");
        exit(2);
    }
    region.at = at + PAGE;
    region.size = size;
    return region;
}

/* A buffer at one side of its region, its guard bytes on the other. */
struct lent {
    uint8_t *at;
    size_t length;
    uint8_t *from, *to; /* buffer and guard together */
    uint8_t paint;
};

static uint8_t painted(const struct lent *lent, const uint8_t *at) {
    return (uint8_t)(lent->paint + 167 * (at - lent->from));
}

/* Lends `length` bytes, at the end of the region on pass 0 and at its start on pass 1, all of them painted. */
static struct lent lend(struct region region, size_t length, int pass, uint8_t paint) {
    struct lent lent;
    uint8_t *byte;
    if (length + GUARD > region.size) fail("%zu bytes are too many for the region", length);
    lent.length = length;
    lent.paint = paint;
    lent.at = pass == 0 ? region.at + region.size - length : region.at;
    lent.from = pass == 0 ? lent.at - GUARD : lent.at;
    lent.to = lent.from + length + GUARD;
    for (byte = lent.from; byte < lent.to; byte++) *byte = painted(&lent, byte);
    return lent;
}

/* Every byte but the first `written` of the buffer is as it was painted. */
static void must_be_kept(const struct lent *lent, size_t written, const char *name) {
    const uint8_t *byte;
    for (byte = lent->from; byte < lent->to; byte++) {
        if (byte >= lent->at && byte < lent->at + written) continue;
        if (*byte != painted(lent, byte)) fail("%s: byte %ld was written", name, (long)(byte - lent->at));
    }
}

/* ---- inputs ---- */

struct input {
    uint8_t book[BOOK_ROOM], calls[CALLS_ROOM], probes[CALLS_ROOM]; /* the calls of a session, those of probe */
    size_t book_length, calls_length, probes_length;
    size_t lowers_length, uppers_length, masks_length, answers_length, last_masks_length, dead_length;
    uint8_t text[TEXT_ROOM];
    size_t text_length, imported_length;
    unsigned canonical_room;     /* how long canonical's output is: see room_of_canonical */
    size_t canonical_spare;
    uint32_t expected;           /* import's answer, given room, or ANY_ANSWER if the making does not say */
    uint8_t ordered[BOOK_ROOM];  /* the book, if that answer is 0 */
    size_t ordered_length;
};

#define ANY_ANSWER 1u /* import never answers this */
#define ANSWERS 15    /* of the others: 0, 1, 257 to 269 */

static unsigned book_slots(const struct input *input) { return input->book[0] + 256u * input->book[1]; }
static unsigned book_types(const struct input *input) { return input->book[2]; }

static uint32_t word(const uint8_t *bytes, size_t i) {
    bytes += 4 * i;
    return bytes[0] + 256u * bytes[1] + 65536u * bytes[2] + 16777216u * bytes[3];
}

static unsigned half(const uint8_t *bytes, size_t i) { return bytes[2 * i] + 256u * bytes[2 * i + 1]; }

static uint32_t book_mask(const struct input *input, size_t slot) { return word(input->book + 12, slot); }

static void put_half(uint8_t *at, unsigned value) {
    at[0] = (uint8_t)value;
    at[1] = (uint8_t)(value >> 8);
}

static void put_word(uint8_t *at, uint32_t value) {
    put_half(at, value & 65535u);
    put_half(at + 2, value >> 16);
}

/* The header of a book with n slots, k types, none of them idle, and r rows; its length. */
static size_t put_header(uint8_t *book, unsigned n, unsigned k, unsigned r) {
    unsigned rows_at = 12 + 4 * n, length = rows_at + 8 * r;
    put_half(book, n);
    book[2] = (uint8_t)k;
    book[3] = 0;
    put_half(book + 4, r);
    put_half(book + 6, 12);
    put_half(book + 8, rows_at);
    put_half(book + 10, length);
    return length;
}

static void put_row(uint8_t *book, unsigned n, unsigned row, unsigned type, unsigned end, unsigned lower,
                    unsigned upper) {
    uint8_t *at = book + 12 + 4 * n + 8 * row;
    at[0] = (uint8_t)type;
    at[1] = 0;
    put_half(at + 2, end);
    put_half(at + 4, lower);
    put_half(at + 6, upper);
}

/* ---- the library, or a sham ---- */

enum entry { CHECK, CLOSE, SETTLE, SESSION, PROBE, ENTRIES };
static const char *const entry_names[ENTRIES] = { "check", "close", "settle", "session", "probe" };

/* Where a buffer is; NULL for one without a byte, on pass 1. */
static uint8_t *place(struct lent lent) { return lent.length == 0 && lent.from == lent.at ? NULL : lent.at; }

static uint32_t library(enum entry entry, struct lent book, struct lent calls, struct lent first, struct lent second) {
    switch (entry) {
    case CHECK: return nested_gcc_check(place(book), book.length);
    case CLOSE:
        return nested_gcc_close(place(book), book.length, place(first), first.length, place(second), second.length);
    case SETTLE: return nested_gcc_settle(place(book), book.length, place(first), first.length);
    case PROBE:
        return nested_gcc_probe(place(book), book.length, place(calls), calls.length, place(first), first.length);
    default:
        return nested_gcc_session(place(book), book.length, place(calls), calls.length, place(first), first.length,
                                  place(second), second.length);
    }
}

/* With SHAM, a session that counts the idle type as struck. */
static uint32_t idle_counted(struct lent book, struct lent calls, struct lent first, struct lent second) {
    uint8_t idle = book.length < 12 ? 0 : book.at[3];
    uint32_t answer;
    if (idle != 0 && idle <= book.at[2]) book.at[3] = 0;
    answer = library(SESSION, book, calls, first, second);
    if (idle != 0) book.at[3] = idle;
    return answer;
}

/* With SHAM, no walls of the idle type. */
static void no_idle_walls(struct lent book, struct lent calls, struct lent answers) {
    size_t i;
    for (i = 0; i < calls.length / 4; i++) {
        const uint8_t *call = calls.at + 4 * i;
        if ((call[0] == 6 || call[0] == 7) && call[1] + 1 == book.at[3]) memset(answers.at + 8 * i + 4, 0, 4);
    }
}

/* With SHAM, a number told out of order: 15 before 12 and 13 (31), or 13 before 12 (32). */
static void numbers_out_of_order(struct lent book, struct lent calls, struct lent answers, int dead) {
    size_t i;
    for (i = 0; i < calls.length / 4; i++) {
        const uint8_t *call = calls.at + 4 * i;
        uint32_t first = word(answers.at, 2 * i), other = first;
        int decision = call[0] == NESTED_GCC_ASSIGN || call[0] == NESTED_GCC_REMOVE;
        if (first == NESTED_GCC_CALL_DEAD) dead = 1;
        if (first == NESTED_GCC_CALL_DONE && call[0] == NESTED_GCC_BACK) dead = 0;
        if (!decision || first < NESTED_GCC_CALL_SLOT) continue;
        if (SHAM == 31 && dead) other = NESTED_GCC_WHILE_DEAD;
        if (SHAM == 32 && call[1] >= book.at[2]) other = NESTED_GCC_CALL_TYPE;
        memcpy(answers.at + 8 * i, &other, 4);
    }
}

/* With SHAM, the idle type left out of every mask that has others. */
static void no_idle_type(struct lent book, struct lent masks) {
    size_t slot, n = book.at[0] + 256u * book.at[1];
    for (slot = 0; slot < n && book.at[3] != 0; slot++) {
        uint32_t mask = word(masks.at, slot), rest = mask & ~(1u << (book.at[3] - 1));
        if (rest != 0) memcpy(masks.at + 4 * slot, &rest, 4);
    }
}

static nested_gcc_state sham_state; /* of the wrong probes */

static int opens_dead(struct lent book) { return nested_gcc_open(book.at, book.length, &sham_state) == 1; }

/* With SHAM, each probe on what the live ones before it left. */
static void probes_in_turn(struct lent book, struct lent calls, struct lent dead) {
    static nested_gcc_state before;
    uint32_t words[2];
    size_t i;
    opens_dead(book);
    for (i = 0; i < calls.length / 4; i++) {
        const uint8_t *call = calls.at + 4 * i;
        before = sham_state;
        dead.at[i] = (uint8_t)nested_gcc_call(&sham_state, call[0], call[1], half(call, 1), words);
        if (dead.at[i] != 0) sham_state = before;
    }
}

/* With SHAM, a probe is dead where the slot lacks the type, and live else. */
static void probes_by_masks(struct lent book, struct lent calls, struct lent dead) {
    size_t i;
    opens_dead(book);
    for (i = 0; i < calls.length / 4; i++) {
        const uint8_t *call = calls.at + 4 * i;
        dead.at[i] = (sham_state.masks[half(call, 1)] >> call[1] & 1u) == 0;
    }
}

/* With SHAM, a remove is taken for an assign. */
static uint32_t removes_probed(struct lent book, struct lent calls, struct lent dead) {
    static uint8_t kept_calls[CALLS_ROOM];
    uint32_t answer;
    size_t i;
    memcpy(kept_calls, calls.at, calls.length);
    for (i = 0; i < calls.length / 4; i++) {
        if (calls.at[4 * i] == NESTED_GCC_REMOVE) calls.at[4 * i] = NESTED_GCC_ASSIGN;
    }
    answer = library(PROBE, book, calls, dead, dead);
    memcpy(calls.at, kept_calls, calls.length);
    return answer;
}

/* What probe does, or with SHAM a probe that is wrong in one way. */
static uint32_t sham_probe(struct lent book, struct lent calls, struct lent dead) {
    size_t count = calls.length / 4;
    uint32_t answer = SHAM == 23 ? removes_probed(book, calls, dead) : library(PROBE, book, calls, dead, dead);
    int bad_call = answer >= 267 && answer <= 269;
    if (SHAM == 24 && answer == 0) probes_in_turn(book, calls, dead);
    if (SHAM == 25 && answer == 0) probes_by_masks(book, calls, dead);
    if (SHAM == 26 && answer < 2 && count < dead.length) dead.at[count] ^= 1; /* one byte too many */
    if (SHAM == 27 && answer == 269 && dead.length > 0) dead.at[0] ^= 1;      /* refused, yet writes */
    if (SHAM == 28 && bad_call && dead.length < count) return 265;            /* the output before the calls */
    if (SHAM == 29 && answer == 1) memset(dead.at, 0, count);                 /* a dead book, and no probe dead */
    if (SHAM == 30 && bad_call && dead.length >= count && opens_dead(book)) {  /* calls on a dead book not tested */
        memset(dead.at, 1, count);
        return 1;
    }
    return answer;
}

/* What the library does, or with SHAM a library that is wrong in one way. */
static uint32_t sham(enum entry entry, struct lent book, struct lent calls, struct lent first, struct lent second) {
    static unsigned turns;
    uint32_t answer;
    volatile uint8_t beyond = 0;
    if (SHAM == 5 && entry == CHECK) beyond = book.at[book.length];            /* reads past the book */
    if (SHAM == 8 && entry == CLOSE && first.length > 0 && first.at[0] & 64) return 265; /* reads an output */
    (void)beyond;
    if (SHAM == 21 && entry == SESSION) return idle_counted(book, calls, first, second);
    if (entry == PROBE) return sham_probe(book, calls, first);
    answer = library(entry, book, calls, first, second);
    turns++;
    if (SHAM == 1 && entry == SETTLE && answer == 0) first.at[first.length] ^= 1;   /* one byte past an output */
    if (SHAM == 2 && entry == CLOSE && answer == 265 && first.length > 0) first.at[0] ^= 1; /* refused, yet writes */
    if (SHAM == 3 && entry == SESSION && answer < 2) second.at[0] ^= turns % 64 == 0; /* now and then another mask */
    if (SHAM == 4 && entry == CHECK && answer == 0 && book.at[2] == 3) return 1;      /* a good book called dead */
    if (SHAM == 6 && entry == SETTLE && answer == 1) first.at[0] = 1;                 /* dead, and a mask left */
    if (SHAM == 7 && entry == SESSION && answer >= 257 && answer <= 264) return 266;  /* a refusal out of order */
    if (SHAM == 20 && entry == SESSION && answer == 0) no_idle_walls(book, calls, first);
    if ((SHAM == 31 || SHAM == 32) && entry == SESSION && answer < 2)
        numbers_out_of_order(book, calls, first, answer == 1);
    if (SHAM == 22 && entry == SETTLE && answer == 0) no_idle_type(book, first);
    return answer;
}

/* Fills the stack below with one byte. */
static void paint_stack(uint8_t byte) {
    volatile uint8_t stack[160 * 1024];
    memset((void *)stack, byte, sizeof stack);
}

/* ---- a plain reading and a plain closing ---- */

/* What refuses the bytes as a book, or 0. */
static uint32_t fault_of_book(const uint8_t *book, size_t length) {
    unsigned n, k, r, i;
    if (length < 12) return NESTED_GCC_TOO_SHORT;
    n = half(book, 0), k = book[2], r = half(book, 2);
    if (n < 1 || n > 256 || k < 1 || k > 32 || r > 1024) return NESTED_GCC_OUT_OF_RANGE;
    if (book[3] > k) return NESTED_GCC_IDLE_TYPE;
    if (half(book, 3) != 12 || half(book, 4) != 12 + 4 * n) return NESTED_GCC_LAYOUT;
    if (half(book, 5) != 12 + 4 * n + 8 * r || length != half(book, 5)) return NESTED_GCC_LAYOUT;
    for (i = 0; i < n; i++) {
        uint32_t mask = word(book + 12, i);
        if (mask == 0 || (k < 32 && mask >> k != 0)) return NESTED_GCC_MASK;
    }
    for (i = 0; i < r; i++) {
        const uint8_t *row = book + 12 + 4 * n + 8 * i;
        unsigned end = half(row, 1), lower = half(row, 2), upper = half(row, 3);
        if (row[0] >= k || row[1] != 0) return NESTED_GCC_ROW_TYPE;
        if (end < 1 || end > n) return NESTED_GCC_ROW_END;
        if (lower > 256 || (upper > 256 && upper != NESTED_GCC_NO_UPPER)) return NESTED_GCC_ROW_BOUND;
    }
    return 0;
}

struct table {
    int n, k;
    int lower[32][257], upper[32][257]; /* by type, then end */
};

static int changed; /* by at_least and at_most */

static void at_least(int *entry, int bound) {
    if (*entry < bound) *entry = bound, changed = 1;
}

static void at_most(int *entry, int bound) {
    if (*entry > bound) *entry = bound, changed = 1;
}

/* The starting table of a good book. */
static void start_table(const uint8_t *book, struct table *table) {
    int v, t;
    unsigned i;
    table->n = (int)half(book, 0), table->k = book[2];
    for (v = 0; v < table->k; v++) {
        for (t = 0; t <= table->n; t++) table->lower[v][t] = 0, table->upper[v][t] = t;
    }
    for (i = 0; i < half(book, 2); i++) {
        const uint8_t *row = book + 12 + 4 * table->n + 8 * i;
        at_least(&table->lower[row[0]][half(row, 1)], (int)half(row, 2));
        at_most(&table->upper[row[0]][half(row, 1)], (int)half(row, 3));
    }
}

/* Along the line of a type: up, then down. */
static void close_line(int *lower, int *upper, int n) {
    int t;
    for (t = 1; t <= n; t++) at_least(&lower[t], lower[t - 1]), at_most(&upper[t], upper[t - 1] + 1);
    for (t = n - 1; t >= 0; t--) at_least(&lower[t], lower[t + 1] - 1), at_most(&upper[t], upper[t + 1]);
}

/* Across the types at an end. */
static void close_end(struct table *table, int t) {
    int lowers = 0, uppers = 0, v;
    for (v = 0; v < table->k; v++) lowers += table->lower[v][t], uppers += table->upper[v][t];
    for (v = 0; v < table->k; v++) {
        int lower = table->lower[v][t], upper = table->upper[v][t];
        at_least(&table->lower[v][t], t - (uppers - upper));
        at_most(&table->upper[v][t], t - (lowers - lower));
    }
}

/* Closes the table of a good book by the rules, each over the whole of it till none changes anything; whether it is
 * live. A rule takes away nothing that a closed table within the start has, so that there is none once two cross. */
static int plain_close(const uint8_t *book, struct table *table) {
    int v, t;
    start_table(book, table);
    do {
        changed = 0;
        for (v = 0; v < table->k; v++) close_line(table->lower[v], table->upper[v], table->n);
        for (t = 0; t <= table->n; t++) close_end(table, t);
        for (v = 0; v < table->k; v++) {
            for (t = 0; t <= table->n; t++) {
                if (table->lower[v][t] > table->upper[v][t]) return 0;
            }
        }
    } while (changed);
    return 1;
}

static int lower_corner(const int *lower, int n, int t) {
    return lower[t] == lower[t - 1] + 1 && (t == n || lower[t + 1] == lower[t]);
}

static int upper_corner(const int *upper, int n, int t) {
    return upper[t] == upper[t - 1] && (t == n || upper[t + 1] == upper[t] + 1);
}

/* The canonical book of a good book that closes to the table, if it has no more rows than may be; how many it has. */
static unsigned put_canonical(const uint8_t *book, const struct table *table, uint8_t *out) {
    int n = table->n, v, t;
    unsigned rows = 0, row = 0;
    for (v = 0; v < table->k; v++) {
        for (t = 1; t <= n; t++) rows += lower_corner(table->lower[v], n, t) || upper_corner(table->upper[v], n, t);
    }
    if (rows > 1024) return rows;
    put_header(out, (unsigned)n, (unsigned)table->k, rows);
    out[3] = book[3];
    memcpy(out + 12, book + 12, 4 * (size_t)n);
    for (v = 0; v < table->k; v++) {
        for (t = 1; t <= n; t++) {
            int low = lower_corner(table->lower[v], n, t), high = upper_corner(table->upper[v], n, t);
            unsigned lower = low ? (unsigned)table->lower[v][t] : 0;
            unsigned upper = high ? (unsigned)table->upper[v][t] : NESTED_GCC_NO_UPPER;
            if (low || high) put_row(out, (unsigned)n, row++, (unsigned)v, (unsigned)t, lower, upper);
        }
    }
    return rows;
}

/* What the words say of an input's book. */
static struct {
    uint32_t refusal;        /* the book's own, or 0 */
    int live;                /* it is good and closes, to the table; the rest is then of its canonical book */
    struct table table;
    unsigned rows;
    size_t length;           /* be the rows too many or not */
    uint8_t book[BOOK_ROOM]; /* unless they are */
} plain;

static void read_plainly(const struct input *input) {
    plain.refusal = fault_of_book(input->book, input->book_length);
    plain.live = plain.refusal == 0 && plain_close(input->book, &plain.table);
    if (!plain.live) return;
    plain.rows = put_canonical(input->book, &plain.table, plain.book);
    plain.length = 12 + 4 * (size_t)book_slots(input) + 8 * (size_t)plain.rows;
}

/* ---- judging ---- */

/* What a function answered and wrote. */
struct outcome {
    uint32_t answer;
    size_t first_written, second_written;
    uint8_t first[ANSWERS_ROOM], second[TABLE_ROOM];
};

/* The list of calls that the entry is lent. */
static const uint8_t *list_of(enum entry entry, const struct input *input, size_t *length) {
    *length = entry == SESSION ? input->calls_length : entry == PROBE ? input->probes_length : 0;
    return entry == PROBE ? input->probes : input->calls;
}

/* What refuses the first bad one of so many probes, or 0 if all are good. */
static uint32_t fault_of_probes(const struct input *input, size_t count) {
    size_t i;
    for (i = 0; i < count; i++) {
        const uint8_t *call = input->probes + 4 * i;
        if (call[0] != NESTED_GCC_ASSIGN) return NESTED_GCC_CALL_KIND;
        if (half(call, 1) >= book_slots(input)) return NESTED_GCC_CALL_SLOT;
        if (call[1] >= book_types(input)) return NESTED_GCC_CALL_TYPE;
    }
    return 0;
}

/* The answer that lengths and probes demand of a book that check takes: 266 to 269, 265, or 0 if it is for the book to
 * say. */
static uint32_t fault_beside_the_book(enum entry entry, const struct input *input) {
    size_t n = book_slots(input), table = book_types(input) * (n + 1), length, calls;
    uint32_t bad_call;
    int room = 1;
    list_of(entry, input, &length);
    calls = length / 4;
    if (length % 4 != 0 || length > NESTED_GCC_CALLS_BYTES) return 266;
    bad_call = entry == PROBE ? fault_of_probes(input, calls) : 0;
    if (bad_call != 0) return bad_call;
    if (entry == PROBE) room = input->dead_length >= calls;
    if (entry == CLOSE) room = input->lowers_length / 2 >= table && input->uppers_length / 2 >= table;
    if (entry == SETTLE) room = input->masks_length / 4 >= n;
    if (entry == SESSION) room = input->answers_length / 4 >= 2 * calls && input->last_masks_length / 4 >= n;
    return room ? 0 : 265;
}

/* Runs the function once; the bytes outside of what the answer writes must be kept. */
static void run_once(enum entry entry, const struct input *input, int pass, struct outcome *outcome) {
    size_t n = book_slots(input), table = 2 * book_types(input) * (n + 1);
    size_t first_length = 0, second_length = 0, list_length;
    const uint8_t *list = list_of(entry, input, &list_length);
    struct lent book, calls, first, second;
    if (entry == PROBE) first_length = input->dead_length;
    if (entry == CLOSE) first_length = input->lowers_length, second_length = input->uppers_length;
    if (entry == SETTLE) first_length = input->masks_length;
    if (entry == SESSION) first_length = input->answers_length, second_length = input->last_masks_length;
    book = lend(book_region, input->book_length, pass, 17);
    memcpy(book.at, input->book, input->book_length);
    calls = lend(calls_region, list_length, pass, 71);
    memcpy(calls.at, list, calls.length);
    first = lend(first_region, first_length, pass, pass == 0 ? 5 : 200);
    second = lend(second_region, second_length, pass, pass == 0 ? 250 : 90);
    if (number % 8 == 0) paint_stack(pass == 0 ? 0 : 255);
    outcome->answer = sham(entry, book, calls, first, second);
    outcome->first_written = outcome->second_written = 0;
    if (outcome->answer < 2) {
        if (entry == CLOSE) outcome->first_written = outcome->second_written = table;
        if (entry == SETTLE) outcome->first_written = 4 * n;
        if (entry == SESSION) outcome->first_written = 2 * list_length, outcome->second_written = 4 * n;
        if (entry == PROBE) outcome->first_written = list_length / 4;
    }
    if (outcome->first_written > first_length || outcome->second_written > second_length)
        fail("%s answers %u, and an output is too short for that", entry_names[entry], (unsigned)outcome->answer);
    must_be_kept(&book, book.length, "beside the book");
    must_be_kept(&calls, calls.length, "beside the calls");
    must_be_kept(&first, outcome->first_written, "first output");
    must_be_kept(&second, outcome->second_written, "second output");
    if (memcmp(book.at, input->book, book.length) != 0) fail("%s wrote to the book", entry_names[entry]);
    if (memcmp(calls.at, list, calls.length) != 0) fail("%s wrote to the calls", entry_names[entry]);
    memcpy(outcome->first, first.at, outcome->first_written);
    memcpy(outcome->second, second.at, outcome->second_written);
}

static struct outcome outcomes[ENTRIES], again;

static void run_twice(enum entry entry, const struct input *input) {
    struct outcome *outcome = &outcomes[entry];
    run_once(entry, input, 0, outcome);
    run_once(entry, input, 1, &again);
    if (outcome->answer != again.answer || memcmp(outcome->first, again.first, again.first_written) != 0 ||
        memcmp(outcome->second, again.second, again.second_written) != 0)
        fail("%s: another answer, or another output, the second time", entry_names[entry]);
}

static void must_be_zero(const uint8_t *bytes, size_t length, const char *name) {
    size_t i;
    for (i = 0; i < length; i++) {
        if (bytes[i] != 0) fail("%s: dead, and byte %zu is not 0", name, i);
    }
}

static void judge_table(const struct input *input, const struct outcome *close) {
    size_t line = book_slots(input) + 1, i;
    for (i = 0; i < close->first_written / 2; i++) {
        unsigned lower = half(close->first, i), upper = half(close->second, i);
        if (lower > upper || upper > i % line) fail("bounds %u and %u at element %zu", lower, upper, i);
        if ((int)lower != plain.table.lower[i / line][i % line] || (int)upper != plain.table.upper[i / line][i % line])
            fail("bounds %u and %u at element %zu, and not those of the plain closing", lower, upper, i);
    }
}

/* What refuses a call of a session that is dead or live and has so many marks open, or 0 if it is made. */
static uint32_t fault_of_call(const struct input *input, const uint8_t *call, int dead, size_t marks) {
    uint8_t kind = call[0];
    int decision = kind == NESTED_GCC_ASSIGN || kind == NESTED_GCC_REMOVE, mark = kind == NESTED_GCC_MARK;
    int walls = kind == NESTED_GCC_UPPER_WALLS || kind == NESTED_GCC_LOWER_WALLS;
    if (kind == 0 || kind > 7) return NESTED_GCC_CALL_KIND;
    if ((decision || kind == NESTED_GCC_SHOW) && half(call, 1) >= book_slots(input)) return NESTED_GCC_CALL_SLOT;
    if ((decision || walls) && call[1] >= book_types(input)) return NESTED_GCC_CALL_TYPE;
    if ((decision || mark) && dead) return NESTED_GCC_WHILE_DEAD;
    if (kind == NESTED_GCC_BACK && marks == 0) return NESTED_GCC_NO_OPEN_MARK;
    if (mark && marks == NESTED_GCC_MARKS_MOST) return NESTED_GCC_TOO_MANY_MARKS;
    return 0;
}

/* Whether a call of this kind that is made may have this first word. */
static int word_of_kind(uint8_t kind, uint32_t first) {
    if (kind == NESTED_GCC_ASSIGN || kind == NESTED_GCC_REMOVE) return first < 2;
    return first == (kind == NESTED_GCC_MARK || kind == NESTED_GCC_BACK ? NESTED_GCC_CALL_DONE : NESTED_GCC_CALL_VALUE);
}

static void judge_words(const struct input *input, const struct outcome *session) {
    size_t i, marks = 0;
    int dead = session->answer == 1;
    for (i = 0; i < input->calls_length / 4; i++) {
        const uint8_t *call = input->calls + 4 * i;
        uint32_t first = word(session->first, 2 * i), second = word(session->first, 2 * i + 1);
        uint32_t fault = fault_of_call(input, call, dead, marks);
        if (fault != 0 ? first != fault : !word_of_kind(call[0], first))
            fail("call %zu: first word %u, and %u refuses it", i, (unsigned)first, (unsigned)fault);
        if (second != 0 && first != 0 && first != 2)
            fail("call %zu: words %u %u", i, (unsigned)first, (unsigned)second);
        if (first == NESTED_GCC_CALL_DEAD) dead = 1;
        if (first != NESTED_GCC_CALL_DONE) continue;
        if (call[0] == NESTED_GCC_MARK) marks++;
        if (call[0] == NESTED_GCC_BACK) marks--, dead = 0;
    }
}

/* Each mask is one of the slot's types or more, and no others. */
static void judge_masks(const struct input *input, const uint8_t *masks, const char *name) {
    size_t slot;
    for (slot = 0; slot < book_slots(input); slot++) {
        uint32_t mask = word(masks, slot);
        if (mask == 0 || (mask & ~book_mask(input, slot)) != 0)
            fail("%s: mask %u of slot %zu", name, (unsigned)mask, slot);
    }
}

static void judge_answers(const struct input *input) {
    uint32_t check = outcomes[CHECK].answer;
    int entry;
    if (check != plain.refusal) fail("check answers %u, and not %u", (unsigned)check, (unsigned)plain.refusal);
    for (entry = CLOSE; entry < ENTRIES; entry++) {
        uint32_t answer = outcomes[entry].answer, expected = check;
        if (check == 0) expected = fault_beside_the_book((enum entry)entry, input);
        if (expected == 0 ? answer > 1 : answer != expected)
            fail("%s answers %u where check answers %u", entry_names[entry], (unsigned)answer, (unsigned)check);
    }
    if (outcomes[CLOSE].answer < 2 && outcomes[CLOSE].answer != (plain.live ? 0 : 1))
        fail("close answers %u, and the plain closing says otherwise", (unsigned)outcomes[CLOSE].answer);
    if (outcomes[CLOSE].answer == 1 && outcomes[SETTLE].answer == 0) fail("dead in closing, live in settling");
    for (entry = SESSION; entry < ENTRIES; entry++) {
        if (outcomes[SETTLE].answer < 2 && outcomes[entry].answer < 2 &&
            outcomes[SETTLE].answer != outcomes[entry].answer)
            fail("settle and %s do not agree on live or dead", entry_names[entry]);
    }
}

static void judge_outputs(const struct input *input) {
    const struct outcome *close = &outcomes[CLOSE], *settle = &outcomes[SETTLE], *session = &outcomes[SESSION];
    size_t slot;
    if (close->answer == 0) judge_table(input, close);
    if (close->answer == 1) must_be_zero(close->first, close->first_written, "lowers");
    if (close->answer == 1) must_be_zero(close->second, close->second_written, "uppers");
    if (settle->answer == 0) judge_masks(input, settle->first, "settle");
    if (settle->answer == 1) must_be_zero(settle->first, settle->first_written, "masks");
    if (session->answer < 2) judge_words(input, session);
    if (session->answer == 0) judge_masks(input, session->second, "session");
    if (session->answer == 1) must_be_zero(session->second, session->second_written, "last masks");
    if (settle->answer != 0 || session->answer != 0) return;
    for (slot = 0; slot < book_slots(input); slot++) {
        if ((word(session->second, slot) & ~word(settle->first, slot)) != 0)
            fail("slot %zu: the last mask is not within settle's", slot);
    }
}

/* ---- the idle type ---- */

static unsigned long idle_books, other_figures;

/* The ones of the masks, the idle type left out. */
static unsigned long news(const struct input *input, const uint8_t *masks) {
    unsigned long sum = 0;
    unsigned v;
    size_t slot;
    for (slot = 0; slot < book_slots(input); slot++) {
        for (v = 0; v < 32; v++) sum += v + 1 != input->book[3] && (word(masks, slot) >> v & 1u) != 0;
    }
    return sum;
}

/* Without marks the struck figures of a session add up. */
static void judge_struck(const struct input *input) {
    const struct outcome *settle = &outcomes[SETTLE], *session = &outcomes[SESSION];
    unsigned long struck = 0;
    size_t i;
    if (settle->answer != 0 || session->answer != 0) return;
    for (i = 0; i < input->calls_length / 4; i++) {
        if (word(session->first, 2 * i) == 3) return;
        if (word(session->first, 2 * i) == 0) struck += word(session->first, 2 * i + 1);
    }
    if (news(input, settle->first) != struck + news(input, session->second))
        fail("%lu struck in all, and that is not what the masks lost", struck);
}

/* The words of a session on the book, and on the same with another idle type. */
static void judge_figures(const struct input *input, const struct input *other, const struct outcome *outcome) {
    const uint8_t *here = outcomes[SESSION].first, *there = outcome->first;
    size_t i;
    for (i = 0; i < input->calls_length / 4; i++) {
        uint32_t first = word(here, 2 * i), figure = word(here, 2 * i + 1), another = word(there, 2 * i + 1);
        if (first != word(there, 2 * i)) fail("call %zu: another first word with another idle type", i);
        if (first != 0 && figure != another) fail("call %zu: another second word with another idle type", i);
        if ((input->book[3] == 0 && figure < another) || (other->book[3] == 0 && another < figure))
            fail("call %zu: more struck with an idle type than without", i);
        other_figures += figure != another;
    }
}

/* A good book, and the same with another idle type or none. */
static void judge_idle(const struct input *input) {
    static struct input other;
    static struct outcome outcome;
    int entry;
    if (outcomes[CHECK].answer != 0) return;
    idle_books += input->book[3] != 0;
    judge_struck(input);
    memcpy(&other, input, sizeof other);
    other.book[3] = (uint8_t)((input->book[3] + 1 + number % book_types(input)) % (book_types(input) + 1));
    for (entry = CHECK; entry < ENTRIES; entry++) {
        const struct outcome *here = &outcomes[entry];
        run_once((enum entry)entry, &other, (int)(number % 2), &outcome);
        if (outcome.answer != here->answer) fail("%s: another answer with another idle type", entry_names[entry]);
        if (entry != SESSION && memcmp(outcome.first, here->first, here->first_written) != 0)
            fail("%s: another output with another idle type", entry_names[entry]);
        if (memcmp(outcome.second, here->second, here->second_written) != 0)
            fail("%s: another second output with another idle type", entry_names[entry]);
        if (entry == SESSION && outcome.answer < 2) judge_figures(input, &other, &outcome);
    }
}

/* ---- probes ---- */

static unsigned long probes_live, probes_dead, probes_dead_within; /* the last: dead though the slot has the type */

/* The first word of a session of one call. */
static uint32_t word_alone(const struct input *input, const uint8_t *call) {
    uint8_t words[8], masks[NESTED_GCC_MASKS_BYTES];
    uint32_t opened = nested_gcc_session(input->book, input->book_length, call, 4, words, sizeof words, masks,
                                         sizeof masks);
    if (opened != 0) fail("a session of one call answers %u where probe opens live", (unsigned)opened);
    return word(words, 0);
}

/* The first word of the call in a kept session, which then is as before. */
static uint32_t word_taken_back(nested_gcc_state *session, const uint8_t *call) {
    uint32_t words[2], back[2];
    if (nested_gcc_call(session, NESTED_GCC_MARK, 0, 0, back) != NESTED_GCC_CALL_DONE) fail("no mark for a probe");
    nested_gcc_call(session, call[0], call[1], half(call, 1), words);
    if (nested_gcc_call(session, NESTED_GCC_BACK, 0, 0, back) != NESTED_GCC_CALL_DONE) fail("no back after a probe");
    return words[0];
}

/* Each byte is what the call alone is answered; up to three of a list are made as sessions of one call too. */
static void judge_probes(const struct input *input) {
    static nested_gcc_state session;
    const struct outcome *probe = &outcomes[PROBE];
    size_t count = input->probes_length / 4, i;
    uint32_t opened;
    if (probe->answer > 1) return;
    opened = nested_gcc_open(input->book, input->book_length, &session);
    if (opened != probe->answer) fail("probe answers %u, open %u", (unsigned)probe->answer, (unsigned)opened);
    for (i = 0; i < count; i++) {
        const uint8_t *call = input->probes + 4 * i;
        uint32_t expected = opened == 0 ? word_taken_back(&session, call) : 1;
        if (probe->first[i] != expected) fail("probe %zu: byte %u, word %u", i, probe->first[i], (unsigned)expected);
        if (opened == 0 && i % (count / 3 + 1) == 0 && word_alone(input, call) != expected)
            fail("probe %zu: a session of this call alone says otherwise", i);
        probes_live += opened == 0 && expected == 0;
        probes_dead += opened == 0 && expected == 1;
        probes_dead_within += expected == 1 && (session.masks[half(call, 1)] >> call[1] & 1u) != 0;
    }
}

/* ---- a kept session ---- */

#define STATE_ROOM (16 * PAGE) /* a state, and more than GUARD bytes beside it */

static struct region state_region;
static uint8_t state_paints[2][STATE_ROOM]; /* what the region holds before an opening, on each pass */
static const uint8_t *state_paint;
static nested_gcc_state *kept; /* at one side of the region */
static unsigned long opens[ANSWERS], steps[ANSWERS];
static unsigned long single_calls, moves;

static void count_answer(unsigned long *counts, uint32_t answer) {
    if (answer > 1 && (answer < 257 || answer > 266)) fail("open or step answers %u", (unsigned)answer);
    counts[answer < 2 ? answer : answer - 255]++;
}

/* The words of all pieces so far, on each pass. */
static uint32_t kept_words[2][2 * CALLS_ROOM / 4];

/* How the pieces are cut: splitmix64 from a sum over the input, so that an input is cut alike whenever it is judged. */
static uint64_t cut_state;

static unsigned cut_below(unsigned limit) {
    uint64_t z = cut_state += 0x9e3779b97f4a7c15u;
    z = (z ^ z >> 30) * 0xbf58476d1ce4e5b9u;
    z = (z ^ z >> 27) * 0x94d049bb133111ebu;
    return (unsigned)(((z ^ z >> 31) >> 16) % limit);
}

static void seed_cuts(const struct input *input, int pass) {
    size_t i;
    cut_state = 1 + (unsigned)pass;
    for (i = 0; i < input->book_length; i++) cut_state = cut_state * 0x100000001b3u + input->book[i];
    for (i = 0; i < input->calls_length; i++) cut_state = cut_state * 0x100000001b3u + input->calls[i];
}

/* Paints the region; the state is at its end on side 0 and at its start on side 1. */
static void place_state(int side) {
    memcpy(state_region.at, state_paint, STATE_ROOM);
    kept = (nested_gcc_state *)(void *)(side == 0 ? state_region.at + STATE_ROOM - sizeof *kept : state_region.at);
}

/* Every byte beside the state is as it was painted. */
static void guards_must_be_kept(const char *name) {
    size_t from = (size_t)((uint8_t *)kept - state_region.at), to = from + sizeof *kept;
    if (memcmp(state_region.at, state_paint, from) != 0 ||
        memcmp(state_region.at + to, state_paint + to, STATE_ROOM - to) != 0)
        fail("%s wrote beside the state", name);
}

/* With SHAM, what a wrong library leaves after an open. */
static void sham_open(uint32_t answer) {
    if (SHAM == 9 && answer > 256) kept->trail[100] ^= 1; /* refused, yet writes */
}

/* And after a step of so many calls. */
static void sham_step(uint32_t answer, size_t calls) {
    if (answer > 1) return;
    if (SHAM == 10) kept->record[2] = calls;                              /* counts the calls of the last step alone */
    if (SHAM == 11 && kept->record[0] < 256) kept->masks[kept->record[0]] ^= 1; /* writes a mask too many */
    if (SHAM == 12 && calls > 2) kept->record[5] = 0;                     /* forgets the marks */
}

static uint32_t open_kept(const struct input *input, int pass) {
    struct lent book = lend(book_region, input->book_length, pass, 17);
    uint32_t answer;
    memcpy(book.at, input->book, book.length);
    answer = nested_gcc_open(book.at, book.length, kept);
    sham_open(answer);
    count_answer(opens, answer);
    if (memcmp(book.at, input->book, book.length) != 0) fail("open wrote to the book");
    must_be_kept(&book, book.length, "beside the book");
    guards_must_be_kept("open");
    lend(book_region, input->book_length, pass, 99); /* the book is not needed any more */
    return answer;
}

/* One slice of the state too short: 265, if the book is good. */
static void open_too_short(const struct input *input, uint32_t check) {
    size_t lengths[5] = { NESTED_GCC_SLOTS_MOST, NESTED_GCC_CELLS, NESTED_GCC_TRAIL_BYTES, NESTED_GCC_MARKS_MOST,
                          NESTED_GCC_RECORD_NUMBERS };
    unsigned slice = cut_below(5);
    uint32_t answer;
    lengths[slice] = cut_below((unsigned)lengths[slice]);
    answer = nested_gcc_open_in(input->book, input->book_length, kept->masks, lengths[0], kept->cells, lengths[1],
                                kept->trail, lengths[2], kept->heights, lengths[3], kept->record, lengths[4]);
    count_answer(opens, answer);
    if (answer != (check == 0 ? 265 : check)) fail("open with a slice too short answers %u", (unsigned)answer);
    if (memcmp(state_region.at, state_paint, STATE_ROOM) != 0) fail("open with a slice too short wrote");
}

/* Steps the calls, with room for so many words; the answer. */
static uint32_t step_kept(const uint8_t *list, size_t length, size_t words, uint32_t *into, int pass) {
    struct lent calls = lend(calls_region, length, pass, 71), answers = lend(first_region, 4 * words, pass, 40);
    uint32_t answer;
    memcpy(calls.at, list, length);
    answer = nested_gcc_step(kept, calls.at, length, (uint32_t *)(void *)answers.at, words);
    sham_step(answer, length / 4);
    count_answer(steps, answer);
    must_be_kept(&calls, length, "beside the calls");
    must_be_kept(&answers, answer < 2 ? 2 * length : 0, "answers of a step");
    if (memcmp(calls.at, list, length) != 0) fail("step wrote to the calls");
    guards_must_be_kept("step");
    if (answer < 2) memcpy(into, answers.at, 2 * length);
    return answer;
}

/* A list that is refused, by 10 or by 9: the state stays. */
static void refused_step(const struct input *input, int pass) {
    static nested_gcc_state before;
    size_t length = input->calls_length, words = 2 * (length / 4);
    uint32_t answer, expected = 266;
    before = *kept;
    if (length % 4 == 0 && length <= NESTED_GCC_CALLS_BYTES) {
        if (length == 0) return;
        if (cut_below(2) == 0) length -= 1 + cut_below(3);
        else words = cut_below((unsigned)words), expected = 265;
    }
    answer = step_kept(input->calls, length, words, NULL, pass);
    if (answer != expected) fail("a step of %zu bytes with %zu words answers %u", length, words, (unsigned)answer);
    if (memcmp(kept, &before, sizeof before) != 0) fail("a refused step wrote to the state");
}

/* The state in another place goes on. */
static void move_state(int side) {
    static nested_gcc_state copy;
    copy = *kept;
    place_state(side);
    *kept = copy;
    moves++;
}

/* What the state says of itself follows from the calls and their words. */
static void judge_state(const struct input *input, const uint32_t *words, size_t calls, int opened_dead) {
    size_t n = book_slots(input), i, marks = 0, dead_call = 0;
    uint32_t standing = opened_dead ? NESTED_GCC_STANDING_OPENED_DEAD : NESTED_GCC_STANDING_LIVE;
    for (i = 0; i < calls; i++) {
        uint8_t kind = input->calls[4 * i];
        if (words[2 * i] == NESTED_GCC_CALL_DEAD) standing = NESTED_GCC_STANDING_DEAD, dead_call = i;
        if (words[2 * i] != NESTED_GCC_CALL_DONE) continue;
        if (kind == NESTED_GCC_MARK) marks++;
        if (kind == NESTED_GCC_BACK) marks--, standing = NESTED_GCC_STANDING_LIVE, dead_call = 0;
    }
    if (nested_gcc_slots(kept) != n || nested_gcc_types(kept) != book_types(input))
        fail("the state has another n or k");
    if (nested_gcc_calls_made(kept) != calls) fail("the state has another number of calls than %zu", calls);
    if (nested_gcc_open_marks(kept) != marks) fail("the state has another number of marks than %zu", marks);
    if (nested_gcc_standing(kept) != standing || nested_gcc_dead_call(kept) != dead_call)
        fail("the state does not stand as the words say after %zu calls", calls);
    for (i = 0; i < n; i++) {
        if (opened_dead ? kept->masks[i] != 0 : kept->masks[i] == 0 || (kept->masks[i] & ~book_mask(input, i)) != 0)
            fail("mask %u of slot %zu of the state", (unsigned)kept->masks[i], i);
    }
}

/* The masks past the n-th are as they were when the state was opened. */
static void later_masks_must_be_kept(const uint32_t *painted_masks, size_t n) {
    if (memcmp(kept->masks + n, painted_masks + n, 4 * (NESTED_GCC_SLOTS_MOST - n)) != 0)
        fail("a mask past the last slot was written");
}

/* Makes the calls in pieces: steps, and calls one by one. */
static void run_kept(const struct input *input, int pass, uint32_t *words) {
    static size_t record[NESTED_GCC_RECORD_NUMBERS]; /* after the opening of pass 0 */
    uint32_t check = outcomes[CHECK].answer, answer, painted_masks[NESTED_GCC_SLOTS_MOST];
    size_t calls = input->calls_length / 4, at = 0;
    int side = pass;
    seed_cuts(input, pass);
    state_paint = state_paints[pass];
    place_state(side);
    memcpy(painted_masks, kept->masks, sizeof painted_masks);
    if (cut_below(4) == 0) open_too_short(input, check);
    answer = open_kept(input, pass);
    if (check != 0) {
        if (answer != check) fail("open answers %u where check answers %u", (unsigned)answer, (unsigned)check);
        if (memcmp(state_region.at, state_paint, STATE_ROOM) != 0) fail("a refused open wrote to the state");
        return;
    }
    if (answer > 1) fail("open answers %u for a good book", (unsigned)answer);
    if (pass == 0) memcpy(record, kept->record, sizeof record);
    if (memcmp(record, kept->record, sizeof record) != 0) fail("open looked at what the state held");
    if (outcomes[SETTLE].answer < 2 &&
        (answer != outcomes[SETTLE].answer || memcmp(kept->masks, outcomes[SETTLE].first, 4 * book_slots(input)) != 0))
        fail("open and settle do not agree");
    for (;;) {
        size_t length = cut_below(cut_below(3) == 0 ? 5000 : 12), i;
        judge_state(input, words, at, answer == 1);
        later_masks_must_be_kept(painted_masks, book_slots(input));
        if (at == calls) break;
        if (cut_below(16) == 0) refused_step(input, pass);
        if (cut_below(16) == 0) move_state(side = !side);
        if (length > calls - at) length = calls - at;
        if (length > NESTED_GCC_CALLS_BYTES / 4) length = NESTED_GCC_CALLS_BYTES / 4;
        if (cut_below(3) == 0) {
            for (i = 0; i < length; i++) {
                const uint8_t *call = input->calls + 4 * (at + i);
                nested_gcc_call(kept, call[0], call[1], half(call, 1), words + 2 * (at + i));
                single_calls++;
            }
            guards_must_be_kept("call");
        } else {
            size_t room = 2 * length + cut_below(9);
            uint32_t stands = step_kept(input->calls + 4 * at, 4 * length, room, words + 2 * at, pass);
            if (stands != (nested_gcc_standing(kept) != NESTED_GCC_STANDING_LIVE))
                fail("step answers %u", (unsigned)stands);
        }
        at += length;
    }
    if (outcomes[SESSION].answer < 2) {
        if (answer != outcomes[SESSION].answer || memcmp(words, outcomes[SESSION].first, 8 * calls) != 0)
            fail("the pieces have other words than the whole list");
        if (memcmp(kept->masks, outcomes[SESSION].second, 4 * book_slots(input)) != 0)
            fail("the pieces have other masks than the whole list");
    }
}

static void judge_kept(const struct input *input) {
    run_kept(input, 0, kept_words[0]);
    run_kept(input, 1, kept_words[1]);
    if (outcomes[CHECK].answer == 0 && memcmp(kept_words[0], kept_words[1], 8 * (input->calls_length / 4)) != 0)
        fail("other words in other pieces");
}

/* ---- a canonical book ---- */

static const uint32_t canonical_answers[] = { 0, 1, 257, 258, 259, 260, 261, 262, 263, 264, 265, 275 };
#define CANONICAL_ANSWERS (sizeof canonical_answers / sizeof *canonical_answers)

static unsigned canonical_place(uint32_t answer) {
    unsigned place;
    for (place = 0; place < CANONICAL_ANSWERS; place++) {
        if (canonical_answers[place] == answer) return place;
    }
    fail("canonical answers %u", (unsigned)answer);
    return 0;
}

/* The length that a written book says it has. */
static size_t written_length(const uint8_t *book) { return half(book, 5); }

enum { ROOM_EXACT, ROOM_LONGER, ROOM_ONE_SHORT, ROOM_NONE, ROOM_ANY, CANONICAL_ROOMS };

/* How long canonical's output is. Where there is no canonical book, or the region is too short for its rows, the book's
 * own length stands in for that of the canonical book. */
static size_t room_of_canonical(const struct input *input) {
    size_t length = plain.live && plain.length < ANSWERS_ROOM - 2 * GUARD ? plain.length : input->book_length;
    switch (input->canonical_room) {
    case ROOM_EXACT: return length;
    case ROOM_LONGER: return length + 1 + input->canonical_spare % 10;
    case ROOM_ONE_SHORT: return length == 0 ? 0 : length - 1;
    case ROOM_NONE: return 0;
    default: return input->canonical_spare % (length + 40);
    }
}

/* With SHAM, the rows of a written book by end, then type. */
static int by_end(const void *one, const void *other) {
    const uint8_t *first = one, *second = other;
    int ends = (int)half(first, 1) - (int)half(second, 1);
    return ends != 0 ? ends : first[0] - second[0];
}

/* With SHAM, a side of a row that has no corner is given the table's bound. */
static void fill_sides(uint8_t *row) {
    int v = row[0], t = (int)half(row, 1);
    if (half(row, 2) == 0) put_half(row + 4, (unsigned)plain.table.lower[v][t]);
    if (half(row, 3) == NESTED_GCC_NO_UPPER) put_half(row + 6, (unsigned)plain.table.upper[v][t]);
}

/* With SHAM, rows of a written book that are wrong in one way. */
static void sham_rows(uint8_t *book) {
    unsigned n = half(book, 0), r = half(book, 2), left = 0, i;
    uint8_t idle = book[3], *rows = book + 12 + 4 * n;
    for (i = 0; i < r; i++) {
        uint8_t *row = rows + 8 * i;
        if (SHAM == 33) put_half(row + 4, 0); /* upper corners alone */
        if (SHAM == 33 && half(row, 3) == NESTED_GCC_NO_UPPER) continue;
        if (SHAM == 34 && half(row, 1) == n) continue; /* the corner at t = n left out */
        if (SHAM == 38) fill_sides(row);
        memmove(rows + 8 * left++, row, 8);
    }
    if (SHAM == 40) qsort(rows, left, 8, by_end);
    put_header(book, n, book[2], left);
    book[3] = SHAM == 35 ? 0 : idle; /* the idle type forgotten */
}

/* With SHAM, the corners of the table that is closed along the lines alone. */
static void corners_of_lines(struct lent book, uint8_t *canonical_book) {
    static struct table table;
    int v;
    start_table(book.at, &table);
    for (v = 0; v < table.k; v++) close_line(table.lower[v], table.upper[v], table.n);
    put_canonical(book.at, &table, canonical_book);
}

/* With SHAM, makes a book that canonical wrote wrong in one way, or finds that there is none; the answer. */
static uint32_t sham_book(struct lent book, uint8_t *canonical_book) {
    uint8_t masks[NESTED_GCC_MASKS_BYTES];
    uint32_t settled = nested_gcc_settle(book.at, book.length, masks, sizeof masks);
    sham_rows(canonical_book);
    if (SHAM == 43 && settled == 1) return 1;                                                 /* dead by settling */
    if (SHAM == 45 && half(canonical_book, 2) == 1024) return 275;                            /* 1,024 are too many */
    if (SHAM == 46 && settled == 0) memcpy(canonical_book + 12, masks, 4 * half(book.at, 0)); /* settle's masks */
    if (SHAM == 48) corners_of_lines(book, canonical_book);
    return 0;
}

/* What the library does, or with SHAM a library that is wrong in one way. */
static uint32_t sham_canonical(struct lent book, struct lent out) {
    static uint8_t written[BOOK_ROOM];
    uint32_t answer;
    size_t length;
    if (SHAM < 33) return nested_gcc_canonical(place(book), book.length, place(out), out.length);
    if (SHAM == 44 && out.length > 0 && out.at[0] & 64) return 265; /* reads the output */
    answer = nested_gcc_canonical(book.at, book.length, written, NESTED_GCC_BOOK_BYTES);
    if (answer == 0) answer = sham_book(book, written);
    length = answer == 0 ? written_length(written) : 0;
    if (length > out.length) answer = 265;
    if (answer == 0) memcpy(out.at, written, length);
    if (SHAM == 36 && answer == 1 && out.length < 12 + 4 * half(book.at, 0)) return 265; /* 9 before dead */
    if (SHAM == 37 && answer == 275 && out.length < plain.length) return 265;            /* 9 before 19 */
    if (SHAM == 39 && answer == 0 && length < out.length) out.at[length] ^= 1;           /* one byte past the book */
    if (SHAM == 41 && answer == 265 && out.length > 0) out.at[0] ^= 1;                   /* refused, yet writes */
    if (SHAM == 42 && answer == 1 && out.length > 0) out.at[0] ^= 1;                     /* dead, yet writes */
    if (SHAM == 47 && answer == 275 && out.length >= book.length) {                      /* the given book instead */
        memcpy(out.at, book.at, book.length);
        return 0;
    }
    return answer;
}

/* Runs canonical once on an output of that length; the bytes outside of what the answer writes must be kept. */
static void canonical_once(const uint8_t *bytes, size_t length, size_t room, int pass, struct outcome *outcome) {
    struct lent book = lend(book_region, length, pass, 17), out = lend(first_region, room, pass, pass == 0 ? 5 : 200);
    memcpy(book.at, bytes, length);
    if (number % 8 == 0) paint_stack(pass == 0 ? 0 : 255);
    outcome->answer = sham_canonical(book, out);
    outcome->first_written = 0;
    if (outcome->answer == 0) {
        if (room < 12 || written_length(out.at) > room) fail("canonical answers 0 for an output of %zu bytes", room);
        outcome->first_written = written_length(out.at);
    }
    must_be_kept(&book, length, "beside the book");
    must_be_kept(&out, outcome->first_written, "canonical book");
    if (memcmp(book.at, bytes, length) != 0) fail("canonical wrote to the book");
    memcpy(outcome->first, out.at, outcome->first_written);
}

static struct outcome canonical;
static unsigned long longer_books, shorter_books, full_books; /* written: more rows, fewer rows, as many as may be */

/* The book that was written: the front of the input's, good, of the same table, and its own canonical book. */
static void judge_written(const struct input *input) {
    static uint8_t bounds[4][NESTED_GCC_TABLE_BYTES];
    const uint8_t *book = canonical.first;
    size_t length = canonical.first_written, table = 2 * (size_t)book_types(input) * (book_slots(input) + 1);
    if (memcmp(book, input->book, 4) != 0) fail("the canonical book has another n, k or idle type");
    if (nested_gcc_check(book, length) != 0) fail("check refuses the canonical book");
    if (memcmp(book + 12, input->book + 12, 4 * book_slots(input)) != 0) fail("the canonical book has other masks");
    if (nested_gcc_close(input->book, input->book_length, bounds[0], table, bounds[1], table) != 0 ||
        nested_gcc_close(book, length, bounds[2], table, bounds[3], table) != 0)
        fail("a book that has a canonical book, or that, does not close");
    if (memcmp(bounds[0], bounds[2], table) != 0 || memcmp(bounds[1], bounds[3], table) != 0)
        fail("the canonical book closes to another table");
    canonical_once(book, length, length, (int)(number % 2), &again);
    if (again.answer != 0 || again.first_written != length || memcmp(again.first, book, length) != 0)
        fail("the canonical book is not its own canonical book");
    if (length != plain.length || memcmp(book, plain.book, length) != 0)
        fail("canonical writes another book than the corners say");
    longer_books += plain.rows > half(input->book, 2);
    shorter_books += plain.rows < half(input->book, 2);
    full_books += plain.rows == 1024;
}

static void judge_canonical(const struct input *input) {
    size_t room = room_of_canonical(input);
    uint32_t expected = plain.refusal;
    if (expected == 0 && !plain.live) expected = NESTED_GCC_DEAD;
    if (expected == 0 && plain.rows > 1024) expected = NESTED_GCC_TOO_MANY_ROWS;
    if (expected == 0 && room < plain.length) expected = NESTED_GCC_OUTPUT_TOO_SHORT;
    canonical_once(input->book, input->book_length, room, 0, &canonical);
    canonical_once(input->book, input->book_length, room, 1, &again);
    if (canonical.answer != again.answer || canonical.first_written != again.first_written ||
        memcmp(canonical.first, again.first, again.first_written) != 0)
        fail("canonical: another answer, or another book, the second time");
    canonical_place(canonical.answer);
    if (canonical.answer != expected)
        fail("canonical answers %u, and not %u", (unsigned)canonical.answer, (unsigned)expected);
    if (canonical.answer == 0) judge_written(input);
}

/* ---- an import ---- */

static const uint32_t import_answers[] = { 0, 258, 262, 263, 264, 265, 273, 274 };
#define IMPORT_ANSWERS (sizeof import_answers / sizeof *import_answers)

static unsigned import_place(uint32_t answer) {
    unsigned place;
    for (place = 0; place < IMPORT_ANSWERS; place++) {
        if (import_answers[place] == answer) return place;
    }
    fail("import answers %u", (unsigned)answer);
    return 0;
}

/* What the library does, or with SHAM a library that is wrong in one way. */
static uint32_t sham_import(struct lent text, struct lent book) {
    uint32_t answer;
    size_t length;
    volatile uint8_t beyond = 0;
    if (SHAM == 13) beyond = text.at[text.length];                    /* reads past the text */
    if (SHAM == 14 && book.length > 0 && book.at[0] & 64) return 265; /* reads the output */
    (void)beyond;
    answer = nested_gcc_import_csv(text.at, text.length, book.at, book.length);
    length = answer == 0 ? written_length(book.at) : 0;
    if (SHAM == 15 && answer == 0 && length < book.length) book.at[length] ^= 1;        /* one byte past the book */
    if (SHAM == 16 && answer == 274 && book.length > 0) book.at[0] ^= 1;                /* refused, yet writes */
    if (SHAM == 17 && answer == 0 && half(book.at, 2) > 0) book.at[length - 4] ^= 1;    /* another lower */
    if (SHAM == 18 && answer == 273) return 274;                                        /* 18 for 17 */
    if (SHAM == 19 && answer >= 262 && answer <= 264 && book.length < 12) return 265; /* the output before the rows */
    return answer;
}

/* Imports the text once into an output of that length; the bytes outside of what the answer writes must be kept. */
static void import_once(const uint8_t *bytes, size_t length, size_t room, int pass, struct outcome *outcome) {
    struct lent text = lend(text_region, length, pass, 33), book = lend(first_region, room, pass, pass == 0 ? 5 : 200);
    memcpy(text.at, bytes, length);
    if (number % 8 == 0) paint_stack(pass == 0 ? 0 : 255);
    outcome->answer = sham_import(text, book);
    outcome->first_written = 0;
    if (outcome->answer == 0) {
        if (room < 12 || written_length(book.at) > room) fail("import answers 0 for an output of %zu bytes", room);
        outcome->first_written = written_length(book.at);
    }
    must_be_kept(&text, length, "beside the text");
    must_be_kept(&book, outcome->first_written, "imported book");
    if (memcmp(text.at, bytes, length) != 0) fail("import wrote to the text");
    memcpy(outcome->first, book.at, outcome->first_written);
}

/* The records of a good book, each field as it is, an upper that is none empty; their length. */
static size_t put_records(uint8_t *text, const uint8_t *book) {
    unsigned n = half(book, 0), r = half(book, 2), i;
    char *at = (char *)text;
    at += sprintf(at, "%u,%u\r\n", n, book[2]);
    for (i = 0; i < r; i++) {
        const uint8_t *row = book + 12 + 4 * n + 8 * i;
        at += sprintf(at, "%u,%u,%u,", row[0], half(row, 1), half(row, 2));
        if (half(row, 3) != NESTED_GCC_NO_UPPER) at += sprintf(at, "%u", half(row, 3));
        at += sprintf(at, "\r\n");
    }
    return (size_t)(at - (char *)text);
}

static struct outcome imported;

/* An imported book: check takes it, its masks are full, and its own records import as the same book. */
static void judge_imported(const struct outcome *whole) {
    static uint8_t records[TEXT_ROOM];
    const uint8_t *book = whole->first;
    size_t slot;
    if (nested_gcc_check(book, whole->first_written) != 0) fail("check refuses the imported book");
    for (slot = 0; slot < half(book, 0); slot++) {
        if (word(book + 12, slot) != 0xffffffffu >> (32 - book[2])) fail("the mask of slot %zu is not full", slot);
    }
    import_once(records, put_records(records, book), whole->first_written, 1, &again);
    if (again.answer != 0 || again.first_written != whole->first_written ||
        memcmp(again.first, book, again.first_written) != 0)
        fail("the records of the imported book give another book");
}

static void judge_import(const struct input *input) {
    static struct outcome whole;
    uint32_t expected;
    import_once(input->text, input->text_length, input->imported_length, 0, &imported);
    import_once(input->text, input->text_length, input->imported_length, 1, &again);
    if (imported.answer != again.answer || imported.first_written != again.first_written ||
        memcmp(imported.first, again.first, again.first_written) != 0)
        fail("import: another answer, or another book, the second time");
    import_place(imported.answer);
    import_once(input->text, input->text_length, NESTED_GCC_BOOK_BYTES, 0, &whole);
    expected = whole.answer == 0 && whole.first_written > input->imported_length ? 265 : whole.answer;
    if (whole.answer == 265 || imported.answer != expected)
        fail("import answers %u, and %u with more room", (unsigned)imported.answer, (unsigned)whole.answer);
    if (imported.answer == 0 && memcmp(imported.first, whole.first, whole.first_written) != 0)
        fail("import writes another book with more room");
    if (input->expected != ANY_ANSWER && whole.answer != input->expected)
        fail("import answers %u, and not %u", (unsigned)whole.answer, (unsigned)input->expected);
    if (input->expected == 0 && (whole.first_written != input->ordered_length ||
                                 memcmp(whole.first, input->ordered, input->ordered_length) != 0))
        fail("import writes another book than the text was made from");
    if (whole.answer == 0) judge_imported(&whole);
}

static void judge(const struct input *input) {
    int entry;
    read_plainly(input);
    for (entry = CHECK; entry < ENTRIES; entry++) run_twice((enum entry)entry, input);
    judge_answers(input);
    judge_outputs(input);
    judge_idle(input);
    judge_probes(input);
    judge_kept(input);
    judge_canonical(input);
    judge_import(input);
}

static void make_regions(void) {
    size_t i;
    book_region = new_region(BOOK_ROOM);
    calls_region = new_region(CALLS_ROOM);
    first_region = new_region(ANSWERS_ROOM);
    second_region = new_region(TABLE_ROOM);
    text_region = new_region(TEXT_ROOM);
    state_region = new_region(STATE_ROOM);
    for (i = 0; i < STATE_ROOM; i++) {
        state_paints[0][i] = (uint8_t)(11 + 167 * i);
        state_paints[1][i] = (uint8_t)(254 - 59 * i);
    }
}

#ifndef FUZZ

/* ---- random inputs ---- */

static uint64_t state;

/* The generator splitmix64. */
static uint64_t bits(void) {
    uint64_t z = state += 0x9e3779b97f4a7c15u;
    z = (z ^ z >> 30) * 0xbf58476d1ce4e5b9u;
    z = (z ^ z >> 27) * 0x94d049bb133111ebu;
    return z ^ z >> 31;
}

static unsigned below(unsigned limit) { return (unsigned)((bits() >> 16) % limit); }
static unsigned between(unsigned least, unsigned most) { return least + below(most - least + 1); }

static void put_random(uint8_t *at, size_t length) {
    while (length-- > 0) *at++ = (uint8_t)below(256);
}

/* The rows of a book: near the counts of a plan, so that it mostly is live, or at random. */
static void put_rows(uint8_t *book, const uint8_t *plan, unsigned n, unsigned k, unsigned r, int near) {
    unsigned row, i;
    for (row = 0; row < r; row++) {
        unsigned type = below(k), end = between(1, n), count = 0, slack = below(3), lower, upper;
        for (i = 0; i < end; i++) count += plan[i] == type;
        lower = count > slack ? count - slack : 0;
        upper = below(4) == 0 ? NESTED_GCC_NO_UPPER : count + below(3);
        if (!near) lower = below(end + 2), upper = below(end + 2);
        if (upper > 256 && upper != NESTED_GCC_NO_UPPER) upper = 256;
        put_row(book, n, row, type, end, lower < 256 ? lower : 256, upper);
    }
}

/* A good book: a plan, masks around it, and rows. */
static void good_book(struct input *input, int large) {
    unsigned n = large ? between(200, 256) : between(1, 14), k = large ? between(1, 32) : between(1, 6);
    unsigned r = large ? (below(4) == 0 ? between(1000, 1024) : below(120)) : below(9);
    unsigned others = below(9), slot, v;
    int near = below(4) != 0;
    uint8_t plan[256];
    input->book_length = put_header(input->book, n, k, r);
    input->book[3] = (uint8_t)(number % (k + 1)); /* none idle, or by turns each */
    for (slot = 0; slot < n; slot++) {
        uint32_t mask = 1u << (plan[slot] = (uint8_t)below(k));
        for (v = 0; v < k; v++) mask |= (uint32_t)(below(8) < others) << v;
        put_word(input->book + 12 + 4 * slot, mask);
    }
    put_rows(input->book, plan, n, k, r, near);
}

/* A live book of about 1,024 canonical rows: at each even end up to some one, a row asks for half of the slots in one
 * type. That type's lower and each other type's upper then rise at every second slot, and have a corner at each of
 * these ends and nowhere else: so many rows as types times ends. Some rows more say what follows from these. */
static void many_corners(struct input *input) {
    static const uint8_t sizes[][2] = { { 32, 32 }, { 16, 64 }, { 31, 33 }, { 25, 41 } }; /* 1,024 or one off */
    unsigned size = below(8), k = size < 4 ? sizes[size][0] : between(9, 32);
    unsigned ends = size < 4 ? sizes[size][1] : 1024 / k - 1 + below(3), n = between(2 * ends, 256);
    unsigned more = below(4), r = ends + more, type = below(k), shift = below(r), i;
    input->book_length = put_header(input->book, n, k, r);
    input->book[3] = (uint8_t)(number % (k + 1));
    for (i = 0; i < n; i++) put_word(input->book + 12 + 4 * i, 1u << below(k) | (uint32_t)bits() >> (32 - k));
    for (i = 0; i < r; i++) {
        unsigned end = i < ends ? 2 * (i + 1) : between(1, 2 * ends);
        put_row(input->book, n, (i + shift) % r, type, end, end / 2, NESTED_GCC_NO_UPPER);
    }
}

static const char *const book_kinds[] = {
    "random bytes", "a right header, then random bytes", "a good small book", "a good large book",
    "a good book, 1 to 4 bits flipped", "a good book, 1 to 4 bytes changed", "a good book, cut short",
    "a good book, extended", "a good book of about 1,024 corners"
};
#define BOOK_KINDS (sizeof book_kinds / sizeof *book_kinds)

static unsigned make_book(struct input *input) {
    static const uint8_t kinds[] = { 0, 1, 2, 2, 2, 2, 2, 4, 4, 4, 5, 5, 5, 6, 7, 3 };
    unsigned kind = kinds[below(sizeof kinds)], i, more;
    memset(input->book, 0, 12);
    if (kind == 3 && below(4) != 0) kind = 2; /* large books are few, since they take long */
    if (below(250) == 0) kind = 8;
    if (kind == 0) put_random(input->book, input->book_length = below(16) == 0 ? below(9300) : below(80));
    if (kind == 1) {
        input->book_length = put_header(input->book, between(1, 6), between(30, 32), below(4));
        put_random(input->book + 12, input->book_length - 12);
    }
    if (kind == 8) many_corners(input);
    else if (kind >= 2) good_book(input, kind == 3 || below(200) == 0);
    for (i = between(1, 4); i > 0 && (kind == 4 || kind == 5); i--) {
        size_t at = below(3) == 0 ? below(12) : below((unsigned)input->book_length);
        input->book[at] = (uint8_t)(kind == 4 ? input->book[at] ^ 1u << below(8) : below(256));
    }
    if (kind == 6) input->book_length = below((unsigned)input->book_length);
    if (kind == 7) {
        more = between(1, 40);
        put_random(input->book + input->book_length, more);
        input->book_length += more;
    }
    return kind;
}

static const char *const call_kinds[] = {
    "no calls", "good calls", "good calls, 1 to 4 bits flipped", "random bytes, whole calls", "not whole calls",
    "more marks than may be open", "the longest list", "longer than the longest list"
};
#define CALL_KINDS (sizeof call_kinds / sizeof *call_kinds)

/* Calls of known kinds, with slots and types that the book has if its header says so. Up to the call `marks` most
 * are marks, and no other is a back. */
static void good_calls(struct input *input, unsigned count, unsigned marks) {
    static const uint8_t kinds[] = { 1, 1, 2, 2, 2, 2, 2, 3, 3, 3, 4, 4, 4, 4, 5, 6, 7 };
    unsigned n = book_slots(input), k = book_types(input), i;
    for (i = 0; i < count; i++) {
        input->calls[4 * i] = i < marks ? (below(8) == 0 ? 5 : 3) : kinds[below(sizeof kinds)];
        input->calls[4 * i + 1] = (uint8_t)below(k == 0 ? 1 : k);
        put_half(input->calls + 4 * i + 2, below(n == 0 ? 1 : n));
    }
    input->calls_length = 4 * count;
}

static unsigned make_calls(struct input *input) {
    static const uint8_t kinds[] = { 0, 1, 1, 1, 1, 1, 1, 2, 2, 2, 3, 3, 4 };
    unsigned kind = below(200) == 0 ? between(5, 7) : kinds[below(sizeof kinds)], i;
    unsigned count = kind == 0 ? 0 : kind >= 6 ? 4096 : kind == 5 ? between(400, 900) : between(1, 40);
    good_calls(input, count, kind == 5 ? between(300, 400) : below(3));
    if (kind == 3) put_random(input->calls, input->calls_length);
    for (i = between(1, 4); i > 0 && kind == 2; i--)
        input->calls[below((unsigned)input->calls_length)] ^= (uint8_t)(1u << below(8));
    if (kind == 4) input->calls_length -= between(1, 3);
    if (kind == 7) input->calls_length += between(1, 8);
    return kind;
}

static const char *const room_kinds[] = { "as long as needed", "longer", "one of them shorter", "any length" };
#define ROOM_KINDS (sizeof room_kinds / sizeof *room_kinds)

static unsigned make_room(struct input *input) {
    size_t n = book_slots(input) % 257, k = book_types(input) % 33;
    size_t needed[5], *lengths[5];
    unsigned kind = (unsigned)"\0\0\0\1\1\2\3"[below(7)], i, cut = below(5);
    needed[0] = needed[1] = 2 * k * (n + 1);
    needed[2] = needed[4] = 4 * n;
    needed[3] = 2 * input->calls_length;
    if (needed[3] > NESTED_GCC_ANSWERS_BYTES) needed[3] = NESTED_GCC_ANSWERS_BYTES;
    lengths[0] = &input->lowers_length, lengths[1] = &input->uppers_length, lengths[2] = &input->masks_length;
    lengths[3] = &input->answers_length, lengths[4] = &input->last_masks_length;
    for (i = 0; i < 5; i++) {
        *lengths[i] = needed[i];
        if (kind == 1) *lengths[i] += below(11);
        if (kind == 2 && i == cut && needed[i] > 0) *lengths[i] -= between(1, needed[i] < 9 ? (unsigned)needed[i] : 9);
        if (kind == 3) *lengths[i] = below(40 + (unsigned)needed[i]);
    }
    return kind;
}

/* ---- lists of probes ---- */

static const char *const probe_kinds[] = {
    "no calls", "good assigns", "every type in every slot", "good assigns, 1 to 4 bits flipped",
    "good assigns, some fields at a limit or past it", "random bytes, whole calls", "the calls of the session",
    "not whole calls", "the longest list", "longer than the longest list"
};
#define PROBE_KINDS (sizeof probe_kinds / sizeof *probe_kinds)

static void put_probe(struct input *input, size_t i, unsigned kind, unsigned type, unsigned slot) {
    input->probes[4 * i] = (uint8_t)kind;
    input->probes[4 * i + 1] = (uint8_t)type;
    put_half(input->probes + 4 * i + 2, slot);
}

/* Assigns of slots and types that the book has if its header says so: any of them, or one after the other. */
static void good_probes(struct input *input, unsigned count, int in_turn) {
    unsigned n = book_slots(input), k = book_types(input), i, from;
    n = n == 0 ? 1 : n, k = k == 0 ? 1 : k;
    if (in_turn) count = n * k < 4096 ? n * k : 4096;
    from = in_turn ? below(n * k - count + 1) : 0;
    for (i = 0; i < count; i++) {
        if (in_turn) put_probe(input, i, NESTED_GCC_ASSIGN, (from + i) % k, (from + i) / k);
        else put_probe(input, i, NESTED_GCC_ASSIGN, below(k), below(n));
    }
    input->probes_length = 4 * count;
}

/* One field of a call set to a limit, or past it. */
static void probe_at_a_limit(struct input *input) {
    static const uint8_t kinds[] = { 0, 2, 2, 2, 3, 4, 5, 6, 7, 8, 255 };
    uint8_t *call = input->probes + 4 * below((unsigned)input->probes_length / 4);
    unsigned n = book_slots(input), k = book_types(input);
    switch (below(3)) {
    case 0: call[0] = kinds[below(sizeof kinds)]; break;
    case 1: call[1] = (uint8_t)(below(4) == 0 ? 255 : k - 1 + below(3)); break;
    default: put_half(call + 2, below(4) == 0 ? 65535 : n - 1 + below(3));
    }
}

static unsigned make_probes(struct input *input) {
    static const uint8_t kinds[] = { 0, 1, 1, 1, 1, 2, 2, 2, 3, 3, 4, 4, 4, 5, 6, 7 };
    unsigned kind = below(300) == 0 ? between(8, 9) : kinds[below(sizeof kinds)], i;
    good_probes(input, kind == 0 ? 0 : kind >= 8 ? 4098 : between(1, 40), kind == 2);
    for (i = between(1, 4); i > 0 && kind == 3; i--)
        input->probes[below((unsigned)input->probes_length)] ^= (uint8_t)(1u << below(8));
    for (i = between(1, 3); i > 0 && kind == 4; i--) probe_at_a_limit(input);
    if (kind == 5) put_random(input->probes, input->probes_length);
    if (kind == 6) memcpy(input->probes, input->calls, input->probes_length = input->calls_length);
    if (kind == 7) input->probes_length -= between(1, 3);
    if (kind == 8) input->probes_length = NESTED_GCC_CALLS_BYTES;
    if (kind == 9) input->probes_length = NESTED_GCC_CALLS_BYTES + between(1, 8);
    return kind;
}

static const char *const dead_room_kinds[] = { "a byte a call", "longer", "shorter", "any length" };

static unsigned make_dead_room(struct input *input) {
    unsigned kind = (unsigned)"\0\0\0\1\1\2\3"[below(7)], count = (unsigned)input->probes_length / 4;
    input->dead_length = count;
    if (kind == 1) input->dead_length += between(1, 10);
    if (kind == 2 && count > 0) input->dead_length -= between(1, count < 9 ? count : 9);
    if (kind == 3) input->dead_length = below(40 + count);
    return kind;
}

/* ---- the output of canonical ---- */

static const char *const canonical_room_kinds[CANONICAL_ROOMS] = {
    "as long as the canonical book", "longer", "a byte too short", "without a byte", "any length"
};

static unsigned make_canonical_room(struct input *input) {
    static const uint8_t kinds[] = { ROOM_EXACT,     ROOM_EXACT, ROOM_LONGER, ROOM_LONGER,
                                     ROOM_ONE_SHORT, ROOM_NONE,  ROOM_ANY };
    input->canonical_room = kinds[below(sizeof kinds)];
    input->canonical_spare = below(65536);
    return input->canonical_room;
}

/* ---- texts ---- */

/* What a text orders: numbers as they are to be written, in range or not. */
struct orders {
    unsigned n, k, r;
    struct { unsigned type, end, lower, upper; } rows[1030];
};

/* Good orders, for a small book or a large one. */
static void good_orders(struct orders *orders, int large) {
    unsigned i;
    orders->n = large ? between(250, 256) : between(1, 12);
    orders->k = below(4) == 0 ? between(31, 32) : between(1, 6);
    orders->r = large ? between(1000, 1024) : below(8);
    for (i = 0; i < orders->r; i++) {
        unsigned end = between(1, orders->n);
        orders->rows[i].type = below(orders->k);
        orders->rows[i].end = end;
        orders->rows[i].lower = below(8) == 0 ? between(0, 256) : below(end + 1);
        orders->rows[i].upper = below(4) == 0 ? NESTED_GCC_NO_UPPER : below(8) == 0 ? between(0, 256) : below(end + 1);
    }
}

/* One number set to a limit, or past it. */
static void past_a_limit(struct orders *orders) {
    static const unsigned limits[] = { 0, 1, 31, 32, 33, 255, 256, 257, 65534, 65535, 65536, 65537, 99999 };
    unsigned limit = limits[below(sizeof limits / sizeof *limits)], row = below(orders->r + 1);
    if (below(3) == 0) limit = below(2) == 0 ? orders->n + below(2) : orders->k + below(2);
    if (row == orders->r) {
        if (below(2) == 0) orders->n = limit;
        else orders->k = limit;
        return;
    }
    switch (below(4)) {
    case 0: orders->rows[row].type = limit; break;
    case 1: orders->rows[row].end = limit; break;
    case 2: orders->rows[row].lower = limit; break;
    default: orders->rows[row].upper = limit;
    }
}

/* What import answers, given room. */
static uint32_t answer_of(const struct orders *orders) {
    unsigned i;
    if (orders->n < 1 || orders->n > 256 || orders->k < 1 || orders->k > 32 || orders->r > 1024) return 258;
    for (i = 0; i < orders->r; i++) {
        unsigned upper = orders->rows[i].upper;
        if (orders->rows[i].type >= orders->k) return 262;
        if (orders->rows[i].end < 1 || orders->rows[i].end > orders->n) return 263;
        if (orders->rows[i].lower > 256 || (upper > 256 && upper != NESTED_GCC_NO_UPPER)) return 264;
    }
    return 0;
}

/* The book of good orders. */
static void put_ordered(struct input *input, const struct orders *orders) {
    unsigned i;
    input->ordered_length = put_header(input->ordered, orders->n, orders->k, orders->r);
    for (i = 0; i < orders->n; i++) put_word(input->ordered + 12 + 4 * i, 0xffffffffu >> (32 - orders->k));
    for (i = 0; i < orders->r; i++)
        put_row(input->ordered, orders->n, i, orders->rows[i].type, orders->rows[i].end, orders->rows[i].lower,
                orders->rows[i].upper);
}

static void put_bytes(struct input *input, const char *bytes) {
    while (*bytes != 0) input->text[input->text_length++] = (uint8_t)*bytes++;
}

/* A field and what follows it, quoted and with leading zeros in so many of eight cases. An upper that is none is
 * empty in every second case. */
static void put_field(struct input *input, unsigned field, int is_upper, const char *then, unsigned quoted,
                      unsigned zeros) {
    char digits[16] = "";
    int quote = below(8) < quoted;
    if (!(is_upper && field == NESTED_GCC_NO_UPPER && below(2) == 0))
        sprintf(digits, "%0*u", below(8) < zeros ? (int)between(1, 5) : 1, field);
    if (quote) put_bytes(input, "\"");
    put_bytes(input, digits);
    if (quote) put_bytes(input, "\"");
    put_bytes(input, then);
}

static void put_text(struct input *input, const struct orders *orders) {
    static const uint8_t eighths[] = { 0, 0, 1, 4, 8 };
    unsigned quoted = eighths[below(5)], zeros = eighths[below(5)], i;
    input->text_length = 0;
    put_field(input, orders->n, 0, ",", quoted, zeros);
    put_field(input, orders->k, 0, "", quoted, zeros);
    for (i = 0; i < orders->r; i++) {
        put_bytes(input, "\r\n");
        put_field(input, orders->rows[i].type, 0, ",", quoted, zeros);
        put_field(input, orders->rows[i].end, 0, ",", quoted, zeros);
        put_field(input, orders->rows[i].lower, 0, ",", quoted, zeros);
        put_field(input, orders->rows[i].upper, 1, "", quoted, zeros);
    }
    if (below(2) == 0) put_bytes(input, "\r\n");
}

/* Puts `bytes` in the place of the `length` bytes at `at`. */
static void replace(struct input *input, size_t at, size_t length, const void *bytes, size_t count) {
    if (input->text_length - length + count > TEXT_ROOM - GUARD) return;
    memmove(input->text + at + count, input->text + at + length, input->text_length - at - length);
    memcpy(input->text + at, bytes, count);
    input->text_length += count - length;
}

/* The place of one of the text's digits. */
static size_t some_digit(const struct input *input) {
    size_t at = below((unsigned)input->text_length);
    while (input->text[at] < '0' || input->text[at] > '9') at = (at + 1) % input->text_length;
    return at;
}

/* The place of one of the text's line ends, or the text's length if it has none. */
static size_t some_line_end(const struct input *input) {
    size_t from = below((unsigned)input->text_length), i;
    for (i = 0; i < input->text_length; i++) {
        size_t at = (from + i) % input->text_length;
        if (input->text[at] == '\r') return at;
    }
    return input->text_length;
}

/* Breaks a line end or the quoting of a good text. A quote more makes their number odd: as it stands after a digit, the
 * field that it is in ends with it, or else not before a quote that a digit follows. */
static void break_quoting(struct input *input) {
    size_t end = some_line_end(input);
    unsigned kind = below(3);
    if (kind == 0) replace(input, some_digit(input) + 1, 0, "\"", 1);
    else if (end == input->text_length) replace(input, end, 0, kind == 1 ? "\r" : "\n", 1);
    else replace(input, end, 2, kind == 1 ? "\r" : "\n", 1);
}

/* Makes a field of a good text no number, or its record longer. */
static void break_field(struct input *input) {
    static const char others[] = { 'x', ' ', '\t', '-', '.', ';', '/', ':', 0, (char)128, (char)255 };
    unsigned kind = below(3);
    if (kind == 0) replace(input, some_digit(input), 1, others + below(sizeof others), 1);
    if (kind == 1) replace(input, some_digit(input), 0, "00000", 5);
    if (kind == 2) replace(input, some_line_end(input), 0, ",", 1);
}

static const char *const text_kinds[] = {
    "random bytes", "bytes that texts are made of", "a good text", "a good text of many rows", "a number past a limit",
    "more rows than may be", "a good text, quoting broken", "a good text, a field broken",
    "a good text, 1 to 4 bytes changed", "a good text, cut short", "a good text, a stretch of it twice"
};
#define TEXT_KINDS (sizeof text_kinds / sizeof *text_kinds)

static unsigned make_text(struct input *input) {
    static const char alphabet[] = "0123456789,,,,,,\"\"\"\"\r\nx";
    static const uint8_t kinds[] = { 0, 1, 1, 2, 2, 2, 3, 4, 4, 4, 6, 7, 8, 8, 9, 10 };
    static struct orders orders;
    unsigned kind = kinds[below(sizeof kinds)], i;
    int large = kind == 3 && below(8) == 0;
    if (kind == 3 && !large) kind = 2; /* large texts are few, since they take long */
    good_orders(&orders, large || below(500) == 0);
    if (large && below(2) == 0) {
        kind = 5;
        for (i = 1; i < 1030; i++) orders.rows[i] = orders.rows[0];
        orders.r = between(1025, 1030);
    }
    if (kind == 4) past_a_limit(&orders);
    put_text(input, &orders);
    input->expected = kind >= 8 ? ANY_ANSWER : kind == 7 ? 274 : kind == 6 ? 273 : answer_of(&orders);
    if (input->expected == 0) put_ordered(input, &orders);
    input->imported_length = 12 + 4 * (orders.n % 257) + 8 * (orders.r % 1025);
    if (kind == 6) break_quoting(input);
    if (kind == 7) break_field(input);
    for (i = between(1, 4); i > 0 && kind == 8; i--)
        input->text[below((unsigned)input->text_length)] =
            (uint8_t)(below(2) == 0 ? below(256) : (unsigned)alphabet[below(sizeof alphabet - 1)]);
    if (kind == 9) input->text_length = below((unsigned)input->text_length);
    if (kind == 10) {
        uint8_t stretch[16];
        size_t at = below((unsigned)input->text_length), length = between(1, sizeof stretch);
        if (length > input->text_length - at) length = input->text_length - at;
        memcpy(stretch, input->text + at, length);
        replace(input, at, 0, stretch, length);
    }
    if (kind < 2) {
        input->expected = ANY_ANSWER;
        input->text_length = 0;
        for (i = below(kind == 0 ? 20 : 40); i > 0; i--) {
            if (kind == 1 && below(8) == 0) put_bytes(input, "\r\n");
            else input->text[input->text_length++] =
                (uint8_t)(kind == 0 ? below(256) : (unsigned)alphabet[below(sizeof alphabet - 1)]);
        }
    }
    return kind;
}

static const char *const import_room_kinds[] = { "as long as the book before the text was damaged or replaced",
                                                 "longer than that", "shorter than that", "any length" };

/* The length of the output, from that of the book of the good orders. A text that is damaged, or replaced by random
 * bytes, may say a longer book or a shorter one. */
static unsigned make_import_room(struct input *input) {
    unsigned kind = (unsigned)"\0\0\0\1\1\2\3"[below(7)];
    if (kind == 1) input->imported_length += below(11);
    if (kind == 2) input->imported_length -= between(1, 9);
    if (kind == 3) input->imported_length = below(40 + (unsigned)input->imported_length);
    return kind;
}

/* ---- counts ---- */

#define SESSION_ANSWERS 12 /* 0, 1, 257 to 266 */
#define PROBE_ANSWERS 8    /* 0, 1, one of 257 to 264, 265 to 269 */

static unsigned long by_book[BOOK_KINDS][SESSION_ANSWERS], by_entry[ENTRIES][ANSWERS];
static unsigned long by_probes[PROBE_KINDS][PROBE_ANSWERS], by_dead_room[ROOM_KINDS][PROBE_ANSWERS];
static unsigned long by_calls[CALL_KINDS][3], by_room[ROOM_KINDS][3];
static unsigned long first_words[16]; /* 0 to 3, then 267 to 272 from 4 on */
static unsigned long by_canonical_book[BOOK_KINDS][CANONICAL_ANSWERS];
static unsigned long by_canonical_room[CANONICAL_ROOMS][CANONICAL_ANSWERS];
static unsigned long by_text[TEXT_KINDS][IMPORT_ANSWERS], by_import_room[ROOM_KINDS][IMPORT_ANSWERS];

static unsigned answer_place(uint32_t answer) { return answer < 2 ? answer : answer - 255; }
static unsigned verdict_place(uint32_t answer) { return answer < 2 ? answer : 2; }
static unsigned probe_place(uint32_t answer) { return answer < 2 ? answer : answer < 265 ? 2 : answer - 262; }

static void count(const struct input *input, unsigned book, unsigned calls, unsigned room) {
    const struct outcome *session = &outcomes[SESSION];
    size_t i;
    for (i = 0; i < ENTRIES; i++) by_entry[i][answer_place(outcomes[i].answer)]++;
    by_book[book][answer_place(session->answer)]++;
    by_calls[calls][verdict_place(session->answer)]++;
    by_room[room][verdict_place(session->answer)]++;
    for (i = 0; session->answer < 2 && i < input->calls_length / 4; i++) {
        uint32_t first = word(session->first, 2 * i);
        first_words[first < 4 ? first : first - 263]++;
    }
}

static void print_line(const char *name, const unsigned long *counts, size_t length) {
    size_t i;
    unsigned long sum = 0;
    printf("| %s |", name);
    for (i = 0; i < length; i++) {
        printf(" %lu |", counts[i]);
        sum += counts[i];
    }
    printf(" %lu |\n", sum);
}

static void print_head(const char *first, const char *const *columns, size_t length) {
    size_t i;
    printf("\n| %s |", first);
    for (i = 0; i < length; i++) printf(" %s |", columns[i]);
    printf(" all |\n|---|");
    for (i = 0; i <= length; i++) printf("---:|");
    printf("\n");
}

static void print_counts(void) {
    static const char *const answers[] = { "0",   "1",   "257", "258", "259", "260", "261", "262",
                                           "263", "264", "265", "266", "267", "268", "269" };
    static const char *const of_probe[] = { "0", "1", "257 to 264", "265", "266", "267", "268", "269" };
    static const char *const verdicts[] = { "opened live", "opened dead", "refused" };
    static const char *const words[] = { "0", "1", "2", "3", "267", "268", "269", "270", "271", "272" };
    static const char *const of_canonical[] = { "0",   "1",   "257", "258", "259", "260",
                                                "261", "262", "263", "264", "265", "275" };
    static const char *const of_import[] = { "0", "258", "262", "263", "264", "265", "273", "274" };
    size_t i;
    print_head("answers of", answers, ANSWERS);
    for (i = 0; i < ENTRIES; i++) print_line(entry_names[i], by_entry[i], ANSWERS);
    print_line("open", opens, ANSWERS);
    print_line("step", steps, ANSWERS);
    print_head("session's answers by kind of book", answers, SESSION_ANSWERS);
    for (i = 0; i < BOOK_KINDS; i++) print_line(book_kinds[i], by_book[i], SESSION_ANSWERS);
    print_head("session by kind of call list", verdicts, 3);
    for (i = 0; i < CALL_KINDS; i++) print_line(call_kinds[i], by_calls[i], 3);
    print_head("session by outputs", verdicts, 3);
    for (i = 0; i < ROOM_KINDS; i++) print_line(room_kinds[i], by_room[i], 3);
    print_head("first words of calls", words, 10);
    print_line("count", first_words, 10);
    printf("\nBeside their steps the kept sessions made %lu single calls, and were moved to another place %lu times.\n",
           single_calls, moves);
    printf("%lu inputs had a good book with an idle type. With another idle type, or none, %lu live answers had "
           "another struck figure.\n", idle_books, other_figures);
    print_head("probe's answers by kind of call list", of_probe, PROBE_ANSWERS);
    for (i = 0; i < PROBE_KINDS; i++) print_line(probe_kinds[i], by_probes[i], PROBE_ANSWERS);
    print_head("probe's answers by output", of_probe, PROBE_ANSWERS);
    for (i = 0; i < ROOM_KINDS; i++) print_line(dead_room_kinds[i], by_dead_room[i], PROBE_ANSWERS);
    printf("\nOf the probes on live books %lu were live and %lu dead, %lu of these though the slot has the type.\n",
           probes_live, probes_dead, probes_dead_within);
    print_head("canonical's answers by kind of book", of_canonical, CANONICAL_ANSWERS);
    for (i = 0; i < BOOK_KINDS; i++) print_line(book_kinds[i], by_canonical_book[i], CANONICAL_ANSWERS);
    print_head("canonical's answers by output", of_canonical, CANONICAL_ANSWERS);
    for (i = 0; i < CANONICAL_ROOMS; i++) print_line(canonical_room_kinds[i], by_canonical_room[i], CANONICAL_ANSWERS);
    printf("\nOf the canonical books that were written %lu have fewer rows than the given book, %lu more, and %lu have "
           "1,024.\nWhere a book has none, its own length stands in for that of the canonical book.\n",
           shorter_books, longer_books, full_books);
    print_head("import's answers by kind of text", of_import, IMPORT_ANSWERS);
    for (i = 0; i < TEXT_KINDS; i++) print_line(text_kinds[i], by_text[i], IMPORT_ANSWERS);
    print_head("import's answers by output", of_import, IMPORT_ANSWERS);
    for (i = 0; i < ROOM_KINDS; i++) print_line(import_room_kinds[i], by_import_room[i], IMPORT_ANSWERS);
}

int main(int argc, char **argv) {
    static struct input input;
    unsigned long long first, count_of_inputs;
    if (argc != 4) {
        fprintf(stderr, "usage: robustness SEED FIRST COUNT\n");
        return 2;
    }
    seed = strtoull(argv[1], NULL, 10);
    first = strtoull(argv[2], NULL, 10);
    count_of_inputs = strtoull(argv[3], NULL, 10);
    watch_signals();
    make_regions();
    for (number = first; number < first + count_of_inputs; number++) {
        unsigned book, calls, room, text, import_room, probes, dead_room, canonical_room;
        state = seed * 0x2545f4914f6cdd1du + number * 0xd1342543de82ef95u;
        book = make_book(&input);
        calls = make_calls(&input);
        room = make_room(&input);
        text = make_text(&input);
        import_room = make_import_room(&input);
        probes = make_probes(&input);
        dead_room = make_dead_room(&input);
        canonical_room = make_canonical_room(&input);
        judge(&input);
        count(&input, book, calls, room);
        by_text[text][import_place(imported.answer)]++;
        by_import_room[import_room][import_place(imported.answer)]++;
        by_probes[probes][probe_place(outcomes[PROBE].answer)]++;
        by_dead_room[dead_room][probe_place(outcomes[PROBE].answer)]++;
        by_canonical_book[book][canonical_place(canonical.answer)]++;
        by_canonical_room[canonical_room][canonical_place(canonical.answer)]++;
    }
    print_counts();
    return 0;
}

#else

/* ---- libFuzzer ---- */

/* The archive has no counters of its own; these tell libFuzzer which answers, words and steps an input reached. */
__attribute__((section("__libfuzzer_extra_counters"))) static uint8_t reached[8192];

static void note(unsigned what, uint32_t value) {
    unsigned size = 0;
    while (value >> size != 0 && size < 12) size++; /* value up to a power of two */
    reached[(what * 13 + size) % sizeof reached] = 1;
}

static void note_outcomes(const struct input *input) {
    const struct outcome *session = &outcomes[SESSION];
    unsigned before = 0, open = 0;
    size_t i;
    for (i = 0; i < ENTRIES; i++) note(512 + 16 * (unsigned)i + outcomes[i].answer % 16, 0);
    for (i = 0; session->answer < 2 && i < input->calls_length / 4; i++) {
        uint32_t first = word(session->first, 2 * i), second = word(session->first, 2 * i + 1);
        unsigned here = (input->calls[4 * i] & 7u) * 8 + (first < 4 ? first : 4 + first % 4);
        note(here, second);
        note(64 + (before & 7u) * 64 + here, 0);
        open += first == 3 && input->calls[4 * i] == 3;
        before = here;
    }
    note(600, open);
}

static uint32_t every_type(unsigned k) { return 0xffffffffu >> (32 - k); }

/* Makes a book of any bytes good: header, masks and rows are cut to what they may be. */
static void repair_book(struct input *input) {
    unsigned n, k, r, i, idle;
    size_t length = input->book_length;
    if (length < 12) return;
    n = 1 + (input->book[0] + (input->book[1] & 1u) * 128u) % 256;
    k = 1 + input->book[2] % 32u;
    r = input->book[4] % 65u;
    idle = input->book[3] % (k + 1);
    memset(input->book + length, 0, BOOK_ROOM - length);
    input->book_length = put_header(input->book, n, k, r);
    input->book[3] = (uint8_t)idle;
    for (i = 0; i < n; i++) {
        uint32_t mask = book_mask(input, i) & every_type(k);
        put_word(input->book + 12 + 4 * i, mask == 0 ? every_type(k) : mask);
    }
    for (i = 0; i < r; i++) {
        uint8_t *row = input->book + 12 + 4 * n + 8 * i;
        unsigned end = 1 + half(row, 1) % n, upper = row[6] % (n + 2);
        put_row(input->book, n, i, row[0] % k, end, row[4] % (n + 2), upper > n ? NESTED_GCC_NO_UPPER : upper);
    }
}

static void repair_calls(struct input *input) {
    unsigned n = book_slots(input), k = book_types(input), i;
    if (n == 0 || k == 0) return;
    input->calls_length -= input->calls_length % 4;
    for (i = 0; i < input->calls_length / 4; i++) {
        uint8_t *call = input->calls + 4 * i;
        call[0] = 1 + call[0] % 7;
        call[1] = (uint8_t)(call[1] % k);
        put_half(call + 2, half(call, 1) % n);
    }
}

/* The probes: the bytes themselves, or assigns of what the book has, but a remove for each whose first byte is 255. */
static void put_fuzzed_probes(struct input *input, const uint8_t *bytes, size_t length, int repaired) {
    unsigned n = book_slots(input), k = book_types(input);
    size_t i;
    memcpy(input->probes, bytes, input->probes_length = length);
    if (!repaired || n == 0 || k == 0) return;
    input->probes_length -= length % 4;
    for (i = 0; i < input->probes_length / 4; i++) {
        uint8_t *call = input->probes + 4 * i;
        call[0] = call[0] == 255 ? NESTED_GCC_REMOVE : NESTED_GCC_ASSIGN;
        call[1] = (uint8_t)(call[1] % k);
        put_half(call + 2, half(call, 1) % n);
    }
}

/* The text: the bytes themselves, or each a token of those that texts are made of. */
static void put_fuzzed_text(struct input *input, const uint8_t *bytes, size_t length, int tokens) {
    static const char alphabet[] = "0123456789,\"\r\n\r\nx"; /* token 12 is a whole line end */
    size_t i;
    input->text_length = 0;
    for (i = 0; i < length; i++) {
        unsigned token = bytes[i] % 16u;
        if (tokens && token == 12) input->text[input->text_length++] = '\r';
        input->text[input->text_length++] = tokens ? (uint8_t)alphabet[token + (token >= 12)] : bytes[i];
    }
    input->expected = ANY_ANSWER;
}

static unsigned long probe_counts[3], import_counts[IMPORT_ANSWERS];
static unsigned long canonical_counts[5]; /* written, dead, the book refused, 9, 19 */

/* Tells libFuzzer of canonical's answer and of how many rows the canonical book has. */
static void note_canonical(void) {
    unsigned place = canonical_place(canonical.answer);
    place = place < 2 ? place : place < CANONICAL_ANSWERS - 2 ? 2 : place - (CANONICAL_ANSWERS - 5);
    note(612 + place, plain.live ? plain.rows : 0);
    canonical_counts[place]++;
}

/* Tells libFuzzer how many probes are live, and how many dead, and of which kind. */
static void note_probes(void) {
    static unsigned long live, dead, within; /* of the inputs before this one */
    uint32_t answer = outcomes[PROBE].answer;
    note(609, (uint32_t)(probes_live - live));
    note(610, (uint32_t)(probes_dead - dead));
    note(611, (uint32_t)(probes_dead_within - within));
    live = probes_live, dead = probes_dead, within = probes_dead_within;
    probe_counts[answer < 2 ? answer : 2]++;
}

/* Tells libFuzzer of the answer and of how many line ends the text has. */
static void note_import(const struct input *input) {
    unsigned place = import_place(imported.answer), ends = 0;
    size_t i;
    for (i = 0; i < input->text_length; i++) ends += input->text[i] == '\n';
    note(601 + place, ends);
    import_counts[place]++;
}

static unsigned long opened_live, opened_dead, refused, decisions;

static void print_sessions(void) {
    fprintf(stderr, "sessions: %lu opened live, %lu opened dead, %lu refused; %lu decisions answered live or dead\n",
            opened_live, opened_dead, refused, decisions);
    fprintf(stderr, "probes: %lu lists on live books, %lu on dead ones, %lu refused; on live books %lu probes live, "
            "%lu dead, %lu of these though the slot has the type\n",
            probe_counts[0], probe_counts[1], probe_counts[2], probes_live, probes_dead, probes_dead_within);
    fprintf(stderr, "canonicals: %lu written, %lu of these with fewer rows than the book and %lu with more, "
            "%lu of dead books, %lu refused by a number of the book, %lu by 19, %lu by 9\n",
            canonical_counts[0], shorter_books, longer_books, canonical_counts[1], canonical_counts[2],
            canonical_counts[4], canonical_counts[3]);
    fprintf(stderr, "imports: %lu good, %lu refused by 17, %lu by 18, %lu by 2, %lu by 6 to 8, %lu by 9\n",
            import_counts[0], import_counts[6], import_counts[7], import_counts[1],
            import_counts[2] + import_counts[3] + import_counts[4], import_counts[5]);
}

static void count_session(const struct input *input) {
    const struct outcome *session = &outcomes[SESSION];
    size_t i;
    opened_live += session->answer == 0;
    opened_dead += session->answer == 1;
    refused += session->answer > 1;
    for (i = 0; session->answer == 0 && i < input->calls_length / 4; i++) decisions += word(session->first, 2 * i) < 2;
}

int LLVMFuzzerInitialize(int *argc, char ***argv);
int LLVMFuzzerTestOneInput(const uint8_t *data, size_t size);

int LLVMFuzzerInitialize(int *argc, char ***argv) {
    (void)argc;
    (void)argv;
    make_regions();
    atexit(print_sessions);
    return 0;
}

/* The input: what to repair and which output to cut (1 byte), the book's length (2 bytes), the book, the calls, which
 * are the probes too. Book and calls together are the text too, and the 2 bytes say how long its output is, and also
 * canonical's where that has any length. */
int LLVMFuzzerTestOneInput(const uint8_t *data, size_t size) {
    static struct input input;
    size_t book, n, k;
    unsigned cut;
    if (size < 3) return 0;
    book = data[1] + 256u * data[2];
    book = book < size - 3 ? book : size - 3;
    if (book > BOOK_ROOM - GUARD || size - 3 - book > CALLS_ROOM - GUARD) return 0;
    if (2 * (size - 3) > TEXT_ROOM - GUARD) return 0;
    memcpy(input.book, data + 3, input.book_length = book);
    memcpy(input.calls, data + 3 + book, input.calls_length = size - 3 - book);
    if (input.book_length < 3) memset(input.book + input.book_length, 0, 3);
    if (data[0] & 1) repair_book(&input);
    if (data[0] & 2) repair_calls(&input);
    n = book_slots(&input) % 257, k = book_types(&input) % 33;
    put_fuzzed_probes(&input, data + 3 + book, size - 3 - book, data[0] >> 1 & 1);
    cut = data[0] >> 2 & 7; /* which output is one byte too short; 6: canonical's, 7: none */
    input.lowers_length = 2 * k * (n + 1) - (k > 0 && cut == 0);
    input.uppers_length = 2 * k * (n + 1) - (k > 0 && cut == 1);
    input.masks_length = 4 * n - (n > 0 && cut == 2);
    input.last_masks_length = 4 * n - (n > 0 && cut == 3) + (data[0] >> 6);
    input.answers_length = 2 * input.calls_length;
    if (input.answers_length > NESTED_GCC_ANSWERS_BYTES) input.answers_length = NESTED_GCC_ANSWERS_BYTES;
    input.answers_length -= input.answers_length > 0 && cut == 4;
    input.dead_length = input.probes_length / 4 + (data[0] >> 6);
    input.dead_length -= input.dead_length > 0 && cut == 5;
    input.canonical_room = cut == 6 ? ROOM_ONE_SHORT : cut == 7 ? ROOM_ANY : data[0] >> 6 ? ROOM_LONGER : ROOM_EXACT;
    input.canonical_spare = data[1] + 256u * data[2];
    put_fuzzed_text(&input, data + 3, size - 3, data[0] >> 5 & 1);
    input.imported_length = (data[1] + 256u * data[2]) % (NESTED_GCC_BOOK_BYTES + 100);
    number++;
    judge(&input);
    note_outcomes(&input);
    note_probes();
    note_canonical();
    note_import(&input);
    count_session(&input);
    return 0;
}

#endif
