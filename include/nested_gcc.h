/*
 * nested_gcc.h: the proved filter of order books, for C99 and C++ on x86-64 Linux.
 * Link with libnested_gcc.a, which tools/archive builds.
 *
 * docs/SPECIFICATION.md has the rules in full: 1 Words and numbers, 2 The book, 3 Closing,
 * 4 Settling and plans, 5 The session, 6 Walls, 7 Entries, 8 Refusals, 9 Worked examples, 10 The program planrun,
 * 11 The kept session, 12 The version, 13 The import of CSV, 14 The probes, 15 The canonical book.
 * docs/ASSUMPTIONS.md lists what a host must keep.
 *
 * nested_gcc_check       whether the bytes are a good book
 * nested_gcc_close       the bounds that follow from a book's rows, or that the book is dead
 * nested_gcc_settle      the types that each slot may still have, or that the book is dead
 * nested_gcc_session     a list of calls on a settled book: decisions, marks to go back to, and questions
 * nested_gcc_open        the same session kept in memory of the host, a nested_gcc_state, for a search: opened once,
 * nested_gcc_step        then stepped by lists of calls,
 * nested_gcc_call        or by single calls, from where the last left it
 * nested_gcc_probe       which assignments of a list would die, each alone on a settled book
 * nested_gcc_canonical   the one book for all that close to the same bounds, for an archive
 * nested_gcc_import_csv  the book that orders in CSV say, written to memory of the host
 * nested_gcc_version     the version of the archive
 *
 * A book, in little-endian numbers: slots n (2 bytes, 1 to NESTED_GCC_SLOTS_MOST), types k (1 byte, 1 to
 * NESTED_GCC_TYPES_MOST), the idle byte (1 byte, 0 to k), row count r (2 bytes, 0 to NESTED_GCC_ROWS_MOST), offset
 * of the masks (2 bytes, 12), offset of the rows (2 bytes, 12 + 4n), length (2 bytes, 12 + 4n + 8r); then n masks of
 * 4 bytes, bit v saying that type v may go in that slot; then r rows of 8 bytes: type (1 byte), a byte 0,
 * end, lower, upper (2 bytes each). A row says that the first `end` slots have at least `lower` and at most
 * `upper` of the type; upper NESTED_GCC_NO_UPPER means no upper bound.
 *
 * The idle byte is 0, or a type plus 1: the type that means that the line stands. What a session tells as struck
 * leaves that type out; bounds, masks, walls, and what is dead or refused do not depend on it.
 *
 * For every function here:
 * - There is no premise on the bytes of a book, a list of calls or a text. If they are readable and the outputs
 *   writable, the answer is defined, and follows from these and the outputs' lengths alone; that of nested_gcc_step and
 *   nested_gcc_call from the state, the calls and the answers' length. These two have the only premise: the state was
 *   opened by a nested_gcc_open that did not refuse, and is what that or a later nested_gcc_open, nested_gcc_step or
 *   nested_gcc_call left, or a copy of that.
 * - A pointer may be NULL, or any other, when its length is 0: nothing is read or written through it. So an
 *   empty std::vector may be passed by its data() and size(). This is tested, not proved, by
 *   host/nested-gcc/tests/null.rs and examples/empty.c. With another length a pointer is not NULL.
 * - The library keeps nothing between calls and allocates nothing: a kept session is in the state that the host owns.
 *   So any number of threads may call at once, each with outputs and a state of its own.
 * - A book is only read, and only during the call, and so are a list of calls and a text. No thread may change them
 *   meanwhile. Functions that run at once may share them. Only nested_gcc_import_csv and nested_gcc_canonical write
 *   a book, and that is an output.
 * - An output is written only during the call, and only where the function's comment says so. What it
 *   holds before plays no part in the answer or in what is written. It may not overlap the book, the calls, the text or
 *   another output, and no other thread may use it meanwhile. All of this but the second sentence holds of a state.
 * - Lengths are in bytes. An output's elements are little-endian and need no alignment; a trailing part
 *   of an element neither counts nor is written. A buffer is lent: it is the function's for the call alone.
 *   The answers of nested_gcc_step are words of C, aligned and counted as such; so are the fields of a state.
 * - The comment of each function says how much stack a call needs, from its caller's frame down. That is
 *   measured, not proved, by host/nested-gcc/tests/stack.rs, which fails above the figure named there. A thread's
 *   own start takes some 5 KiB more (glibc). The 128 KiB that some C libraries (musl) give a thread by default
 *   are too few: unless it refuses, nested_gcc_session leaves less than 3 of them, and on some books it,
 *   nested_gcc_settle and nested_gcc_probe need about twice as much. A host gives a thread that calls them 6 MiB,
 *   which suffices for every book, or 512 KiB if it knows its books (pthread_attr_setstacksize). A kept session needs
 *   less: 36 KiB to open and 2 to step, and more on some books. On each of 1000 random books it needed at most 66 KiB
 *   of a thread's stack, the thread's start included, and 100 others ran in threads of 128 KiB. The deepest nesting
 *   found needs 167. docs/ASSUMPTIONS.md, "Stack", has the figures in one table.
 */
#ifndef NESTED_GCC_H
#define NESTED_GCC_H

#include <stddef.h>
#include <stdint.h>

#ifdef __cplusplus
extern "C" {
#endif

/* The version of this header: major, when a signature changes, or what a good input was answered; minor, when an
 * entry is added, or what was refused is accepted or refused by another number; patch else. CHANGELOG.md tells them. */
#define NESTED_GCC_VERSION "1.6.0"
#define NESTED_GCC_VERSION_MAJOR 1u
#define NESTED_GCC_VERSION_MINOR 6u
#define NESTED_GCC_VERSION_PATCH 0u
#define NESTED_GCC_VERSION_NUMBER \
    (NESTED_GCC_VERSION_MAJOR * 65536u + NESTED_GCC_VERSION_MINOR * 256u + NESTED_GCC_VERSION_PATCH)

/*
 * The version of the archive, as NESTED_GCC_VERSION_NUMBER is that of the header. Stack: a few bytes.
 */
uint32_t nested_gcc_version(void);

/* The sizes of a good book. */
#define NESTED_GCC_SLOTS_MOST 256u  /* the most slots; the least is 1 */
#define NESTED_GCC_TYPES_MOST 32u   /* the most types; the least is 1 */
#define NESTED_GCC_ROWS_MOST 1024u  /* the most rows; there may be none */
#define NESTED_GCC_NO_UPPER 65535u  /* the upper of a row that has no upper bound */
#define NESTED_GCC_BOOK_BYTES 9228u /* the most bytes of a book: 12 + 4 * 256 + 8 * 1024 */

/* nested_gcc_check's answer for a good book, and nested_gcc_import_csv's for a text that it accepts. */
#define NESTED_GCC_GOOD 0u

/* The answers of the functions that close or settle, for a good book. */
#define NESTED_GCC_LIVE 0u
#define NESTED_GCC_DEAD 1u

/* A refusal is NESTED_GCC_REFUSED + its number: 1 to 10, 17 to 19; of nested_gcc_probe also 11, 12, 13, which refuse
 * one call elsewhere. The answer is the first that applies in this order: 1 to 4; 5 for the masks by slot; 6, 7, 8 for
 * the first row, then for the next; 10; of nested_gcc_probe 11, 12, 13 for the first call, then for the next; of
 * nested_gcc_canonical, which alone has 19, first NESTED_GCC_DEAD, then 19; 9. That of nested_gcc_import_csv, which
 * alone has 17 and 18, is: 17, 18 for the first record, then for the next; 2; 6, 7, 8 for the first row, then for the
 * next; 9. A function that refuses writes nothing; only nested_gcc_call puts its two words all the same. */
#define NESTED_GCC_REFUSED 256u
#define NESTED_GCC_TOO_SHORT (NESTED_GCC_REFUSED + 1u)        /* book under 12 bytes */
#define NESTED_GCC_OUT_OF_RANGE (NESTED_GCC_REFUSED + 2u)     /* n, k or r out of range */
#define NESTED_GCC_IDLE_TYPE (NESTED_GCC_REFUSED + 3u)        /* byte 3 above k */
#define NESTED_GCC_LAYOUT (NESTED_GCC_REFUSED + 4u)           /* an offset or length differs, or the lent length does */
#define NESTED_GCC_MASK (NESTED_GCC_REFUSED + 5u)             /* mask 0, or a bit from k up */
#define NESTED_GCC_ROW_TYPE (NESTED_GCC_REFUSED + 6u)         /* row type k or more, or its second byte not 0 */
#define NESTED_GCC_ROW_END (NESTED_GCC_REFUSED + 7u)          /* end 0 or above n */
#define NESTED_GCC_ROW_BOUND (NESTED_GCC_REFUSED + 8u)        /* lower above 256; upper above 256, not 65535 */
#define NESTED_GCC_OUTPUT_TOO_SHORT (NESTED_GCC_REFUSED + 9u) /* an output too short; a slice of open_in not its size */
#define NESTED_GCC_CALL_LIST (NESTED_GCC_REFUSED + 10u)       /* call list not whole calls, or too long */
#define NESTED_GCC_QUOTING (NESTED_GCC_REFUSED + 17u)         /* quoting or a line end breaks RFC 4180 */
#define NESTED_GCC_FIELD (NESTED_GCC_REFUSED + 18u)           /* wrong number of fields, or a field not 1 to 5 digits */
#define NESTED_GCC_TOO_MANY_ROWS (NESTED_GCC_REFUSED + 19u)   /* a canonical book of over NESTED_GCC_ROWS_MOST rows */

/* The older name of number 3. */
#define NESTED_GCC_RESERVED_BYTE NESTED_GCC_IDLE_TYPE

/*
 * Whether the book_len bytes at book are a good book: NESTED_GCC_GOOD, or the refusal that comes first.
 * Writes nothing. A lower above its upper or above its end is no refusal. Refusals: 1 to 8.
 * Stack: at most 4 KiB.
 */
uint32_t nested_gcc_check(const uint8_t *book, size_t book_len);

/*
 * Imports orders that stand in CSV (RFC 4180): writes the book that the text_len bytes at text say into the front of
 * the book_len bytes at book. NESTED_GCC_BOOK_BYTES of these suffice for every text.
 *
 * The text is records, each ended by CRLF, which the last may lack; a record is fields, parted by commas. A field is
 * bare, or stands in quotes as a whole: "12" is 12, and "" is empty. The first record is slots, types; each later one,
 * of which there may be none, is a row: type, end, lower, upper, where an empty upper is no upper bound, as
 * NESTED_GCC_NO_UPPER is. Every other field is one to five digits, with no blank; leading zeros are digits. A text
 * without a byte is one record of one empty field, and is refused by 18. A byte order mark, a line of column titles,
 * semicolons and a first record padded by commas (12,4,,), as spreadsheets may write them, are refused too.
 *
 * NESTED_GCC_GOOD: the text is accepted. Writes its book, 12 + 4 * slots + 8 * rows bytes: the text's slots and types,
 *     no idle type, every type in every mask, and the rows in the order of their records. That book is good for
 *     nested_gcc_check. It may be dead: that is not looked at here, and 1 is never the answer.
 * Refusals, by the first of these:
 *     - for each record in turn, which is read to its end, 17, then 18.
 *       17: a line end is not CRLF (a CR or LF alone, also at the end of the text); a quote in a bare field; a quote
 *       that is not closed; something other than a comma or a line end behind one that is.
 *       18: not 2 fields in the first record, or not 4 in a later one; a field that is not one to five digits and no
 *       empty upper. A quote written twice in quotes, or a line end in them, is good quoting and no digit, hence 18.
 *     - 2: slots, types or the number of rows out of range.
 *     - for each row in turn 6, 7, 8, by the number that is written, which may be above 65535.
 *     - 9: book_len is below the book's length.
 *     The output is not touched.
 * Bytes past the book stay as they are.
 *
 * The book's length stands in its bytes 10 and 11, which nested_gcc_book_length reads. Just so many bytes are to be
 * lent to the other functions: they refuse a longer buffer that is lent whole by 4.
 *
 * Stack: at most 4 KiB.
 */
uint32_t nested_gcc_import_csv(const uint8_t *text, size_t text_len, uint8_t *book, size_t book_len);

/* The length in bytes of a book that nested_gcc_import_csv or nested_gcc_canonical wrote, or of any other good one: its
 * bytes 10 and 11. */
static inline size_t nested_gcc_book_length(const uint8_t *book) {
    return (size_t)book[10] + 256u * (size_t)book[11];
}

/* The most bytes that nested_gcc_close writes into each output: 2 * 32 * (256 + 1). */
#define NESTED_GCC_TABLE_BYTES 16448u

/*
 * Closes a book: for each type v, 0 to k - 1, and each end t, 0 to n, a lower and an upper bound on how many
 * of type v the first t slots have. Each output has k(n + 1) elements of 16 bits, the bound for v and t at
 * element v(n + 1) + t.
 *
 * At the start a lower is the greatest lower of the rows for v and t, or 0 if there is none, and an upper is
 * the least of t and of those rows' uppers. A table is closed when, wherever both entries exist,
 * - lower(v, t) is at least lower(v, t - 1), lower(v, t + 1) - 1, and t less the sum of the other types' uppers at t;
 * - upper(v, t) is at most upper(v, t - 1) + 1, upper(v, t + 1), and t less the sum of the other types' lowers at t;
 * - lower(v, t) is at most upper(v, t).
 * The masks have no part in it.
 *
 * NESTED_GCC_LIVE: writes the closed table within the start that has the smallest lowers and largest uppers.
 *     Every plan that keeps the rows keeps these bounds.
 * NESTED_GCC_DEAD: no closed table lies within the start, so there is no plan. Fills the k(n + 1) elements
 *     of each output with 0.
 * Refusals: 1 to 8; then 9 if either output has fewer than k(n + 1) whole elements, be the book live or
 *     dead. Neither output is touched.
 * Bytes past the k(n + 1) elements of an output stay as they are.
 *
 * Stack: at most 48 KiB.
 */
uint32_t nested_gcc_close(const uint8_t *book, size_t book_len,
                          uint8_t *lowers, size_t lowers_len,
                          uint8_t *uppers, size_t uppers_len);

/* The most bytes of masks that nested_gcc_settle and nested_gcc_session write: 4 * 256. */
#define NESTED_GCC_MASKS_BYTES 1024u

/*
 * Settles a book: closes it, then strikes from its masks the types that the closed bounds rule out. The output
 * has n elements of 32 bits, the mask of slot s at element s.
 *
 * For a list of n masks, a slot is fixed to v when v is its only type; P(v, t) counts the slots before t that
 * have v, and B(v, t) those fixed to v. With the bounds of nested_gcc_close the list is stable when no mask is
 * empty and for each type v and each end t, 1 to n,
 * - P(v, t) is at least lower(v, t); where they are equal, each slot before t that has v is fixed to it;
 * - B(v, t) is at most upper(v, t); where they are equal, each slot before t not fixed to v lacks v.
 *
 * NESTED_GCC_LIVE: writes the largest stable list within the book's masks: every other one lies within it, and
 *     so does every plan. There may be no plan all the same.
 * NESTED_GCC_DEAD: nested_gcc_close answers dead, or no stable list lies within the masks, so there is no plan.
 *     Fills the n elements with 0.
 * Refusals: 1 to 8; then 9 if the output has fewer than n whole elements, be the book live or dead. The output
 *     is not touched.
 * Bytes past the n elements stay as they are.
 *
 * Stack: 93 KiB on a good book, and up to 672 bytes for each strike that is nested in another. The most of 1000
 * random books of 256 slots was 119 KiB. The deepest nesting found, a chain of 254 strikes, needs 224 KiB in all;
 * 320 KiB is what the test holds. A strike takes a type out of a mask before it goes deeper, so no book nests more
 * than 8192 of them: 6 MiB suffices for every book.
 */
uint32_t nested_gcc_settle(const uint8_t *book, size_t book_len, uint8_t *masks, size_t masks_len);

/* The most marks of a session that are open at a time. */
#define NESTED_GCC_MARKS_MOST 256u

/* The kinds of calls in a session. */
#define NESTED_GCC_ASSIGN 1u      /* cut the slot to that type */
#define NESTED_GCC_REMOVE 2u      /* strike that type from the slot */
#define NESTED_GCC_MARK 3u        /* save the masks */
#define NESTED_GCC_BACK 4u        /* restore those of the latest mark still open, which is then gone */
#define NESTED_GCC_SHOW 5u        /* the slot's mask */
#define NESTED_GCC_UPPER_WALLS 6u /* the number of upper walls of the type */
#define NESTED_GCC_LOWER_WALLS 7u /* the number of lower walls of the type */

/* The first word of the answer to a call; what the second is. */
#define NESTED_GCC_CALL_LIVE 0u  /* a decision; how many types were struck from the masks, the idle type left out */
#define NESTED_GCC_CALL_DEAD 1u  /* a decision that leaves no stable list; 0 */
#define NESTED_GCC_CALL_VALUE 2u /* a show or a number of walls; the mask or the number */
#define NESTED_GCC_CALL_DONE 3u  /* a mark or a back; 0 */
/* Refusals of the one call; 0. The first three are answers of nested_gcc_probe too, for its whole list. */
#define NESTED_GCC_CALL_KIND (NESTED_GCC_REFUSED + 11u)      /* kind 0 or from 8 up; of nested_gcc_probe not 1 */
#define NESTED_GCC_CALL_SLOT (NESTED_GCC_REFUSED + 12u)      /* slot n or more */
#define NESTED_GCC_CALL_TYPE (NESTED_GCC_REFUSED + 13u)      /* type k or more */
#define NESTED_GCC_NO_OPEN_MARK (NESTED_GCC_REFUSED + 14u)   /* back with no open mark */
#define NESTED_GCC_WHILE_DEAD (NESTED_GCC_REFUSED + 15u)     /* kind 1, 2 or 3 while dead */
#define NESTED_GCC_TOO_MANY_MARKS (NESTED_GCC_REFUSED + 16u) /* mark with NESTED_GCC_MARKS_MOST open */

/* The most bytes of calls that nested_gcc_session, nested_gcc_step and nested_gcc_probe take, 4 * 4096, and of answers
 * that the first two write. */
#define NESTED_GCC_CALLS_BYTES 16384u
#define NESTED_GCC_ANSWERS_BYTES 32768u

/*
 * Opens a session on a book and makes the calls in turn. A call is 4 bytes: kind (1 byte), type (1 byte), slot
 * (2 bytes, little-endian). Fields that its kind does not use are not read: mark and back use neither, show the
 * slot, the walls the type. For each call two elements of 32 bits are written to answers, those of call i at
 * elements 2i and 2i + 1. At the end the n masks are written, elements of 32 bits, that of slot s at element s.
 *
 * A session has masks, is live or dead, and has up to NESTED_GCC_MARKS_MOST open marks, each with the masks that it
 * saved. It opens live with the masks of nested_gcc_settle. If the book is dead it opens dead, every mask is 0, and
 * so is every number of walls.
 * - Assign and remove are decisions: they cut the slot's mask. If a stable list (see nested_gcc_settle) lies within
 *   the cut masks, the largest becomes the masks, and struck is how many ones the masks lost, those of the idle type
 *   left out. If there is none the session is dead and the masks stay as they were before. So assigning a type that
 *   the slot lacks is dead, and removing one that it lacks is live with 0 struck. A decision that takes only the idle
 *   type from slots is live with 0 struck too.
 * - A mark saves the masks. A back restores those of the latest open mark, and a dead session is live again.
 * - Show and the walls change nothing. They read the masks, also while the session is dead.
 * A refused call changes nothing, and the list goes on. It is refused by the first number that applies, in this
 * order: 11; 12 for assign, remove, show; 13 for assign, remove, walls; 15 for assign, remove, mark; 14 for back; 16
 * for mark. So a slot or type out of range is told as such while the session is dead too.
 *
 * Walls of a type stand on corners of the table of nested_gcc_close, with P and B as for nested_gcc_settle.
 * - An upper corner is a t from 1 with upper(t) = upper(t - 1) and, unless t = n, upper(t + 1) = upper(t) + 1. Its
 *   slack is upper(t) - B(t).
 * - A lower corner is a t from 1 with lower(t) = lower(t - 1) + 1 and, unless t = n, lower(t + 1) = lower(t). Its
 *   slack is P(t) - lower(t).
 * - A corner has a wall when its slack is above 0 and below that of every later corner of its kind and type.
 *
 * NESTED_GCC_LIVE: the session opened live; it may have died on the way. Writes two elements for each call, and
 *     the last masks.
 * NESTED_GCC_DEAD: the session opened dead. Writes two elements for each call, and n masks 0.
 * Refusals: 1 to 8; then 10 if calls_len is no multiple of 4 or above NESTED_GCC_CALLS_BYTES; then 9 if answers has
 *     fewer than two whole elements a call, or masks fewer than n. Neither output is touched. A list without calls
 *     is good.
 * Bytes past the elements written stay as they are.
 *
 * Stack: 126 KiB on a good book, and as for nested_gcc_settle up to 672 bytes for each strike that is nested in
 * another. The most of 1000 random books of 256 slots with lists of decisions was 152 KiB. The deepest nesting found
 * needs 257 KiB in all; 512 KiB is what the test holds, and 6 MiB suffices for every book and list.
 */
uint32_t nested_gcc_session(const uint8_t *book, size_t book_len,
                            const uint8_t *calls, size_t calls_len,
                            uint8_t *answers, size_t answers_len,
                            uint8_t *masks, size_t masks_len);

/* The most bytes that nested_gcc_probe writes: one for each of 4096 calls. */
#define NESTED_GCC_PROBES_BYTES 4096u

/*
 * Says which assignments would die, before one is made. The calls are assigns, 4 bytes each as for nested_gcc_session,
 * and each is tried by itself on the session as it opens on the book: no call bears on another. For each a byte is
 * written, that of call i at dead[i].
 *
 * On a live book it is 1 if nested_gcc_session answers call i, as the only one of its list, by NESTED_GCC_CALL_DEAD:
 * no stable list (see nested_gcc_settle) lies within the book's masks with the slot cut to the type. Else it is 0. On a
 * dead book it is 1. A byte 1 says that no plan has that type in that slot; a byte 0 promises no plan.
 *
 * NESTED_GCC_LIVE: the session opens live. Writes a byte for each call.
 * NESTED_GCC_DEAD: it opens dead. Writes a byte 1 for each call.
 * Refusals: 1 to 8; then, be the book live or dead, 10 if calls_len is no multiple of 4 or above
 *     NESTED_GCC_CALLS_BYTES; then for the first call, and so on to the last, 11 if its kind is not NESTED_GCC_ASSIGN,
 *     12 if its slot is n or more, 13 if its type is k or more; then 9 if dead_len is below the number of calls. A
 *     refused call refuses the whole list. The output is not touched. A list without calls is good.
 * Bytes past one a call stay as they are.
 *
 * Stack: 93 KiB on a good book, and as for nested_gcc_settle up to 672 bytes for each strike that is nested in another.
 * The most of 1000 random books of 256 slots with lists of assigns was 119 KiB. The deepest nesting found needs 224 KiB
 * in all; 320 KiB is what the test holds, and 6 MiB suffices for every book and list.
 */
uint32_t nested_gcc_probe(const uint8_t *book, size_t book_len,
                          const uint8_t *calls, size_t calls_len,
                          uint8_t *dead, size_t dead_len);

/*
 * Writes the canonical book of a book, for an archive, into the front of the out_len bytes at out.
 * NESTED_GCC_BOOK_BYTES of these suffice for every book.
 *
 * The canonical book has the n, k, idle byte and masks of the book. It has one row for each type and end where the
 * table of nested_gcc_close has a corner of either kind (see nested_gcc_session), by type, then end. The row's lower is
 * the table's at a lower corner, else 0; its upper is the table's at an upper corner, else NESTED_GCC_NO_UPPER.
 * - It is a good book and closes to the same table. So nested_gcc_settle, sessions and probes answer alike on both.
 * - Two live books of equal n, k, idle byte and masks, neither refused, get the same bytes exactly when they close to
 *   the same table.
 * - No shorter book says the table without sums over the types: any rows that close to it without them have one at
 *   each of these types and ends. The book itself may have fewer rows, where sums give some of its bounds: those are
 *   written out.
 *
 * Live and dead are those of nested_gcc_close: a book that closes and does not settle has a canonical book too.
 *
 * NESTED_GCC_LIVE: writes the canonical book, 12 + 4 * n + 8 * rows bytes. Its length stands in its bytes 10 and 11,
 *     which nested_gcc_book_length reads; just so many bytes are to be lent to the other functions.
 * NESTED_GCC_DEAD: nested_gcc_close answers dead. Writes nothing, and out may have any length.
 * Refusals: 1 to 8; then, of a live book alone, 19 if more than NESTED_GCC_ROWS_MOST rows would be needed; then 9 if
 *     out_len is below the canonical book's length. The output is not touched.
 * Bytes past the canonical book stay as they are.
 *
 * Stack: at most 48 KiB.
 */
uint32_t nested_gcc_canonical(const uint8_t *book, size_t book_len, uint8_t *out, size_t out_len);

/* The elements of a state's fields, where no other macro names them. */
#define NESTED_GCC_RECORD_NUMBERS 7u
#define NESTED_GCC_CELLS 16528u
#define NESTED_GCC_TRAIL_BYTES 25088u

/*
 * The memory of a kept session, 59,736 bytes: the host's, wherever it likes, mostly static or allocated. A host reads
 * `masks`, of which the first n are those of the slots, and the record through the functions below; it writes to none
 * of the fields. A state has no pointers. So a copy by assignment, or byte by byte, is a second session that stands
 * where the first stands: a node for a search that runs in several threads, or a place to come back to. One thread at
 * a time uses a state.
 */
typedef struct nested_gcc_state {
    size_t record[NESTED_GCC_RECORD_NUMBERS];
    uint32_t masks[NESTED_GCC_SLOTS_MOST];
    uint16_t cells[NESTED_GCC_CELLS];
    uint16_t heights[NESTED_GCC_MARKS_MOST];
    uint8_t trail[NESTED_GCC_TRAIL_BYTES];
} nested_gcc_state;

/* A compiler that gives a state 64 KiB or more refuses this. */
typedef char nested_gcc_state_below_64_kib[sizeof(nested_gcc_state) < 65536u ? 1 : -1];

/* Two words of an answer to a call. */
typedef struct nested_gcc_words {
    uint32_t first, second;
} nested_gcc_words;

/*
 * The functions that nested_gcc_open, nested_gcc_step and nested_gcc_call pass a state's fields to, for languages that
 * cannot use inline functions of C. Lengths are in elements: masks 256, cells 16528, trail 25088, heights 256, record
 * 7, each aligned as C has it, none overlapping another; answers_len is in words. nested_gcc_open_in refuses any other
 * length of these five by 9; for the other two the five are the premise's. The record: n, k, the calls made, the
 * standing, the call that it is dead since, the open marks, and a number of the library's own.
 */
uint32_t nested_gcc_open_in(const uint8_t *book, size_t book_len,
                            uint32_t *masks, size_t masks_len,
                            uint16_t *cells, size_t cells_len,
                            uint8_t *trail, size_t trail_len,
                            uint16_t *heights, size_t heights_len,
                            size_t *record, size_t record_len);
uint32_t nested_gcc_step_in(const uint8_t *calls, size_t calls_len,
                            uint32_t *answers, size_t answers_len,
                            uint32_t *masks, size_t masks_len,
                            uint16_t *cells, size_t cells_len,
                            uint8_t *trail, size_t trail_len,
                            uint16_t *heights, size_t heights_len,
                            size_t *record, size_t record_len);
nested_gcc_words nested_gcc_call_in(uint32_t kind, uint32_t type, uint32_t slot,
                                    uint32_t *masks, size_t masks_len,
                                    uint16_t *cells, size_t cells_len,
                                    uint8_t *trail, size_t trail_len,
                                    uint16_t *heights, size_t heights_len,
                                    size_t *record, size_t record_len);

/*
 * Opens a session on a book in the state, as nested_gcc_session opens one. What the state holds before plays no part
 * in any answer. The book is not needed afterwards.
 *
 * NESTED_GCC_LIVE: opened live. The first n masks are those of nested_gcc_settle.
 * NESTED_GCC_DEAD: opened dead. The first n masks are 0.
 * Refusals: 1 to 8. The state is not touched: a session that was open in it goes on, and where there was none no step
 *     or call may follow.
 * Masks past the n-th stay as they are.
 *
 * Stack: 36 KiB on a good book, and as for nested_gcc_settle up to 672 bytes for each strike that is nested in
 * another. The most of 1000 random books of 256 slots was 61 KiB. The deepest nesting found needs 167 KiB in all; 256
 * KiB is what the test holds, and 6 MiB suffices for every book.
 */
static inline uint32_t nested_gcc_open(const uint8_t *book, size_t book_len, nested_gcc_state *state) {
    return nested_gcc_open_in(book, book_len, state->masks, NESTED_GCC_SLOTS_MOST, state->cells, NESTED_GCC_CELLS,
                              state->trail, NESTED_GCC_TRAIL_BYTES, state->heights, NESTED_GCC_MARKS_MOST,
                              state->record, NESTED_GCC_RECORD_NUMBERS);
}

/*
 * Makes a list of calls on the state, as nested_gcc_session makes it, from where the last open, step or call left it.
 * The words of call i are put at answers[2i] and answers[2i + 1]; the first n masks of the state are then those of the
 * session. A list cut into pieces and stepped piece by piece gives the words and the last masks of the whole list.
 *
 * The premise: nested_gcc_open opened the state, by NESTED_GCC_LIVE or NESTED_GCC_DEAD, and it is what the last open,
 * step or call left, or a copy of that. What is done with a state that was never opened, or whose only open was
 * refused, or that was changed otherwise, is not promised: memory outside it may then be read and written.
 *
 * NESTED_GCC_LIVE: the session is live after the list.
 * NESTED_GCC_DEAD: it is dead after the list: it opened dead, or died of a call that no back has taken back.
 * Refusals: 10 if calls_len is no multiple of 4 or above NESTED_GCC_CALLS_BYTES, or the session would come to more
 *     than 2^63 calls; then 9 if answers_words, the number of words of 32 bits at answers, is below two a call.
 *     Neither state nor answers are touched. A list without calls is good: it says how the session stands.
 * Answers past two words a call, and masks past the n-th, stay as they are.
 *
 * Stack: 2 KiB, and as for nested_gcc_settle up to 672 bytes for each strike that is nested in another. The most of
 * 1000 random books of 256 slots with lists of decisions was 13 KiB. The deepest nesting found needs 133 KiB in all;
 * 256 KiB is what the test holds, and 6 MiB suffices for every book and list.
 */
static inline uint32_t nested_gcc_step(nested_gcc_state *state, const uint8_t *calls, size_t calls_len,
                                       uint32_t *answers, size_t answers_words) {
    return nested_gcc_step_in(calls, calls_len, answers, answers_words, state->masks, NESTED_GCC_SLOTS_MOST,
                              state->cells, NESTED_GCC_CELLS, state->trail, NESTED_GCC_TRAIL_BYTES,
                              state->heights, NESTED_GCC_MARKS_MOST, state->record, NESTED_GCC_RECORD_NUMBERS);
}

/*
 * Makes one call on the state: puts the two words that a list of this call would get into answer, and answers the
 * first of them. The premise is that of nested_gcc_step. A kind above 7 is refused by 11, a slot from n up by 12, a
 * type from k up by 13, however large. Fields that the kind does not use are not looked at. After 2^63 calls the words
 * are NESTED_GCC_CALL_LIST and 0, and nothing changes.
 *
 * Stack: as nested_gcc_step.
 */
static inline uint32_t nested_gcc_call(nested_gcc_state *state, uint32_t kind, uint32_t type, uint32_t slot,
                                       uint32_t answer[2]) {
    nested_gcc_words words =
        nested_gcc_call_in(kind, type, slot, state->masks, NESTED_GCC_SLOTS_MOST, state->cells, NESTED_GCC_CELLS,
                           state->trail, NESTED_GCC_TRAIL_BYTES, state->heights, NESTED_GCC_MARKS_MOST,
                           state->record, NESTED_GCC_RECORD_NUMBERS);
    answer[0] = words.first;
    answer[1] = words.second;
    return words.first;
}

/* How a session stands. */
#define NESTED_GCC_STANDING_LIVE 0u
#define NESTED_GCC_STANDING_DEAD 1u        /* died of a call; a back makes it live again */
#define NESTED_GCC_STANDING_OPENED_DEAD 2u /* the book is dead; this stays */

/* What an opened state says of its session. These read only. */

static inline uint32_t nested_gcc_standing(const nested_gcc_state *state) {
    return (uint32_t)state->record[3];
}

/* The number of the call that the session died of, counted from 0 over all steps and calls; 0 unless the standing is
 * NESTED_GCC_STANDING_DEAD. */
static inline uint64_t nested_gcc_dead_call(const nested_gcc_state *state) {
    return (uint64_t)state->record[4];
}

/* How many calls were made since the opening, refused ones included: the number of the next call. */
static inline uint64_t nested_gcc_calls_made(const nested_gcc_state *state) {
    return (uint64_t)state->record[2];
}

static inline uint32_t nested_gcc_open_marks(const nested_gcc_state *state) {
    return (uint32_t)state->record[5];
}

/* n: so many of the state's masks are those of slots. */
static inline uint32_t nested_gcc_slots(const nested_gcc_state *state) {
    return (uint32_t)state->record[0];
}

/* k. */
static inline uint32_t nested_gcc_types(const nested_gcc_state *state) {
    return (uint32_t)state->record[1];
}

#ifdef __cplusplus
}
#endif

#endif
