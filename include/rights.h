/*
 * The rights engine of a pill dispenser, for C and C++: access control lists, capability rows, chains of delegation, and tickets.
 *
 * The caller lends every buffer; nothing is allocated and nothing is kept between calls. A buffer is a pointer and its length in
 * elements, side by side. No pointer is null, also where the length is 0; a buffer is aligned for its elements; the buffers and
 * results of one call do not overlap.
 *
 * Every function that takes a buffer returns a number of the table below, the first that applies; 0, RIGHTS_DONE, is no error.
 * Beside any other number every lent buffer is as it was, and every other result is 0.
 *
 * What the library rests on:
 *
 * - Machine: x86-64 with SSE2, the System V calling convention, ELF. There is no library for another machine yet.
 * - Other code: memset, and nothing else. No heap, no thread, no operating system, no state of its own.
 * - Stack: RIGHTS_STACK_BYTES below the caller's frame, arguments included, is enough for any call but one on a ticket image, which
 *   sorts up to 1,024 numbers there: RIGHTS_TICKETS_STACK_BYTES is enough for those. Of the others the most that was measured is 5,319
 *   bytes, by rights_chains_check; none beside it used over 520.
 * - Threads: checks, subjects, inspections, records and conversions from one image may run side by side. A call that writes an image
 *   needs it alone: no other call on that image meanwhile. Calls on different buffers never meet.
 * - Interrupts and loss of power: no call is atomic. What is stored must change as a whole: run the command on a copy, and where it
 *   returned RIGHTS_DONE put the copy in the place of the image.
 *
 * Where an image is stored or sent:
 *
 * - Byte order: least byte first, which is how this machine holds words.
 * - Layout: keep RIGHTS_LAYOUT_DATE beside every stored image, and read no image with another date.
 * - Integrity: 'in order' is no checksum. Of the single-bit changes to the images of one state 8,385 left them in order, each then
 *   with another shift or other items, grants or loans. Where ticket 0 has gone, one bit of a ticket image makes a record that is all 0
 *   a ticket of right 0 on item 0. Keep a checksum beside every stored image, and compare it before rights_*_inspect.
 *
 * At start-up compare the header with the library, so that neither is of another engine:
 *
 *     if (rights_version() != RIGHTS_VERSION || rights_layout_date() != RIGHTS_LAYOUT_DATE)
 *         use nothing of it
 *
 * Sizes, numbers, records and prototypes are stated here once for every language that calls the engine: a size or number is one line,
 * `#define NAME NUMBER`, a record is a typedef with one field a line, and a prototype begins with RIGHTS_NODISCARD.
 */
#ifndef RIGHTS_H
#define RIGHTS_H

#include <stddef.h>
#include <stdint.h>

/* A result that must not be dropped. */
#ifndef RIGHTS_NODISCARD
#if (defined(__cplusplus) && __cplusplus >= 201703L) || (defined(__STDC_VERSION__) && __STDC_VERSION__ >= 202311L)
#define RIGHTS_NODISCARD [[nodiscard]]
#elif defined(__GNUC__)
#define RIGHTS_NODISCARD __attribute__((warn_unused_result))
#else
#define RIGHTS_NODISCARD
#endif
#endif

/* No pointer of the call is null. */
#ifndef RIGHTS_NONNULL
#if defined(__GNUC__)
#define RIGHTS_NONNULL __attribute__((nonnull))
#else
#define RIGHTS_NONNULL
#endif
#endif

#ifdef __cplusplus
extern "C" {
#endif

/* Which engine this header is of: 10000 * major + 100 * minor + patch, and the date of the images' layout as digits. */
#define RIGHTS_VERSION 10900
#define RIGHTS_LAYOUT_DATE 20261117

/* Enough stack below the caller's frame: for any call but one on a ticket image, and for any call. */
#define RIGHTS_STACK_BYTES 8192
#define RIGHTS_TICKETS_STACK_BYTES 16384

/*
 * Limits. An item is a person or a thing, 0 to RIGHTS_ITEM_MAX; item 0 is the root item. Right 0 is the right to edit grants. The last
 * shift of a loan is 1 to RIGHTS_SHIFT_MAX, or 0 for a loan that is open-ended. A set of items is any number of 64 bits, bit i for
 * item i. Up to RIGHTS_TICKETS_MAX tickets live at once; a ticket's number is any number of 32 bits but the greatest.
 */
#define RIGHTS_ITEM_MAX 63
#define RIGHTS_RIGHT_MAX 7
#define RIGHTS_DEPTH_MAX 7
#define RIGHTS_SHIFT_MAX 255
#define RIGHTS_LOANS_MAX 1024
#define RIGHTS_TICKETS_MAX 1024

/*
 * Images.
 *
 * Lists: word 0 is the live set, bit i for item i. Word 1 + 8 * on + right has bit s for each person s that has a grant.
 *
 * Rows: bytes 0 to 7 are the live set, least first. Byte 8 + 64 * person + on has bit r for each right r.
 *
 * Grants of a chain unit: bytes 0 to 7 as in rows. Byte 8 + 512 * on + 64 * right + person has bit d for each depth d.
 *
 * Loans of a chain unit: word 0 is shift * 2^16 + count, the present shift and the number of loans; then the loans, rising; every
 * later word is 0. A loan is last * 2^24 + lender * 2^18 + on * 2^12 + right * 2^9 + borrower * 2^3 + depth.
 *
 * An image is in order when item 0 lives, it names no dead item (for loans, by the live set of the grants), the shift is at most
 * RIGHTS_SHIFT_MAX and the count at most RIGHTS_LOANS_MAX, the loans in use rise strictly and carry no right 0, and the rest is 0.
 *
 * Tickets: word 0 is the live set, word 1 the next number; then RIGHTS_TICKETS_MAX records of two words, number + item * 2^32 + right *
 * 2^40 + issuer * 2^48, and the set of holders. A record lives when it has a holder; every other is all 0. In memory a record is a
 * rights_ticket.
 *
 * A ticket image is in order when item 0 lives, the next number is at most 4294967295, each record has a holder or is all 0, and of
 * those with a holder the numbers differ and are below the next, the rights are at most RIGHTS_RIGHT_MAX and the issuers at most
 * RIGHTS_ITEM_MAX, and the items and holders live. An issuer may be dead, and need not hold the ticket.
 */
#define RIGHTS_LISTS_WORDS 513
#define RIGHTS_ROWS_BYTES 4104
#define RIGHTS_GRANTS_BYTES 32776
#define RIGHTS_LOANS_WORDS 1025
#define RIGHTS_TICKETS_WORDS 2050

/* The chain buffer of a check: the bytes it has, and the byte after the last person. */
#define RIGHTS_CHAIN_PERSONS 8
#define RIGHTS_NO_PERSON 255

/* A ticket: what it opens, who issued it, and the set of its holders, bit i for item i. It has 16 bytes and no padding. */
typedef struct rights_ticket {
    uint32_t number;
    uint8_t item;
    uint8_t right;
    uint16_t issuer;
    uint64_t holders;
} rights_ticket;

#if defined(__cplusplus) && __cplusplus >= 201103L
static_assert(sizeof(rights_ticket) == 16, "a ticket is two words of its image");
#elif defined(__STDC_VERSION__) && __STDC_VERSION__ >= 201112L
_Static_assert(sizeof(rights_ticket) == 16, "a ticket is two words of its image");
#endif

/*
 * What a function returns, in words: rights_text. The first that applies is given, in this order: 1 to 3, 14, 4 to 8, 12, 9, 13, 10; of
 * the ticket unit 1 to 7, 17, 15, 16. No function here returns RIGHTS_MALFORMED, the number of a command line.
 */
#define RIGHTS_DONE 0
#define RIGHTS_WRONG_LENGTH 1
#define RIGHTS_NOT_IN_ORDER 2
#define RIGHTS_OUT_OF_RANGE 3
#define RIGHTS_BY_DEAD 4
#define RIGHTS_NAMED_DEAD 5
#define RIGHTS_ALREADY_LIVE 6
#define RIGHTS_ROOT_ITEM 7
#define RIGHTS_NO_EDIT 8
#define RIGHTS_EDIT_RIGHT 9
#define RIGHTS_FULL 10
#define RIGHTS_MALFORMED 11
#define RIGHTS_SHIFT_BACK 12
#define RIGHTS_LAST_PAST 13
#define RIGHTS_EMPTY_SET 14
#define RIGHTS_TICKETS_FULL 15
#define RIGHTS_NUMBERS_SPENT 16
#define RIGHTS_NO_TICKET 17

/* A short text for a number; never null. */
static inline const char *rights_text(uint32_t number)
{
    switch (number) {
    case RIGHTS_DONE: return "done";
    case RIGHTS_WRONG_LENGTH: return "a lent buffer has a wrong length";
    case RIGHTS_NOT_IN_ORDER: return "a lent image to be read is not in order";
    case RIGHTS_OUT_OF_RANGE: return "an item, a right, a depth or a shift is above its limit";
    case RIGHTS_BY_DEAD: return "by does not live";
    case RIGHTS_NAMED_DEAD: return "on, to or a member of set does not live";
    case RIGHTS_ALREADY_LIVE: return "create: on lives";
    case RIGHTS_ROOT_ITEM: return "delete: on is the root item";
    case RIGHTS_NO_EDIT: return "by has no edit grant on the item";
    case RIGHTS_EDIT_RIGHT: return "lend: right 0 is not lent";
    case RIGHTS_FULL: return "lend: 1,024 loans stand and this is not one of them";
    case RIGHTS_MALFORMED: return "a command line is malformed";
    case RIGHTS_SHIFT_BACK: return "shift: below the present one while a loan with a last shift stands";
    case RIGHTS_LAST_PAST: return "lend: last is set and below the present shift";
    case RIGHTS_EMPTY_SET: return "allowset: the set is empty";
    case RIGHTS_TICKETS_FULL: return "create, generate: 1,024 tickets live";
    case RIGHTS_NUMBERS_SPENT: return "create, generate: every ticket number is used";
    case RIGHTS_NO_TICKET: return "by lacks the ticket it must hold, or no live ticket has the number";
    default: return "no number of this engine";
    }
}

/* ---- Lists: access control lists. `words` is RIGHTS_LISTS_WORDS. */

/* Makes a fresh unit, whatever the buffer held: item 0 lives and has an edit grant on itself. 0 or 1. */
RIGHTS_NODISCARD uint32_t rights_lists_fresh(uint64_t *image, size_t words) RIGHTS_NONNULL;

/* Item on lives, and by has an edit grant on it. 0 to 4 or 6. */
RIGHTS_NODISCARD uint32_t rights_lists_create(uint64_t *image, size_t words, uint32_t by, uint32_t on) RIGHTS_NONNULL;

/* Item on is dead, and every grant that names it ends. 0 to 5, 7 or 8. */
RIGHTS_NODISCARD uint32_t rights_lists_delete(uint64_t *image, size_t words, uint32_t by, uint32_t on) RIGHTS_NONNULL;

/* Grants to the right on item on. Lists have no depth: it is checked, then dropped. 0 to 5 or 8. */
RIGHTS_NODISCARD uint32_t rights_lists_allow(uint64_t *image, size_t words, uint32_t by, uint32_t to, uint32_t on, uint32_t right,
    uint32_t depth) RIGHTS_NONNULL;

/*
 * Grants the right on item on to every member of set: what an allow for each of them does, in any order, or nothing where any of them
 * would be refused; 5 where on or any member is dead. 0 to 3, 14, 4, 5 or 8.
 */
RIGHTS_NODISCARD uint32_t rights_lists_allow_set(uint64_t *image, size_t words, uint32_t by, uint64_t set, uint32_t on,
    uint32_t right, uint32_t depth) RIGHTS_NONNULL;

/* Ends the grant of to. 0 to 5 or 8. */
RIGHTS_NODISCARD uint32_t rights_lists_withdraw(uint64_t *image, size_t words, uint32_t by, uint32_t to, uint32_t on,
    uint32_t right) RIGHTS_NONNULL;

/* Sets *yes to 1 where who has the right on item on, else to 0. 0 to 3. */
RIGHTS_NODISCARD uint32_t rights_lists_check(const uint64_t *image, size_t words, uint32_t who, uint32_t on, uint32_t right,
    uint32_t *yes) RIGHTS_NONNULL;

/* Sets bit i of *persons for each person i with at least one grant. 0 to 2. */
RIGHTS_NODISCARD uint32_t rights_lists_subjects(const uint64_t *image, size_t words, uint64_t *persons) RIGHTS_NONNULL;

/* Judges the image alone: RIGHTS_DONE where it is in order. 0 to 2. */
RIGHTS_NODISCARD uint32_t rights_lists_inspect(const uint64_t *image, size_t words) RIGHTS_NONNULL;

/* ---- Rows: capability rows. `bytes` is RIGHTS_ROWS_BYTES. Each function does what its namesake does for lists. */

/* Makes a fresh unit. */
RIGHTS_NODISCARD uint32_t rights_rows_fresh(uint8_t *image, size_t bytes) RIGHTS_NONNULL;

/* Item on lives, and by has an edit grant on it. */
RIGHTS_NODISCARD uint32_t rights_rows_create(uint8_t *image, size_t bytes, uint32_t by, uint32_t on) RIGHTS_NONNULL;

/* Item on is dead, and every grant that names it ends. */
RIGHTS_NODISCARD uint32_t rights_rows_delete(uint8_t *image, size_t bytes, uint32_t by, uint32_t on) RIGHTS_NONNULL;

/* Grants to the right on item on; the depth is checked, then dropped. */
RIGHTS_NODISCARD uint32_t rights_rows_allow(uint8_t *image, size_t bytes, uint32_t by, uint32_t to, uint32_t on, uint32_t right,
    uint32_t depth) RIGHTS_NONNULL;

/* Grants the right on item on to every member of set, or to none. */
RIGHTS_NODISCARD uint32_t rights_rows_allow_set(uint8_t *image, size_t bytes, uint32_t by, uint64_t set, uint32_t on,
    uint32_t right, uint32_t depth) RIGHTS_NONNULL;

/* Ends the grant of to. */
RIGHTS_NODISCARD uint32_t rights_rows_withdraw(uint8_t *image, size_t bytes, uint32_t by, uint32_t to, uint32_t on,
    uint32_t right) RIGHTS_NONNULL;

/* Sets *yes to 1 or 0. */
RIGHTS_NODISCARD uint32_t rights_rows_check(const uint8_t *image, size_t bytes, uint32_t who, uint32_t on, uint32_t right,
    uint32_t *yes) RIGHTS_NONNULL;

/* Sets bit i of *persons for each person i with at least one grant. */
RIGHTS_NODISCARD uint32_t rights_rows_subjects(const uint8_t *image, size_t bytes, uint64_t *persons) RIGHTS_NONNULL;

/* Judges the image alone: RIGHTS_DONE where it is in order. */
RIGHTS_NODISCARD uint32_t rights_rows_inspect(const uint8_t *image, size_t bytes) RIGHTS_NONNULL;

/* ---- Lists into rows and back. Only the image that is read is judged; the other is written whole. 0 to 2. */

/* Writes the rows that have the live set and the grants of the lists. */
RIGHTS_NODISCARD uint32_t rights_lists_to_rows(const uint64_t *source, size_t words, uint8_t *target, size_t bytes) RIGHTS_NONNULL;

/* Writes the lists that have the live set and the grants of the rows. */
RIGHTS_NODISCARD uint32_t rights_rows_to_lists(const uint8_t *source, size_t bytes, uint64_t *target, size_t words) RIGHTS_NONNULL;

/* ---- A chain unit: grants with depths, and loans. `bytes` is RIGHTS_GRANTS_BYTES, `words` is RIGHTS_LOANS_WORDS. */

/* Makes a fresh unit, whatever the buffers held: the grants of a fresh unit, shift 0 and no loan. 0 or 1. */
RIGHTS_NODISCARD uint32_t rights_chains_fresh(uint8_t *grants, size_t bytes, uint32_t *loans, size_t words) RIGHTS_NONNULL;

/* Item on lives, and by has an edit grant of depth 0 on it. 0 to 4 or 6. */
RIGHTS_NODISCARD uint32_t rights_chains_create(uint8_t *grants, size_t bytes, uint32_t *loans, size_t words, uint32_t by,
    uint32_t on) RIGHTS_NONNULL;

/* Item on is dead, and every grant and loan that names it ends. 0 to 5, 7 or 8. */
RIGHTS_NODISCARD uint32_t rights_chains_delete(uint8_t *grants, size_t bytes, uint32_t *loans, size_t words, uint32_t by,
    uint32_t on) RIGHTS_NONNULL;

/* Grants to the right on item on at that depth, beside the depths that stand. 0 to 5 or 8. */
RIGHTS_NODISCARD uint32_t rights_chains_allow(uint8_t *grants, size_t bytes, uint32_t *loans, size_t words, uint32_t by,
    uint32_t to, uint32_t on, uint32_t right, uint32_t depth) RIGHTS_NONNULL;

/*
 * Grants the right on item on at that depth to every member of set: what an allow for each of them does, in any order, or nothing where
 * any of them would be refused; 5 where on or any member is dead. 0 to 3, 14, 4, 5 or 8.
 */
RIGHTS_NODISCARD uint32_t rights_chains_allow_set(uint8_t *grants, size_t bytes, uint32_t *loans, size_t words, uint32_t by,
    uint64_t set, uint32_t on, uint32_t right, uint32_t depth) RIGHTS_NONNULL;

/*
 * Ends the grants of to at every depth, as a drop of each depth would, and where one stood every loan that to made of the right on item
 * on, past ones too; loans by others stay. 0 to 5 or 8.
 */
RIGHTS_NODISCARD uint32_t rights_chains_withdraw(uint8_t *grants, size_t bytes, uint32_t *loans, size_t words, uint32_t by,
    uint32_t to, uint32_t on, uint32_t right) RIGHTS_NONNULL;

/*
 * Ends just that grant of to, if it stands: the other depths stay, and the loans with them. With the last depth end the loans that end
 * with a withdraw. 0 to 5 or 8.
 */
RIGHTS_NODISCARD uint32_t rights_chains_drop(uint8_t *grants, size_t bytes, uint32_t *loans, size_t words, uint32_t by, uint32_t to,
    uint32_t on, uint32_t right, uint32_t depth) RIGHTS_NONNULL;

/*
 * Lends the right on item on from by to to at that depth, also where by holds nothing yet. With a last shift the loan carries up to and
 * in that shift; with last 0 it is open-ended. The same loan with another last is another loan. It stands until it is recalled, an item
 * that it names is deleted, by's last grant there is withdrawn or dropped, or it is past and swept. 0 to 5, 9, 13 or 10.
 */
RIGHTS_NODISCARD uint32_t rights_chains_lend(uint8_t *grants, size_t bytes, uint32_t *loans, size_t words, uint32_t by, uint32_t to,
    uint32_t on, uint32_t right, uint32_t depth, uint32_t last) RIGHTS_NONNULL;

/* Ends just that loan of by, if it stands, past its last shift or not. 0 to 5. */
RIGHTS_NODISCARD uint32_t rights_chains_recall(uint8_t *grants, size_t bytes, uint32_t *loans, size_t words, uint32_t by,
    uint32_t to, uint32_t on, uint32_t right, uint32_t depth, uint32_t last) RIGHTS_NONNULL;

/*
 * Sets the present shift; needs an edit grant on item 0. A loan that is past its last shift stands and counts as any other does until
 * it is swept, but no chain uses it. The shift may start again lower once no loan with a last shift stands. 0 to 4, 8 or 12.
 */
RIGHTS_NODISCARD uint32_t rights_chains_shift(uint8_t *grants, size_t bytes, uint32_t *loans, size_t words, uint32_t by,
    uint32_t shift) RIGHTS_NONNULL;

/*
 * Ends every loan that is past its last shift, and sets *swept to how many there were, 0 where there was none; any living item may. No
 * check changes its yes or no, its depth or its number of persons, now or at a later shift. Loans in their last shift, with a later one
 * or open-ended stay. 0 to 4.
 */
RIGHTS_NODISCARD uint32_t rights_chains_sweep(uint8_t *grants, size_t bytes, uint32_t *loans, size_t words, uint32_t by,
    uint32_t *swept) RIGHTS_NONNULL;

/*
 * Whether a chain of grants and carrying loans leads to who. `persons_max` is RIGHTS_CHAIN_PERSONS. 0 to 3.
 * Yes exactly when it returns 0 and *persons is 1 to 8: *depth is the greatest depth that any chain ends with, *persons the fewest
 * persons of a chain that does, and chain has the persons of one with so many, nobody twice, the grant's first, RIGHTS_NO_PERSON
 * after the last. Which of several such chains it is may change with the version.
 * No: it returns 0, *depth and *persons are 0, and every byte of chain is RIGHTS_NO_PERSON.
 */
RIGHTS_NODISCARD uint32_t rights_chains_check(const uint8_t *grants, size_t bytes, const uint32_t *loans, size_t words,
    uint32_t who, uint32_t on, uint32_t right, uint8_t *chain, size_t persons_max, uint32_t *depth,
    uint32_t *persons) RIGHTS_NONNULL;

/* Judges both images alone: RIGHTS_DONE where they are in order. 0 to 2. */
RIGHTS_NODISCARD uint32_t rights_chains_inspect(const uint8_t *grants, size_t bytes, const uint32_t *loans,
    size_t words) RIGHTS_NONNULL;

/* ---- Tickets. `words` is RIGHTS_TICKETS_WORDS, `places` RIGHTS_TICKETS_MAX. */

/* Makes a fresh unit, whatever the buffer held: item 0 lives and holds ticket 0, which it issued, of right 0 on itself. 0 or 1. */
RIGHTS_NODISCARD uint32_t rights_tickets_fresh(uint64_t *image, size_t words) RIGHTS_NONNULL;

/* Item on lives, and by holds a new ticket of right 0 on it, which by issued. 0 to 4, 6, 15 or 16. */
RIGHTS_NODISCARD uint32_t rights_tickets_create(uint64_t *image, size_t words, uint32_t by, uint32_t on) RIGHTS_NONNULL;

/*
 * Issues a ticket of the right on item on; by needs one of right 0 there, and holds the new one, alone. Sets *number to the new
 * ticket's, which no other ticket had or will have; beside a refusal to 0. The ticket takes the first record that is all 0. 0 to 5, 17,
 * 15 or 16.
 */
RIGHTS_NODISCARD uint32_t rights_tickets_generate(uint64_t *image, size_t words, uint32_t by, uint32_t on, uint32_t right,
    uint32_t *number) RIGHTS_NONNULL;

/* Makes to a holder too of the ticket with that number, which by needs to hold, and goes on holding. 0 to 5 or 17. */
RIGHTS_NODISCARD uint32_t rights_tickets_pass(uint64_t *image, size_t words, uint32_t by, uint32_t to,
    uint32_t number) RIGHTS_NONNULL;

/*
 * Takes the ticket with that number from everyone, and it ends: its record is all 0. by needs a ticket of right 0 on the item that it
 * is for; that may be the ticket itself. 0 to 4 or 17.
 */
RIGHTS_NODISCARD uint32_t rights_tickets_remove(uint64_t *image, size_t words, uint32_t by, uint32_t number) RIGHTS_NONNULL;

/*
 * Item on is dead; the tickets for it end, and on holds no ticket any more, nor does a ticket live that on alone held. by needs a ticket
 * of right 0 on it. 0 to 5, 7 or 17.
 */
RIGHTS_NODISCARD uint32_t rights_tickets_delete(uint64_t *image, size_t words, uint32_t by, uint32_t on) RIGHTS_NONNULL;

/* Sets *yes to 1 where who holds a live ticket of the right on item on, else to 0. Who issued it does not count. 0 to 3. */
RIGHTS_NODISCARD uint32_t rights_tickets_check(const uint64_t *image, size_t words, uint32_t who, uint32_t on, uint32_t right,
    uint32_t *yes) RIGHTS_NONNULL;

/* Judges the image alone: RIGHTS_DONE where it is in order. 0 to 2. */
RIGHTS_NODISCARD uint32_t rights_tickets_inspect(const uint64_t *image, size_t words) RIGHTS_NONNULL;

/* Writes the image's records, in their places, those that are all 0 too. 0 to 2; 1 where either length is wrong. */
RIGHTS_NODISCARD uint32_t rights_tickets_records(const uint64_t *image, size_t words, rights_ticket *tickets,
    size_t places) RIGHTS_NONNULL;

/* The record at a place, from 0 on, of any number of records; past their end one that is all 0. */
RIGHTS_NODISCARD rights_ticket rights_tickets_at(const rights_ticket *tickets, size_t places, size_t place) RIGHTS_NONNULL;

/*
 * The check over the records that rights_tickets_records wrote; it judges no order, so lend it no others. 0, 1 where places is not
 * RIGHTS_TICKETS_MAX, or 3.
 */
RIGHTS_NODISCARD uint32_t rights_tickets_check_records(const rights_ticket *tickets, size_t places, uint32_t who, uint32_t on,
    uint32_t right, uint32_t *yes) RIGHTS_NONNULL;

/* ---- Which engine this is. */

/* 10000 * major + 100 * minor + patch. */
RIGHTS_NODISCARD uint32_t rights_version(void);

/* The date of the images' layout: 10000 * year + 100 * month + day. */
RIGHTS_NODISCARD uint32_t rights_layout_date(void);

#ifdef __cplusplus
}
#endif

#endif
