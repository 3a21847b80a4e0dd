/*
 * Calls every function of rights.h with arguments that all differ, and compares every number, every result and every byte of every
 * buffer with what the header's layouts say. It is C99 and C++. The status is 0 where nothing differs; else each difference is told.
 */
#include <stdio.h>
#include <stdlib.h>
#include <string.h>

#include "rights.h"

/*
 * No two numbers of a call are the same: by, to or set, on, right, depth, last. A call with any two exchanged is refused or changes
 * another place.
 */
enum { ROOT = 0, OWNER = 5, HOLDER = 11, BORROWER = 47, DRAWER = 23, DEAD = 60 };
enum { RIGHT = 3, SET_RIGHT = 4, DEPTH = 6, LOAN_DEPTH = 2, LAST = 200 };
enum { LISTS_SIZE = 8 * RIGHTS_LISTS_WORDS, LOANS_SIZE = 4 * RIGHTS_LOANS_WORDS };
enum { TICKETS_SIZE = 8 * RIGHTS_TICKETS_WORDS, RECORDS_SIZE = 16 * RIGHTS_TICKETS_MAX };

/* A set of items: bit i for item i. One of these three stands in the upper half. */
#define MEMBER(item) ((uint64_t)1 << (item))
#define SET (MEMBER(ROOT) | MEMBER(HOLDER) | MEMBER(BORROWER))

/* What the engine is lent, and beside it what that must hold. */
static uint64_t lists[RIGHTS_LISTS_WORDS], lists_due[RIGHTS_LISTS_WORDS];
static uint8_t rows[RIGHTS_ROWS_BYTES], rows_due[RIGHTS_ROWS_BYTES];
static uint8_t grants[RIGHTS_GRANTS_BYTES], grants_due[RIGHTS_GRANTS_BYTES];
static uint32_t loans[RIGHTS_LOANS_WORDS], loans_due[RIGHTS_LOANS_WORDS];
static uint64_t tickets[RIGHTS_TICKETS_WORDS], tickets_due[RIGHTS_TICKETS_WORDS];
static rights_ticket records[RIGHTS_TICKETS_MAX], records_due[RIGHTS_TICKETS_MAX];

static unsigned compared, differences;

static void same(const char *call, const char *what, uint64_t given, uint64_t due)
{
    compared++;
    if (given != due) {
        differences++;
        printf("%s: %s is %llu, not %llu\n", call, what, (unsigned long long)given, (unsigned long long)due);
    }
}

static void same_bytes(const char *call, const char *what, const void *given, const void *due, size_t size)
{
    compared++;
    if (memcmp(given, due, size) != 0) {
        differences++;
        printf("%s: %s differs\n", call, what);
    }
}

/* The number that a call returned, and every byte of the images after it. */
static void returned(const char *call, uint32_t number, uint32_t due)
{
    same(call, "the number", number, due);
    same_bytes(call, "the lists image", lists, lists_due, LISTS_SIZE);
    same_bytes(call, "the rows image", rows, rows_due, RIGHTS_ROWS_BYTES);
    same_bytes(call, "the grants image", grants, grants_due, RIGHTS_GRANTS_BYTES);
    same_bytes(call, "the loans image", loans, loans_due, LOANS_SIZE);
    same_bytes(call, "the tickets image", tickets, tickets_due, TICKETS_SIZE);
    same_bytes(call, "the records", records, records_due, RECORDS_SIZE);
}

/* ---- what a buffer must hold, by the header's layouts: an item lives or not, a grant stands or not */

static void byte_bit(uint8_t *image, size_t place, unsigned bit, int stands)
{
    image[place] = (uint8_t)(stands ? image[place] | 1u << bit : image[place] & ~(1u << bit));
}

static void word_bit(uint64_t *image, size_t place, unsigned bit, int stands)
{
    image[place] = stands ? image[place] | (uint64_t)1 << bit : image[place] & ~((uint64_t)1 << bit);
}

static void lists_item(unsigned item, int lives) { word_bit(lists_due, 0, item, lives); }
static void rows_item(unsigned item, int lives) { byte_bit(rows_due, item / 8, item % 8, lives); }
static void grants_item(unsigned item, int lives) { byte_bit(grants_due, item / 8, item % 8, lives); }

static void lists_grant(unsigned person, unsigned on, unsigned right, int stands)
{
    word_bit(lists_due, 1 + 8 * on + right, person, stands);
}

static void rows_grant(unsigned person, unsigned on, unsigned right, int stands)
{
    byte_bit(rows_due, 8 + 64 * person + on, right, stands);
}

static void grants_grant(unsigned person, unsigned on, unsigned right, unsigned depth, int stands)
{
    byte_bit(grants_due, 8 + 512 * on + 64 * right + person, depth, stands);
}

static uint32_t loan(uint32_t last, uint32_t lender, uint32_t on, uint32_t right, uint32_t borrower, uint32_t depth)
{
    return last * 16777216 + lender * 262144 + on * 4096 + right * 512 + borrower * 8 + depth;
}

/* The loan, which did not stand, stands in its place among the others; or it did, and they close up. */
static void loans_loan(uint32_t word, int stands)
{
    uint32_t count = loans_due[0] % 65536, place = 1;
    while (place <= count && loans_due[place] < word)
        place++;
    for (uint32_t k = count; stands && k >= place; k--)
        loans_due[k + 1] = loans_due[k];
    for (uint32_t k = place; !stands && k <= count; k++)
        loans_due[k] = k < count ? loans_due[k + 1] : 0;
    if (stands)
        loans_due[place] = word;
    loans_due[0] = stands ? loans_due[0] + 1 : loans_due[0] - 1;
}

/* ---- lists and rows: the same calls, each unit with its buffer L, its length N and what it must hold */

#define FLAT(unit, L, N) \
    static void unit##_grants(void) \
    { \
        memset(L, 0xa5, sizeof L); \
        unit##_item(ROOT, 1); \
        unit##_grant(ROOT, ROOT, 0, 1); \
        returned(#unit " fresh", rights_##unit##_fresh(L, N), 0); \
        unit##_item(OWNER, 1); \
        unit##_grant(ROOT, OWNER, 0, 1); \
        returned(#unit " create", rights_##unit##_create(L, N, ROOT, OWNER), 0); \
        unit##_item(HOLDER, 1); \
        unit##_grant(ROOT, HOLDER, 0, 1); \
        returned(#unit " create", rights_##unit##_create(L, N, ROOT, HOLDER), 0); \
        unit##_item(DRAWER, 1); \
        unit##_grant(OWNER, DRAWER, 0, 1); \
        returned(#unit " create", rights_##unit##_create(L, N, OWNER, DRAWER), 0); \
        unit##_grant(HOLDER, DRAWER, RIGHT, 1); \
        returned(#unit " allow", rights_##unit##_allow(L, N, OWNER, HOLDER, DRAWER, RIGHT, DEPTH), 0); \
    } \
    static void unit##_answers(void) \
    { \
        uint32_t yes = 77; \
        uint64_t persons = 77; \
        returned(#unit " check", rights_##unit##_check(L, N, HOLDER, DRAWER, RIGHT, &yes), 0); \
        same(#unit " check", "yes", yes, 1); \
        yes = 77; \
        returned(#unit " check", rights_##unit##_check(L, N, OWNER, DRAWER, RIGHT, &yes), 0); \
        same(#unit " check, no", "yes", yes, 0); \
        yes = 77; \
        returned(#unit " check", rights_##unit##_check(L, N, HOLDER, DRAWER, 8, &yes), 3); \
        same(#unit " check, refused", "yes", yes, 0); \
        returned(#unit " subjects", rights_##unit##_subjects(L, N, &persons), 0); \
        same(#unit " subjects", "persons", persons, 1u << ROOT | 1u << OWNER | 1u << HOLDER); \
        returned(#unit " inspect", rights_##unit##_inspect(L, N), 0); \
        L[0] = L##_due[0] = 0; \
        returned(#unit " inspect, no item lives", rights_##unit##_inspect(L, N), 2); \
        L[0] = L##_due[0] = unit##_live; \
    } \
    /* The right to each member of the set, the holder among them, who has it already. */ \
    static void unit##_set_grants(int stands) \
    { \
        unit##_grant(ROOT, DRAWER, RIGHT, stands); \
        unit##_grant(HOLDER, DRAWER, RIGHT, stands); \
        unit##_grant(BORROWER, DRAWER, RIGHT, stands); \
    } \
    static void unit##_sets(void) \
    { \
        returned(#unit " allow_set, a dead member", rights_##unit##_allow_set(L, N, OWNER, SET, DRAWER, RIGHT, DEPTH), 5); \
        unit##_item(BORROWER, 1); \
        unit##_grant(ROOT, BORROWER, 0, 1); \
        returned(#unit " create", rights_##unit##_create(L, N, ROOT, BORROWER), 0); \
        unit##_set_grants(1); \
        returned(#unit " allow_set", rights_##unit##_allow_set(L, N, OWNER, SET, DRAWER, RIGHT, DEPTH), 0); \
        returned(#unit " allow_set, again", rights_##unit##_allow_set(L, N, OWNER, SET, DRAWER, RIGHT, DEPTH), 0); \
        returned(#unit " allow_set, every item", rights_##unit##_allow_set(L, N, OWNER, UINT64_MAX, DRAWER, RIGHT, DEPTH), 5); \
        returned(#unit " allow_set, no member", rights_##unit##_allow_set(L, N, OWNER, 0, DRAWER, RIGHT, DEPTH), 14); \
        returned(#unit " allow_set, no member, by dead", rights_##unit##_allow_set(L, N, DEAD, 0, DRAWER, RIGHT, DEPTH), 14); \
        returned(#unit " allow_set, no member, depth 8", rights_##unit##_allow_set(L, N, OWNER, 0, DRAWER, RIGHT, 8), 3); \
        returned(#unit " allow_set, right 8", rights_##unit##_allow_set(L, N, OWNER, SET, DRAWER, 8, DEPTH), 3); \
        returned(#unit " allow_set, by 64", rights_##unit##_allow_set(L, N, 64, SET, DRAWER, RIGHT, DEPTH), 3); \
        returned(#unit " allow_set, on 64", rights_##unit##_allow_set(L, N, OWNER, SET, 64, RIGHT, DEPTH), 3); \
        returned(#unit " allow_set, by dead", rights_##unit##_allow_set(L, N, DEAD, SET, DRAWER, RIGHT, DEPTH), 4); \
        returned(#unit " allow_set, on dead", rights_##unit##_allow_set(L, N, OWNER, SET, DEAD, RIGHT, DEPTH), 5); \
        returned(#unit " allow_set by another", rights_##unit##_allow_set(L, N, HOLDER, SET, DRAWER, RIGHT, DEPTH), 8); \
    } \
    static void unit##_endings(void) \
    { \
        returned(#unit " allow, depth 8", rights_##unit##_allow(L, N, OWNER, HOLDER, DRAWER, RIGHT, 8), 3); \
        returned(#unit " allow by another", rights_##unit##_allow(L, N, HOLDER, OWNER, DRAWER, RIGHT, DEPTH), 8); \
        unit##_grant(HOLDER, DRAWER, RIGHT, 0); \
        returned(#unit " withdraw", rights_##unit##_withdraw(L, N, OWNER, HOLDER, DRAWER, RIGHT), 0); \
        unit##_set_grants(0); \
        unit##_grant(OWNER, DRAWER, 0, 0); \
        unit##_item(DRAWER, 0); \
        returned(#unit " delete", rights_##unit##_delete(L, N, OWNER, DRAWER), 0); \
    } \
    static void unit##_lengths(void) \
    { \
        uint32_t yes = 77; \
        uint64_t persons = 77; \
        returned(#unit " fresh, length", rights_##unit##_fresh(L, N - 1), 1); \
        returned(#unit " create, length", rights_##unit##_create(L, N - 1, ROOT, DEAD), 1); \
        returned(#unit " delete, length", rights_##unit##_delete(L, N - 1, ROOT, OWNER), 1); \
        returned(#unit " allow, length", rights_##unit##_allow(L, N - 1, ROOT, HOLDER, OWNER, RIGHT, DEPTH), 1); \
        returned(#unit " allow_set, length", rights_##unit##_allow_set(L, N - 1, ROOT, SET, OWNER, RIGHT, DEPTH), 1); \
        returned(#unit " withdraw, length", rights_##unit##_withdraw(L, N - 1, OWNER, HOLDER, DRAWER, RIGHT), 1); \
        returned(#unit " check, length", rights_##unit##_check(L, N - 1, HOLDER, DRAWER, RIGHT, &yes), 1); \
        returned(#unit " subjects, length", rights_##unit##_subjects(L, N - 1, &persons), 1); \
        returned(#unit " inspect, length", rights_##unit##_inspect(L, N - 1), 1); \
        same(#unit " check, length", "yes", yes, 0); \
        same(#unit " subjects, length", "persons", persons, 0); \
    }

static const uint64_t lists_live = 1u << ROOT | 1u << OWNER | 1u << HOLDER | 1u << DRAWER;
static const uint8_t rows_live = 1u << ROOT | 1u << OWNER;

FLAT(lists, lists, RIGHTS_LISTS_WORDS)
FLAT(rows, rows, RIGHTS_ROWS_BYTES)

static void conversions(void)
{
    memset(rows, 0x5a, sizeof rows);
    returned("lists to rows", rights_lists_to_rows(lists, RIGHTS_LISTS_WORDS, rows, RIGHTS_ROWS_BYTES), 0);
    memset(lists, 0x5a, sizeof lists);
    returned("rows to lists", rights_rows_to_lists(rows, RIGHTS_ROWS_BYTES, lists, RIGHTS_LISTS_WORDS), 0);
    returned("lists to rows, length", rights_lists_to_rows(lists, RIGHTS_LISTS_WORDS, rows, RIGHTS_ROWS_BYTES - 1), 1);
    returned("lists to rows, length", rights_lists_to_rows(lists, RIGHTS_LISTS_WORDS - 1, rows, RIGHTS_ROWS_BYTES), 1);
    returned("rows to lists, length", rights_rows_to_lists(rows, RIGHTS_ROWS_BYTES, lists, RIGHTS_LISTS_WORDS - 1), 1);
    returned("rows to lists, length", rights_rows_to_lists(rows, RIGHTS_ROWS_BYTES - 1, lists, RIGHTS_LISTS_WORDS), 1);
}

/* ---- the chain unit */

#define UNIT grants, RIGHTS_GRANTS_BYTES, loans, RIGHTS_LOANS_WORDS
#define SHORT_GRANTS grants, RIGHTS_GRANTS_BYTES - 1, loans, RIGHTS_LOANS_WORDS
#define SHORT_LOANS grants, RIGHTS_GRANTS_BYTES, loans, RIGHTS_LOANS_WORDS - 1

static void chains_create(unsigned by, unsigned on)
{
    grants_item(on, 1);
    grants_grant(by, on, 0, 0, 1);
    returned("chains create", rights_chains_create(UNIT, by, on), 0);
}

/* A fresh unit, whatever its buffers held, and three persons. */
static void chains_start(void)
{
    grants_item(ROOT, 1);
    grants_grant(ROOT, ROOT, 0, 0, 1);
    returned("chains fresh", rights_chains_fresh(UNIT), 0);
    chains_create(ROOT, OWNER);
    chains_create(ROOT, HOLDER);
    chains_create(ROOT, BORROWER);
}

static void chains_grants(void)
{
    memset(grants, 0xa5, sizeof grants);
    memset(loans, 0xa5, sizeof loans);
    chains_start();
    chains_create(OWNER, DRAWER);
    grants_grant(HOLDER, DRAWER, RIGHT, DEPTH, 1);
    returned("chains allow", rights_chains_allow(UNIT, OWNER, HOLDER, DRAWER, RIGHT, DEPTH), 0);
    grants_grant(HOLDER, DRAWER, RIGHT, 1, 1);
    returned("chains allow", rights_chains_allow(UNIT, OWNER, HOLDER, DRAWER, RIGHT, 1), 0);
}

/* The right at that depth to each member of the set, beside what it has. */
static void chains_set_grants(unsigned depth, int stands)
{
    grants_grant(ROOT, DRAWER, SET_RIGHT, depth, stands);
    grants_grant(HOLDER, DRAWER, SET_RIGHT, depth, stands);
    grants_grant(BORROWER, DRAWER, SET_RIGHT, depth, stands);
}

static void chains_sets(void)
{
    chains_set_grants(DEPTH, 1);
    returned("chains allow_set", rights_chains_allow_set(UNIT, OWNER, SET, DRAWER, SET_RIGHT, DEPTH), 0);
    chains_set_grants(1, 1);
    returned("chains allow_set", rights_chains_allow_set(UNIT, OWNER, SET, DRAWER, SET_RIGHT, 1), 0);
    returned("chains allow_set, again", rights_chains_allow_set(UNIT, OWNER, SET, DRAWER, SET_RIGHT, DEPTH), 0);
    returned("chains allow_set, a dead member", rights_chains_allow_set(UNIT, OWNER, SET | MEMBER(DEAD), DRAWER, SET_RIGHT, 2), 5);
    returned("chains allow_set, every item", rights_chains_allow_set(UNIT, OWNER, UINT64_MAX, DRAWER, SET_RIGHT, 2), 5);
    returned("chains allow_set, no member", rights_chains_allow_set(UNIT, OWNER, 0, DRAWER, SET_RIGHT, 2), 14);
    returned("chains allow_set, no member, by dead", rights_chains_allow_set(UNIT, DEAD, 0, DRAWER, SET_RIGHT, 2), 14);
    returned("chains allow_set, no member, depth 8", rights_chains_allow_set(UNIT, OWNER, 0, DRAWER, SET_RIGHT, 8), 3);
    returned("chains allow_set, right 8", rights_chains_allow_set(UNIT, OWNER, SET, DRAWER, 8, 2), 3);
    returned("chains allow_set, by 64", rights_chains_allow_set(UNIT, 64, SET, DRAWER, SET_RIGHT, 2), 3);
    returned("chains allow_set, on 64", rights_chains_allow_set(UNIT, OWNER, SET, 64, SET_RIGHT, 2), 3);
    returned("chains allow_set, by dead", rights_chains_allow_set(UNIT, DEAD, SET, DRAWER, SET_RIGHT, 2), 4);
    returned("chains allow_set, on dead", rights_chains_allow_set(UNIT, OWNER, SET, DEAD, SET_RIGHT, 2), 5);
    returned("chains allow_set by another", rights_chains_allow_set(UNIT, HOLDER, SET, DRAWER, SET_RIGHT, 2), 8);
}

/* The loan with a last shift is the greater, though its lender is the less. */
static void chains_loans(void)
{
    loans_due[0] = 1;
    loans_due[1] = loan(LAST, HOLDER, DRAWER, RIGHT, BORROWER, LOAN_DEPTH);
    returned("chains lend", rights_chains_lend(UNIT, HOLDER, BORROWER, DRAWER, RIGHT, LOAN_DEPTH, LAST), 0);
    loans_due[0] = 2;
    loans_due[2] = loans_due[1];
    loans_due[1] = loan(0, BORROWER, DRAWER, RIGHT, OWNER, 4);
    returned("chains lend", rights_chains_lend(UNIT, BORROWER, OWNER, DRAWER, RIGHT, 4, 0), 0);
    returned("chains lend, right 0", rights_chains_lend(UNIT, BORROWER, OWNER, DRAWER, 0, 4, LAST), 9);
    returned("chains recall, another depth", rights_chains_recall(UNIT, HOLDER, BORROWER, DRAWER, RIGHT, 1, LAST), 0);
    returned("chains recall, another last", rights_chains_recall(UNIT, HOLDER, BORROWER, DRAWER, RIGHT, LOAN_DEPTH, 0), 0);
}

/* A check of the chain unit: its number, the depth and the number of persons. The chain is left in the buffer. */
static void chains_ask(const char *call, uint32_t who, uint32_t depth_due, uint32_t persons_due, uint8_t *chain)
{
    uint32_t depth = 77, persons = 77;
    memset(chain, 0xa5, RIGHTS_CHAIN_PERSONS);
    returned(call, rights_chains_check(UNIT, who, DRAWER, RIGHT, chain, RIGHTS_CHAIN_PERSONS, &depth, &persons), 0);
    same(call, "the depth", depth, depth_due);
    same(call, "the number of persons", persons, persons_due);
}

/* The same, and the buffer's 8 bytes. */
static void chains_check(const char *call, uint32_t who, uint32_t depth_due, uint32_t persons_due, const uint8_t *chain_due)
{
    uint8_t chain[RIGHTS_CHAIN_PERSONS];
    chains_ask(call, who, depth_due, persons_due, chain);
    same_bytes(call, "the chain", chain, chain_due, sizeof chain);
}

static void chains_lend(uint32_t by, uint32_t to, uint32_t on, uint32_t right, uint32_t depth, uint32_t last)
{
    loans_loan(loan(last, by, on, right, to, depth), 1);
    returned("chains lend", rights_chains_lend(UNIT, by, to, on, right, depth, last), 0);
}

static void chains_recall(uint32_t by, uint32_t to, uint32_t on, uint32_t right, uint32_t depth, uint32_t last)
{
    loans_loan(loan(last, by, on, right, to, depth), 0);
    returned("chains recall", rights_chains_recall(UNIT, by, to, on, right, depth, last), 0);
}

static const uint8_t through[RIGHTS_CHAIN_PERSONS] = {HOLDER, BORROWER, OWNER, 255, 255, 255, 255, 255};
static const uint8_t alone[RIGHTS_CHAIN_PERSONS] = {HOLDER, 255, 255, 255, 255, 255, 255, 255};
static const uint8_t nobody[RIGHTS_CHAIN_PERSONS] = {255, 255, 255, 255, 255, 255, 255, 255};

static void chains_answers(void)
{
    chains_check("chains check", OWNER, 1, 3, through);
    chains_check("chains check, no", ROOT, 0, 0, nobody);
    returned("chains inspect", rights_chains_inspect(UNIT), 0);
    loans[0] = loans_due[0] = 1;
    returned("chains inspect, one loan uncounted", rights_chains_inspect(UNIT), 2);
    loans[0] = loans_due[0] = 2;
}

/*
 * The holder's depth ends, and with it the chain to the owner; the other depth, an edit grant at depth 4, and the loans stay. With the
 * last depth the holder's loan ends, and the chain comes back when it is lent anew.
 */
static void chains_drops(void)
{
    grants_grant(HOLDER, DRAWER, 0, 4, 1);
    returned("chains allow, edit", rights_chains_allow(UNIT, OWNER, HOLDER, DRAWER, 0, 4), 0);
    returned("chains drop, no such depth", rights_chains_drop(UNIT, OWNER, HOLDER, DRAWER, RIGHT, 5), 0);
    returned("chains drop, no such person", rights_chains_drop(UNIT, OWNER, BORROWER, DRAWER, RIGHT, DEPTH), 0);
    returned("chains drop, no such right", rights_chains_drop(UNIT, OWNER, HOLDER, DRAWER, 2, DEPTH), 0);
    grants_grant(HOLDER, DRAWER, RIGHT, DEPTH, 0);
    returned("chains drop", rights_chains_drop(UNIT, OWNER, HOLDER, DRAWER, RIGHT, DEPTH), 0);
    chains_check("chains check, after a drop", OWNER, 0, 0, nobody);
    chains_check("chains check, the other depth", HOLDER, 1, 1, alone);
    returned("chains drop, again", rights_chains_drop(UNIT, OWNER, HOLDER, DRAWER, RIGHT, DEPTH), 0);
    grants_grant(HOLDER, DRAWER, RIGHT, 1, 0);
    loans_loan(loan(LAST, HOLDER, DRAWER, RIGHT, BORROWER, LOAN_DEPTH), 0);
    returned("chains drop, the last depth", rights_chains_drop(UNIT, OWNER, HOLDER, DRAWER, RIGHT, 1), 0);
    chains_check("chains check, the drawer closed", HOLDER, 0, 0, nobody);
    grants_grant(HOLDER, DRAWER, RIGHT, DEPTH, 1);
    returned("chains allow, again", rights_chains_allow(UNIT, OWNER, HOLDER, DRAWER, RIGHT, DEPTH), 0);
    grants_grant(HOLDER, DRAWER, RIGHT, 1, 1);
    returned("chains allow, again", rights_chains_allow(UNIT, OWNER, HOLDER, DRAWER, RIGHT, 1), 0);
    chains_check("chains check, allowed again", OWNER, 0, 0, nobody);
    chains_check("chains check, allowed again", HOLDER, DEPTH, 1, alone);
    chains_lend(HOLDER, BORROWER, DRAWER, RIGHT, LOAN_DEPTH, LAST);
    chains_check("chains check, lent again", OWNER, 1, 3, through);
}

/* The owner ends its own last edit grant; the holder ends a depth, gives the grant back, and loses its own. */
static void chains_dropped_edit(void)
{
    grants_grant(OWNER, DRAWER, 0, 0, 0);
    returned("chains drop, one's own edit", rights_chains_drop(UNIT, OWNER, OWNER, DRAWER, 0, 0), 0);
    returned("chains drop, without edit", rights_chains_drop(UNIT, OWNER, HOLDER, DRAWER, RIGHT, DEPTH), 8);
    returned("chains delete, without edit", rights_chains_delete(UNIT, OWNER, DRAWER), 8);
    grants_grant(BORROWER, DRAWER, SET_RIGHT, 1, 0);
    returned("chains drop, by an edit at depth 4", rights_chains_drop(UNIT, HOLDER, BORROWER, DRAWER, SET_RIGHT, 1), 0);
    grants_grant(OWNER, DRAWER, 0, 0, 1);
    returned("chains allow, edit", rights_chains_allow(UNIT, HOLDER, OWNER, DRAWER, 0, 0), 0);
    grants_grant(HOLDER, DRAWER, 0, 4, 0);
    returned("chains drop, another's edit", rights_chains_drop(UNIT, OWNER, HOLDER, DRAWER, 0, 4), 0);
}

static void chains_allow(unsigned to, unsigned on, unsigned right, unsigned depth)
{
    grants_grant(to, on, right, depth, 1);
    returned("chains allow", rights_chains_allow(UNIT, ROOT, to, on, right, depth), 0);
}

static void chains_drop(unsigned by, unsigned to, unsigned on, unsigned right, unsigned depth)
{
    grants_grant(to, on, right, depth, 0);
    returned("chains drop", rights_chains_drop(UNIT, by, to, on, right, depth), 0);
}

/* The greatest item, right and depth and the least, and the last edit grant of an item: nobody may edit it from then on. */
static void chains_drop_limits(void)
{
    chains_create(ROOT, RIGHTS_ITEM_MAX);
    chains_allow(RIGHTS_ITEM_MAX, RIGHTS_ITEM_MAX, 0, 4);
    chains_allow(RIGHTS_ITEM_MAX, RIGHTS_ITEM_MAX, RIGHTS_RIGHT_MAX, RIGHTS_DEPTH_MAX);
    chains_allow(RIGHTS_ITEM_MAX, RIGHTS_ITEM_MAX, RIGHTS_RIGHT_MAX, 0);
    chains_allow(ROOT, RIGHTS_ITEM_MAX, RIGHTS_RIGHT_MAX, 0);
    chains_allow(HOLDER, ROOT, SET_RIGHT, DEPTH);
    chains_allow(DRAWER, HOLDER, SET_RIGHT, DEPTH);
    chains_drop(RIGHTS_ITEM_MAX, RIGHTS_ITEM_MAX, RIGHTS_ITEM_MAX, RIGHTS_RIGHT_MAX, RIGHTS_DEPTH_MAX);
    chains_drop(RIGHTS_ITEM_MAX, ROOT, RIGHTS_ITEM_MAX, RIGHTS_RIGHT_MAX, 0);
    chains_drop(ROOT, RIGHTS_ITEM_MAX, RIGHTS_ITEM_MAX, RIGHTS_RIGHT_MAX, 0);
    returned("chains drop, depth 256", rights_chains_drop(UNIT, ROOT, HOLDER, ROOT, SET_RIGHT, 256), 3);
    chains_drop(RIGHTS_ITEM_MAX, RIGHTS_ITEM_MAX, RIGHTS_ITEM_MAX, 0, 4);
    chains_drop(ROOT, ROOT, RIGHTS_ITEM_MAX, 0, 0);
    returned("chains delete, no editor left", rights_chains_delete(UNIT, ROOT, RIGHTS_ITEM_MAX), 8);
}

static void chains_refused_drops(void)
{
    returned("chains drop, depth 8", rights_chains_drop(UNIT, OWNER, HOLDER, DRAWER, RIGHT, 8), 3);
    returned("chains drop, depth 4294967295", rights_chains_drop(UNIT, OWNER, HOLDER, DRAWER, RIGHT, UINT32_MAX), 3);
    returned("chains drop, right 8", rights_chains_drop(UNIT, OWNER, HOLDER, DRAWER, 8, DEPTH), 3);
    returned("chains drop, by 64", rights_chains_drop(UNIT, 64, HOLDER, DRAWER, RIGHT, DEPTH), 3);
    returned("chains drop, to 64", rights_chains_drop(UNIT, OWNER, 64, DRAWER, RIGHT, DEPTH), 3);
    returned("chains drop, on 64", rights_chains_drop(UNIT, OWNER, HOLDER, 64, RIGHT, DEPTH), 3);
    returned("chains drop, depth 8, by dead", rights_chains_drop(UNIT, DEAD, HOLDER, DRAWER, RIGHT, 8), 3);
    returned("chains drop, by dead", rights_chains_drop(UNIT, DEAD, HOLDER, DRAWER, RIGHT, DEPTH), 4);
    returned("chains drop, by and to dead", rights_chains_drop(UNIT, DEAD, DEAD + 1, DRAWER, RIGHT, DEPTH), 4);
    returned("chains drop, to dead", rights_chains_drop(UNIT, OWNER, DEAD, DRAWER, RIGHT, DEPTH), 5);
    returned("chains drop, on dead", rights_chains_drop(UNIT, OWNER, HOLDER, DEAD, RIGHT, DEPTH), 5);
    returned("chains drop by another, to dead", rights_chains_drop(UNIT, BORROWER, DEAD, DRAWER, RIGHT, DEPTH), 5);
    returned("chains drop by another", rights_chains_drop(UNIT, BORROWER, HOLDER, DRAWER, RIGHT, DEPTH), 8);
    returned("chains drop by another, no such depth", rights_chains_drop(UNIT, BORROWER, HOLDER, DRAWER, RIGHT, 5), 8);
    returned("chains drop by another, its own", rights_chains_drop(UNIT, BORROWER, BORROWER, DRAWER, SET_RIGHT, DEPTH), 8);
    loans[0] = loans_due[0] = 1;
    returned("chains drop, one loan uncounted", rights_chains_drop(UNIT, OWNER, HOLDER, DRAWER, RIGHT, DEPTH), 2);
    returned("chains drop, one loan uncounted, depth 8", rights_chains_drop(UNIT, OWNER, HOLDER, DRAWER, RIGHT, 8), 2);
    loans[0] = loans_due[0] = 2;
}

/* A shift that is accepted: word 0 has it beside the count. */
static void chains_shift(uint32_t now)
{
    loans_due[0] = now * 65536 + loans_due[0] % 65536;
    returned("chains shift", rights_chains_shift(UNIT, ROOT, now), 0);
}

/* The holder's loan carries in its last shift, and in the next no longer; from then on it is past. */
static void chains_shifts(void)
{
    chains_shift(LAST);
    chains_check("chains check, in the last shift", OWNER, 1, 3, through);
    chains_shift(LAST);
    returned("chains shift, one back", rights_chains_shift(UNIT, ROOT, LAST - 1), 12);
    returned("chains lend, for the shift before", rights_chains_lend(UNIT, BORROWER, ROOT, DRAWER, RIGHT, 4, LAST - 1), 13);
    returned("chains lend, a standing loan", rights_chains_lend(UNIT, HOLDER, BORROWER, DRAWER, RIGHT, LOAN_DEPTH, LAST), 0);
    chains_shift(LAST + 1);
    chains_check("chains check, after the last shift", OWNER, 0, 0, nobody);
    returned("chains drop, beside a past loan", rights_chains_drop(UNIT, OWNER, HOLDER, DRAWER, RIGHT, 5), 0);
    returned("chains lend, a past loan", rights_chains_lend(UNIT, HOLDER, BORROWER, DRAWER, RIGHT, LOAN_DEPTH, LAST), 13);
    returned("chains shift, one back", rights_chains_shift(UNIT, ROOT, LAST), 12);
    returned("chains shift, without edit on item 0", rights_chains_shift(UNIT, HOLDER, LAST), 8);
    returned("chains shift, by a dead item", rights_chains_shift(UNIT, DEAD, LAST), 4);
}

#define BEYOND (RIGHTS_SHIFT_MAX + 1)

/* The greatest shift, and the first beyond it. */
static void chains_shift_limits(void)
{
    returned("chains shift, 256", rights_chains_shift(UNIT, ROOT, BEYOND), 3);
    returned("chains shift, 4294967295", rights_chains_shift(UNIT, ROOT, UINT32_MAX), 3);
    returned("chains lend, last 256", rights_chains_lend(UNIT, HOLDER, BORROWER, DRAWER, RIGHT, LOAN_DEPTH, BEYOND), 3);
    returned("chains recall, last 256", rights_chains_recall(UNIT, HOLDER, BORROWER, DRAWER, RIGHT, LOAN_DEPTH, BEYOND), 3);
    chains_shift(RIGHTS_SHIFT_MAX);
    returned("chains inspect, shift 255", rights_chains_inspect(UNIT), 0);
    loans_due[0]++;
    loans_due[3] = loan(RIGHTS_SHIFT_MAX, OWNER, DRAWER, RIGHT, HOLDER, 4);
    returned("chains lend, last 255", rights_chains_lend(UNIT, OWNER, HOLDER, DRAWER, RIGHT, 4, RIGHTS_SHIFT_MAX), 0);
    loans_due[0]--;
    loans_due[3] = 0;
    returned("chains recall, last 255", rights_chains_recall(UNIT, OWNER, HOLDER, DRAWER, RIGHT, 4, RIGHTS_SHIFT_MAX), 0);
    loans[0] = loans_due[0] = BEYOND * 65536 + 2;
    returned("chains inspect, shift 256", rights_chains_inspect(UNIT), 2);
    returned("chains shift, from 256", rights_chains_shift(UNIT, ROOT, RIGHTS_SHIFT_MAX), 2);
    loans[0] = loans_due[0] = RIGHTS_SHIFT_MAX * 65536 + 2;
}

static void chains_refused_check(uint32_t right, size_t bytes, size_t words, size_t persons_max, uint32_t due)
{
    uint8_t chain[RIGHTS_CHAIN_PERSONS], before[RIGHTS_CHAIN_PERSONS];
    uint32_t depth = 77, persons = 77;
    memset(chain, 0xa5, sizeof chain);
    memcpy(before, chain, sizeof before);
    returned("chains check, refused",
             rights_chains_check(grants, bytes, loans, words, OWNER, DRAWER, right, chain, persons_max, &depth, &persons), due);
    same("chains check, refused", "the depth", depth, 0);
    same("chains check, refused", "the number of persons", persons, 0);
    same_bytes("chains check, refused", "the chain", chain, before, sizeof chain);
}

static void chains_refusals(void)
{
    chains_refused_check(8, RIGHTS_GRANTS_BYTES, RIGHTS_LOANS_WORDS, RIGHTS_CHAIN_PERSONS, 3);
    chains_refused_check(RIGHT, RIGHTS_GRANTS_BYTES - 1, RIGHTS_LOANS_WORDS, RIGHTS_CHAIN_PERSONS, 1);
    chains_refused_check(RIGHT, RIGHTS_GRANTS_BYTES, RIGHTS_LOANS_WORDS - 1, RIGHTS_CHAIN_PERSONS, 1);
    chains_refused_check(RIGHT, RIGHTS_GRANTS_BYTES, RIGHTS_LOANS_WORDS, RIGHTS_CHAIN_PERSONS - 1, 1);
}

#define REFUSED_LENGTHS(SHORT) \
    returned("chains fresh, length", rights_chains_fresh(SHORT), 1); \
    returned("chains create, length", rights_chains_create(SHORT, ROOT, DEAD), 1); \
    returned("chains delete, length", rights_chains_delete(SHORT, OWNER, DRAWER), 1); \
    returned("chains allow, length", rights_chains_allow(SHORT, OWNER, HOLDER, DRAWER, RIGHT, DEPTH), 1); \
    returned("chains allow_set, length", rights_chains_allow_set(SHORT, OWNER, SET, DRAWER, RIGHT, DEPTH), 1); \
    returned("chains withdraw, length", rights_chains_withdraw(SHORT, OWNER, HOLDER, DRAWER, RIGHT), 1); \
    returned("chains drop, length", rights_chains_drop(SHORT, OWNER, HOLDER, DRAWER, RIGHT, DEPTH), 1); \
    returned("chains lend, length", rights_chains_lend(SHORT, HOLDER, BORROWER, DRAWER, RIGHT, DEPTH, LAST), 1); \
    returned("chains recall, length", rights_chains_recall(SHORT, HOLDER, BORROWER, DRAWER, RIGHT, LOAN_DEPTH, LAST), 1); \
    returned("chains shift, length", rights_chains_shift(SHORT, ROOT, RIGHTS_SHIFT_MAX), 1); \
    swept = UINT32_MAX; \
    returned("chains sweep, length", rights_chains_sweep(SHORT, ROOT, &swept), 1); \
    same("chains sweep, length", "the count", swept, 0); \
    returned("chains inspect, length", rights_chains_inspect(SHORT), 1);

static void chains_lengths(void)
{
    uint32_t swept;
    REFUSED_LENGTHS(SHORT_GRANTS)
    REFUSED_LENGTHS(SHORT_LOANS)
}

/* The past loan is recalled; no other has a last shift, so the shift may go back. */
static void chains_endings(void)
{
    loans_due[0]--;
    loans_due[2] = 0;
    returned("chains recall", rights_chains_recall(UNIT, HOLDER, BORROWER, DRAWER, RIGHT, LOAN_DEPTH, LAST), 0);
    loans_due[0] = (LAST - 1) * 65536 + 1;
    returned("chains shift, back", rights_chains_shift(UNIT, ROOT, LAST - 1), 0);
    for (unsigned depth = 0; depth <= RIGHTS_DEPTH_MAX; depth++)
        chains_drop(OWNER, HOLDER, DRAWER, SET_RIGHT, depth);
    chains_drop(ROOT, HOLDER, ROOT, SET_RIGHT, DEPTH);
    chains_drop(ROOT, DRAWER, HOLDER, SET_RIGHT, DEPTH);
    grants_grant(HOLDER, DRAWER, RIGHT, DEPTH, 0);
    grants_grant(HOLDER, DRAWER, RIGHT, 1, 0);
    returned("chains withdraw", rights_chains_withdraw(UNIT, OWNER, HOLDER, DRAWER, RIGHT), 0);
    chains_set_grants(DEPTH, 0);
    chains_set_grants(1, 0);
    grants_grant(OWNER, DRAWER, 0, 0, 0);
    grants_item(DRAWER, 0);
    loans_due[0]--;
    loans_due[1] = 0;
    returned("chains delete", rights_chains_delete(UNIT, OWNER, DRAWER), 0);
}

/* The unit made anew, and the drawer, on which nobody has the right. */
static void chains_anew(void)
{
    memset(grants_due, 0, sizeof grants_due);
    memset(loans_due, 0, sizeof loans_due);
    chains_start();
    chains_create(ROOT, DRAWER);
}

/* ---- a lender's loans end with its last grant of the right on the item */

/* The holder has the right at two depths and the owner at one; nobody has lent. */
static void lenders_grants(void)
{
    chains_anew();
    grants_grant(OWNER, DRAWER, 0, 4, 1);
    returned("chains allow, edit", rights_chains_allow(UNIT, ROOT, OWNER, DRAWER, 0, 4), 0);
    chains_allow(HOLDER, DRAWER, RIGHT, DEPTH);
    chains_allow(HOLDER, DRAWER, RIGHT, 1);
    chains_allow(OWNER, DRAWER, RIGHT, 3);
}

/* Five of these are the holder's of that right on that drawer; of the five others each differs in one thing or two. Two are past. */
static void lenders_loans(void)
{
    chains_lend(HOLDER, BORROWER, DRAWER, RIGHT, LOAN_DEPTH, LAST);
    chains_lend(HOLDER, BORROWER, DRAWER, RIGHT, 7, 0);
    chains_lend(HOLDER, ROOT, DRAWER, RIGHT, 0, 0);
    chains_lend(HOLDER, HOLDER, DRAWER, RIGHT, 3, 1);
    chains_lend(HOLDER, OWNER, DRAWER, RIGHT, 5, RIGHTS_SHIFT_MAX);
    chains_lend(HOLDER, BORROWER, DRAWER, SET_RIGHT, 1, 1);
    chains_lend(HOLDER, BORROWER, OWNER, RIGHT, 1, 0);
    chains_lend(BORROWER, OWNER, DRAWER, RIGHT, 4, 0);
    chains_lend(OWNER, HOLDER, DRAWER, RIGHT, 1, LAST);
    chains_lend(DRAWER, BORROWER, HOLDER, RIGHT, 1, 0);
    chains_shift(2);
}

/* The holder's five. */
static void holders_loans_end(void)
{
    loans_loan(loan(LAST, HOLDER, DRAWER, RIGHT, BORROWER, LOAN_DEPTH), 0);
    loans_loan(loan(0, HOLDER, DRAWER, RIGHT, BORROWER, 7), 0);
    loans_loan(loan(0, HOLDER, DRAWER, RIGHT, ROOT, 0), 0);
    loans_loan(loan(1, HOLDER, DRAWER, RIGHT, HOLDER, 3), 0);
    loans_loan(loan(RIGHTS_SHIFT_MAX, HOLDER, DRAWER, RIGHT, OWNER, 5), 0);
}

/* On one without a grant there, and of a depth that does not stand. */
static void lenders_left(void)
{
    returned("chains withdraw, a lender without a grant", rights_chains_withdraw(UNIT, ROOT, BORROWER, DRAWER, RIGHT), 0);
    returned("chains drop, a lender without a grant", rights_chains_drop(UNIT, ROOT, BORROWER, DRAWER, RIGHT, 4), 0);
    returned("chains withdraw, a grant of another right", rights_chains_withdraw(UNIT, ROOT, HOLDER, DRAWER, SET_RIGHT), 0);
    returned("chains withdraw, a grant on another item", rights_chains_withdraw(UNIT, ROOT, HOLDER, OWNER, RIGHT), 0);
    returned("chains withdraw, the drawer as a lender", rights_chains_withdraw(UNIT, ROOT, DRAWER, HOLDER, RIGHT), 0);
    for (uint32_t depth = 2; depth < DEPTH; depth++)
        returned("chains drop, a lender's other depths", rights_chains_drop(UNIT, ROOT, HOLDER, DRAWER, RIGHT, depth), 0);
}

static void lenders_refusals(void)
{
    returned("chains withdraw, right 11", rights_chains_withdraw(UNIT, ROOT, HOLDER, DRAWER, RIGHT + 8), 3);
    returned("chains withdraw, by 64", rights_chains_withdraw(UNIT, 64, HOLDER, DRAWER, RIGHT), 3);
    returned("chains withdraw, to 75", rights_chains_withdraw(UNIT, ROOT, HOLDER + 64, DRAWER, RIGHT), 3);
    returned("chains withdraw, on 87", rights_chains_withdraw(UNIT, ROOT, HOLDER, DRAWER + 64, RIGHT), 3);
    returned("chains withdraw, by dead", rights_chains_withdraw(UNIT, DEAD, HOLDER, DRAWER, RIGHT), 4);
    returned("chains withdraw, to dead", rights_chains_withdraw(UNIT, ROOT, DEAD, DRAWER, RIGHT), 5);
    returned("chains withdraw, on dead", rights_chains_withdraw(UNIT, ROOT, HOLDER, DEAD, RIGHT), 5);
    returned("chains withdraw by another", rights_chains_withdraw(UNIT, BORROWER, HOLDER, DRAWER, RIGHT), 8);
    returned("chains withdraw, its own, without edit", rights_chains_withdraw(UNIT, HOLDER, HOLDER, DRAWER, RIGHT), 8);
    returned("chains drop, its own, without edit", rights_chains_drop(UNIT, HOLDER, HOLDER, DRAWER, RIGHT, 1), 8);
    returned("chains withdraw, length", rights_chains_withdraw(SHORT_GRANTS, ROOT, HOLDER, DRAWER, RIGHT), 1);
    returned("chains withdraw, length", rights_chains_withdraw(SHORT_LOANS, ROOT, HOLDER, DRAWER, RIGHT), 1);
    loans[0] = --loans_due[0];
    returned("chains withdraw, one loan uncounted", rights_chains_withdraw(UNIT, ROOT, HOLDER, DRAWER, RIGHT), 2);
    returned("chains drop, one loan uncounted", rights_chains_drop(UNIT, ROOT, HOLDER, DRAWER, RIGHT, 1), 2);
    loans[0] = ++loans_due[0];
}

/* With the second depth the five end, and the right given back is the holder's alone. */
static void lenders_endings(void)
{
    chains_drop(ROOT, HOLDER, DRAWER, RIGHT, DEPTH);
    lenders_refusals();
    grants_grant(HOLDER, DRAWER, RIGHT, 1, 0);
    holders_loans_end();
    returned("chains withdraw, a lender", rights_chains_withdraw(UNIT, ROOT, HOLDER, DRAWER, RIGHT), 0);
    chains_allow(HOLDER, DRAWER, RIGHT, DEPTH);
    chains_check("chains check, given back", HOLDER, DEPTH, 1, alone);
    chains_check("chains check, given back", BORROWER, 0, 0, nobody);
    chains_lend(HOLDER, BORROWER, DRAWER, RIGHT, LOAN_DEPTH, LAST);
    grants_grant(HOLDER, DRAWER, RIGHT, DEPTH, 0);
    loans_loan(loan(LAST, HOLDER, DRAWER, RIGHT, BORROWER, LOAN_DEPTH), 0);
    returned("chains drop, a lender", rights_chains_drop(UNIT, OWNER, HOLDER, DRAWER, RIGHT, DEPTH), 0);
    chains_allow(HOLDER, DRAWER, SET_RIGHT, 2);
    grants_grant(HOLDER, DRAWER, SET_RIGHT, 2, 0);
    loans_loan(loan(1, HOLDER, DRAWER, SET_RIGHT, BORROWER, 1), 0);
    returned("chains withdraw, a past loan alone", rights_chains_withdraw(UNIT, ROOT, HOLDER, DRAWER, SET_RIGHT), 0);
    returned("chains shift, a last shift stands", rights_chains_shift(UNIT, ROOT, 1), 12);
    grants_grant(OWNER, DRAWER, RIGHT, 3, 0);
    loans_loan(loan(LAST, OWNER, DRAWER, RIGHT, HOLDER, 1), 0);
    returned("chains withdraw, its own", rights_chains_withdraw(UNIT, OWNER, OWNER, DRAWER, RIGHT), 0);
    loans_due[0] -= 65536;
    returned("chains shift, none stands", rights_chains_shift(UNIT, ROOT, 1), 0);
}

/*
 * Every place of the table in use, by two lenders in turn, 40 loans of each with every last shift from 1 to 12, and 40 and 24 with 13;
 * the owner's 520 are left, the first word of the table among them.
 */
static void lenders_full(void)
{
    static const uint32_t borrowers[] = {ROOT, OWNER, HOLDER, DRAWER, BORROWER};
    chains_allow(HOLDER, DRAWER, RIGHT, 7);
    chains_allow(HOLDER, DRAWER, RIGHT, 2);
    loans_due[0] = 7 * 65536 + RIGHTS_LOANS_MAX;
    for (uint32_t n = 0; n < RIGHTS_LOANS_MAX; n++)
        loans_due[1 + n] = loan(1 + n / 80, n / 40 % 2 ? HOLDER : OWNER, DRAWER, RIGHT, borrowers[n / 8 % 5], n % 8);
    memcpy(loans, loans_due, sizeof loans);
    returned("chains inspect, a full table", rights_chains_inspect(UNIT), 0);
    returned("chains lend, a full table", rights_chains_lend(UNIT, ROOT, OWNER, DRAWER, RIGHT, 4, 0), 10);
    returned("chains withdraw, a full table, no grant", rights_chains_withdraw(UNIT, ROOT, OWNER, DRAWER, RIGHT), 0);
    for (uint32_t n = 0; n < RIGHTS_LOANS_MAX; n++)
        if (n / 40 % 2)
            loans_loan(loan(1 + n / 80, HOLDER, DRAWER, RIGHT, borrowers[n / 8 % 5], n % 8), 0);
    same("a full table", "the loans that are left", loans_due[0], 7 * 65536 + 520);
    grants_grant(HOLDER, DRAWER, RIGHT, 7, 0);
    grants_grant(HOLDER, DRAWER, RIGHT, 2, 0);
    returned("chains withdraw, a lender of half the table", rights_chains_withdraw(UNIT, ROOT, HOLDER, DRAWER, RIGHT), 0);
    chains_lend(ROOT, OWNER, DRAWER, RIGHT, 4, 0);
    chains_recall(ROOT, OWNER, DRAWER, RIGHT, 4, 0);
    chains_allow(OWNER, DRAWER, RIGHT, 5);
    chains_allow(OWNER, DRAWER, RIGHT, 0);
    chains_drop(ROOT, OWNER, DRAWER, RIGHT, 5);
    memset(loans_due, 0, sizeof loans_due);
    loans_due[0] = 7 * 65536;
    chains_drop(ROOT, OWNER, DRAWER, RIGHT, 0);
}

/*
 * The greatest item, right, depth and last shift, and the least: each lender's one loan ends, and those stay whose lender, item or right
 * would be the same if its highest bit were cut.
 */
static void lenders_limits(void)
{
    const uint32_t half = RIGHTS_ITEM_MAX / 2, right = RIGHTS_RIGHT_MAX / 2;
    chains_create(ROOT, half);
    chains_create(ROOT, RIGHTS_ITEM_MAX);
    chains_lend(half, RIGHTS_ITEM_MAX, RIGHTS_ITEM_MAX, RIGHTS_RIGHT_MAX, 7, RIGHTS_SHIFT_MAX);
    chains_lend(RIGHTS_ITEM_MAX, RIGHTS_ITEM_MAX, half, RIGHTS_RIGHT_MAX, 7, RIGHTS_SHIFT_MAX);
    chains_lend(RIGHTS_ITEM_MAX, RIGHTS_ITEM_MAX, RIGHTS_ITEM_MAX, right, 7, RIGHTS_SHIFT_MAX);
    chains_lend(RIGHTS_ITEM_MAX, RIGHTS_ITEM_MAX, RIGHTS_ITEM_MAX, RIGHTS_RIGHT_MAX, 7, RIGHTS_SHIFT_MAX);
    chains_lend(ROOT, ROOT, ROOT, 1, 0, 0);
    chains_allow(RIGHTS_ITEM_MAX, RIGHTS_ITEM_MAX, RIGHTS_RIGHT_MAX, 7);
    chains_allow(ROOT, ROOT, 1, 0);
    loans_loan(loans_due[5], 0);
    chains_drop(ROOT, RIGHTS_ITEM_MAX, RIGHTS_ITEM_MAX, RIGHTS_RIGHT_MAX, 7);
    loans_loan(loans_due[1], 0);
    grants_grant(ROOT, ROOT, 1, 0, 0);
    returned("chains withdraw, the least", rights_chains_withdraw(UNIT, ROOT, ROOT, ROOT, 1), 0);
}

/*
 * ---- the fewest persons: of the chains that end with the greatest depth a check gives one of the shortest. Persons 31 to 39; a chain is
 * written as the program writes it, "31,32", and "-" where there is none.
 */

/* The buffer that such a chain makes, and its number of persons. */
static uint32_t chain_of(const char *via, uint8_t *chain)
{
    uint32_t persons = 0;
    char *end = NULL;
    memset(chain, RIGHTS_NO_PERSON, RIGHTS_CHAIN_PERSONS);
    for (; *via >= '0' && *via <= '9'; via = *end == ',' ? end + 1 : end)
        chain[persons++] = (uint8_t)strtoul(via, &end, 10);
    return persons;
}

/* There is one shortest best chain, and the check gives it. */
static void fewest_check(const char *call, uint32_t who, uint32_t depth_due, const char *via)
{
    uint8_t chain_due[RIGHTS_CHAIN_PERSONS];
    const uint32_t persons_due = chain_of(via, chain_due);
    chains_check(call, who, depth_due, persons_due, chain_due);
}

/* There are several, and the check gives one of them; which one is open. */
static void fewest_any(const char *call, uint32_t who, uint32_t depth_due, const char *const *vias, size_t count)
{
    uint8_t chain[RIGHTS_CHAIN_PERSONS], chain_due[RIGHTS_CHAIN_PERSONS];
    unsigned found = 0;
    chains_ask(call, who, depth_due, chain_of(vias[0], chain_due), chain);
    for (size_t k = 0; k < count; k++) {
        (void)chain_of(vias[k], chain_due);
        found += memcmp(chain, chain_due, sizeof chain) == 0;
    }
    same(call, "how many of the shortest it is", found, 1);
}

static void fewest_start(void)
{
    chains_anew();
    for (unsigned person = 31; person < 40; person++)
        chains_create(ROOT, person);
}

static void fewest_allow(unsigned to, unsigned depth) { chains_allow(to, DRAWER, RIGHT, depth); }
static void fewest_drop(unsigned to, unsigned depth) { chains_drop(ROOT, to, DRAWER, RIGHT, depth); }
static void fewest_lend(uint32_t by, uint32_t to, uint32_t depth) { chains_lend(by, to, DRAWER, RIGHT, depth, 0); }
static void fewest_recall(uint32_t by, uint32_t to, uint32_t depth) { chains_recall(by, to, DRAWER, RIGHT, depth, 0); }

/* A direct loan beside a chain of three: of the same end, of a lesser and of a greater one. */
static void fewest_direct(void)
{
    fewest_start();
    fewest_allow(31, 4);
    fewest_lend(31, 32, 2);
    fewest_lend(32, 33, 1);
    fewest_check("fewest, a chain of three", 33, 1, "31,32,33");
    fewest_lend(31, 33, 1);
    fewest_check("fewest, a direct loan of the same end", 33, 1, "31,33");
    fewest_recall(31, 33, 1);
    fewest_check("fewest, the direct loan recalled", 33, 1, "31,32,33");
    fewest_lend(31, 33, 0);
    fewest_check("fewest, a direct loan of a lesser end", 33, 1, "31,32,33");
    fewest_lend(31, 33, 7);
    fewest_check("fewest, a direct loan of a greater end", 33, 3, "31,33");
    fewest_recall(31, 33, 7);
    chains_lend(31, 33, DRAWER, SET_RIGHT, 1, 0);
    chains_lend(31, 33, OWNER, RIGHT, 1, 0);
    fewest_check("fewest, a direct loan of another right and item", 33, 1, "31,32,33");
    fewest_check("fewest, the first", 31, 4, "31");
    fewest_check("fewest, the second", 32, 2, "31,32");
    fewest_check("fewest, no chain", 34, 0, "-");
}

/* An own grant beside a route through others: given where no chain ends with more, and not where one does. */
static void fewest_own(void)
{
    fewest_start();
    fewest_allow(34, 0);
    fewest_check("fewest, an own grant", 34, 0, "34");
    fewest_allow(31, 4);
    fewest_lend(31, 32, 3);
    fewest_lend(32, 34, 2);
    fewest_check("fewest, an own grant of depth 0 beside a route with 2", 34, 2, "31,32,34");
    fewest_allow(34, 1);
    fewest_check("fewest, an own grant of depth 1 beside it", 34, 2, "31,32,34");
    fewest_allow(34, 2);
    fewest_check("fewest, an own grant of depth 2 beside it", 34, 2, "34");
    fewest_drop(34, 2);
    fewest_check("fewest, the own grant dropped", 34, 2, "31,32,34");
    fewest_allow(34, 7);
    fewest_check("fewest, an own grant of depth 7 beside it", 34, 7, "34");
}

/* The same depth by one, two and three persons: each of the eight sets of these ways. */
static void fewest_equal(void)
{
    fewest_start();
    fewest_allow(31, 4);
    fewest_allow(32, 5);
    fewest_lend(32, 33, 4);
    fewest_check("fewest, no way", 35, 0, "-");
    fewest_allow(35, 2);
    fewest_check("fewest, one person", 35, 2, "35");
    fewest_lend(31, 35, 2);
    fewest_check("fewest, one person or two", 35, 2, "35");
    fewest_lend(33, 35, 2);
    fewest_check("fewest, one person, two or three", 35, 2, "35");
    fewest_drop(35, 2);
    fewest_check("fewest, two persons or three", 35, 2, "31,35");
    fewest_recall(31, 35, 2);
    fewest_check("fewest, three persons", 35, 2, "32,33,35");
    fewest_allow(35, 2);
    fewest_check("fewest, one person or three", 35, 2, "35");
    fewest_recall(33, 35, 2);
    fewest_drop(35, 2);
    fewest_lend(31, 35, 2);
    fewest_check("fewest, two persons", 35, 2, "31,35");
}

/*
 * A lender has an own grant, and more through another. Where its loan binds, what it lends on is as deep by its own grant alone; where
 * the loan is deeper, it is deeper through the other.
 */
static void fewest_lender(void)
{
    fewest_start();
    fewest_allow(36, 2);
    fewest_allow(31, 6);
    fewest_lend(31, 36, 5);
    fewest_lend(36, 37, 1);
    fewest_lend(37, 38, 0);
    fewest_check("fewest, a lender with more through another", 36, 5, "31,36");
    fewest_check("fewest, by the lender's own grant", 37, 1, "36,37");
    fewest_check("fewest, further down", 38, 0, "36,37,38");
    fewest_lend(36, 37, 4);
    fewest_check("fewest, by what the lender has through another", 37, 4, "31,36,37");
    fewest_check("fewest, further down, by the own grant still", 38, 0, "36,37,38");
    fewest_lend(37, 38, 1);
    fewest_check("fewest, further down, a deeper loan", 38, 1, "31,36,37,38");
}

/* Each person more brings one more, up to five; each taken away brings the next shorter. */
static void fewest_greatest(void)
{
    fewest_start();
    fewest_allow(31, 7);
    fewest_lend(31, 38, 0);
    fewest_lend(31, 32, 7);
    fewest_lend(32, 38, 1);
    fewest_lend(32, 33, 7);
    fewest_lend(33, 38, 2);
    fewest_lend(33, 34, 7);
    fewest_lend(34, 38, 3);
    fewest_check("fewest, five persons for depth 3", 38, 3, "31,32,33,34,38");
    fewest_allow(38, 2);
    fewest_check("fewest, beside an own grant of depth 2", 38, 3, "31,32,33,34,38");
    fewest_recall(34, 38, 3);
    fewest_check("fewest, the own grant", 38, 2, "38");
    fewest_drop(38, 2);
    fewest_check("fewest, four persons for depth 2", 38, 2, "31,32,33,38");
    fewest_recall(33, 38, 2);
    fewest_check("fewest, three persons for depth 1", 38, 1, "31,32,38");
    fewest_recall(32, 38, 1);
    fewest_check("fewest, two persons for depth 0", 38, 0, "31,38");
}

/* Eight persons, as many as a chain has, alone and beside shorter ways of the same end; the ninth has nothing. */
static void fewest_longest(void)
{
    fewest_start();
    fewest_allow(31, 7);
    for (uint32_t person = 31; person < 39; person++)
        fewest_lend(person, person + 1, 7);
    fewest_check("fewest, eight persons", 38, 0, "31,32,33,34,35,36,37,38");
    fewest_check("fewest, seven persons", 37, 1, "31,32,33,34,35,36,37");
    fewest_check("fewest, the ninth", 39, 0, "-");
    fewest_lend(36, 38, 0);
    fewest_check("fewest, seven beside eight", 38, 0, "31,32,33,34,35,36,38");
    fewest_lend(34, 38, 0);
    fewest_check("fewest, five beside them", 38, 0, "31,32,33,34,38");
    fewest_lend(31, 38, 0);
    fewest_check("fewest, two beside them", 38, 0, "31,38");
    fewest_recall(31, 38, 0);
    fewest_recall(34, 38, 0);
    fewest_recall(36, 38, 0);
    fewest_lend(32, 37, 0);
    fewest_check("fewest, a short cut with too little left", 38, 0, "31,32,33,34,35,36,37,38");
    fewest_check("fewest, at its end", 37, 1, "31,32,33,34,35,36,37");
    fewest_lend(32, 37, 1);
    fewest_check("fewest, a short cut on the way", 38, 0, "31,32,37,38");
    fewest_lend(32, 37, 2);
    fewest_check("fewest, a short cut with more left", 39, 0, "31,32,37,38,39");
}

/* Loans to oneself, back and around: chains that go through them end with as much, and none of them is given. */
static void fewest_loops(void)
{
    fewest_start();
    fewest_allow(31, 7);
    fewest_lend(31, 32, 7);
    fewest_lend(32, 33, 7);
    fewest_lend(33, 34, 0);
    fewest_check("fewest, without a loop", 34, 0, "31,32,33,34");
    fewest_lend(32, 32, 7);
    fewest_check("fewest, a loan to oneself", 34, 0, "31,32,33,34");
    fewest_lend(33, 32, 7);
    fewest_check("fewest, a loan back", 34, 0, "31,32,33,34");
    fewest_lend(33, 31, 7);
    fewest_check("fewest, a round of three", 34, 0, "31,32,33,34");
    fewest_lend(31, 31, 7);
    fewest_lend(34, 31, 7);
    fewest_lend(34, 34, 7);
    fewest_check("fewest, loops at both ends", 34, 0, "31,32,33,34");
    fewest_check("fewest, the first of a round", 31, 7, "31");
    fewest_check("fewest, the second of a round", 32, 6, "31,32");
    fewest_check("fewest, the last of a round", 33, 5, "31,32,33");
    fewest_lend(31, 33, 0);
    fewest_check("fewest, a lesser way into a round", 33, 5, "31,32,33");
    fewest_lend(31, 33, 5);
    fewest_check("fewest, a shorter way into a round", 34, 0, "31,33,34");
}

/* A loan with a last shift is the short way in that shift; in the next the longer way is given, though the loan stands. */
static void fewest_shifts(void)
{
    fewest_start();
    fewest_allow(31, 4);
    fewest_lend(31, 32, 3);
    fewest_lend(32, 33, 2);
    chains_lend(31, 33, DRAWER, RIGHT, 2, LAST);
    chains_lend(32, 34, DRAWER, RIGHT, 2, LAST + 1);
    fewest_lend(31, 34, 1);
    chains_shift(LAST);
    fewest_check("fewest, in the last shift of the short way", 33, 2, "31,33");
    chains_shift(LAST + 1);
    fewest_check("fewest, after it", 33, 2, "31,32,33");
    fewest_check("fewest, in the last shift of the deeper way", 34, 2, "31,32,34");
    chains_lend(31, 33, DRAWER, RIGHT, 2, LAST + 1);
    fewest_check("fewest, lent anew", 33, 2, "31,33");
    chains_shift(LAST + 2);
    fewest_check("fewest, after the last shift of the deeper way", 34, 1, "31,34");
    chains_lend(31, 33, DRAWER, RIGHT, 2, RIGHTS_SHIFT_MAX);
    chains_shift(RIGHTS_SHIFT_MAX);
    fewest_check("fewest, in the greatest shift", 33, 2, "31,33");
    chains_recall(31, 33, DRAWER, RIGHT, 2, RIGHTS_SHIFT_MAX);
    fewest_check("fewest, beside short ways that are past", 33, 2, "31,32,33");
}

/* The short way through 36 ends by recall, drop, withdraw and delete, and each time the longer is given. */
static void fewest_ended(void)
{
    fewest_start();
    fewest_allow(31, 3);
    fewest_lend(31, 32, 2);
    fewest_lend(32, 37, 1);
    fewest_allow(36, 3);
    fewest_allow(36, 0);
    fewest_lend(36, 37, 1);
    fewest_check("fewest, the short way", 37, 1, "36,37");
    fewest_recall(36, 37, 1);
    fewest_check("fewest, recalled", 37, 1, "31,32,37");
    fewest_lend(36, 37, 1);
    fewest_drop(36, 3);
    fewest_check("fewest, dropped", 37, 1, "31,32,37");
    fewest_allow(36, 3);
    fewest_check("fewest, allowed again", 37, 1, "36,37");
    grants_grant(36, DRAWER, RIGHT, 3, 0);
    grants_grant(36, DRAWER, RIGHT, 0, 0);
    loans_loan(loan(0, 36, DRAWER, RIGHT, 37, 1), 0);
    returned("fewest, withdraw", rights_chains_withdraw(UNIT, ROOT, 36, DRAWER, RIGHT), 0);
    fewest_check("fewest, withdrawn", 37, 1, "31,32,37");
    fewest_allow(36, 3);
    fewest_lend(36, 37, 1);
    fewest_check("fewest, lent anew", 37, 1, "36,37");
    grants_grant(36, DRAWER, RIGHT, 3, 0);
    grants_grant(ROOT, 36, 0, 0, 0);
    grants_item(36, 0);
    loans_loan(loan(0, 36, DRAWER, RIGHT, 37, 1), 0);
    returned("fewest, delete", rights_chains_delete(UNIT, ROOT, 36), 0);
    fewest_check("fewest, deleted", 37, 1, "31,32,37");
}

/* Two shortest, two of eight persons, four, and two by another grant, beside longer ones. */
static void fewest_several(void)
{
    static const char *const two[] = {"31,32,34", "31,33,34"};
    static const char *const eight[] = {"31,32,34,36,37,38,39,47", "31,33,34,36,37,38,39,47"};
    static const char *const four[] = {"31,32,34,5", "31,32,35,5", "31,33,34,5", "31,33,35,5"};
    static const char *const direct[] = {"31,35", "32,35"};
    fewest_start();
    fewest_allow(31, 7);
    fewest_lend(31, 32, 7);
    fewest_lend(31, 33, 7);
    fewest_lend(32, 33, 7);
    fewest_lend(32, 34, 7);
    fewest_lend(33, 34, 7);
    fewest_any("fewest, two chains", 34, 5, two, 2);
    fewest_lend(34, 36, 7);
    for (uint32_t person = 36; person < 39; person++)
        fewest_lend(person, person + 1, 7);
    fewest_lend(39, BORROWER, 7);
    fewest_any("fewest, two chains of eight", BORROWER, 0, eight, 2);
    fewest_lend(32, 35, 4);
    fewest_lend(33, 35, 4);
    fewest_lend(34, OWNER, 1);
    fewest_lend(35, OWNER, 1);
    fewest_any("fewest, four chains", OWNER, 1, four, 4);
    fewest_allow(32, 7);
    fewest_lend(31, 35, 4);
    fewest_any("fewest, two grants", 35, 4, direct, 2);
    fewest_recall(32, 35, 4);
    fewest_check("fewest, one of the two recalled", 35, 4, "31,35");
}

/*
 * Every loan among persons 31 to 38, to oneself and at each depth, open-ended and with last shift 3; but 31 lends to itself and to those up
 * to the last given alone.
 */
static void fewest_crowd(uint32_t shift, uint32_t last_borrower)
{
    uint32_t count = 0;
    memset(loans_due, 0, sizeof loans_due);
    for (uint32_t n = 0; n < RIGHTS_LOANS_MAX; n++) {
        const uint32_t lender = 31 + n / 64 % 8, borrower = 31 + n / 8 % 8;
        if (lender != 31 || borrower <= last_borrower)
            loans_due[++count] = loan(3 * (n / 512), lender, DRAWER, RIGHT, borrower, n % 8);
    }
    loans_due[0] = shift * 65536 + count;
    memcpy(loans, loans_due, sizeof loans);
}

static void fewest_crowded(void)
{
    static const char *const either[] = {"31,37,39", "38,37,39"};
    static const char *const three[] = {"31,32,38", "31,33,38", "31,34,38"};
    fewest_start();
    fewest_allow(31, 7);
    fewest_allow(38, 4);
    fewest_crowd(3, 38);
    fewest_check("fewest, in a full table", 37, 6, "31,37");
    fewest_check("fewest, in a full table", 38, 6, "31,38");
    fewest_check("fewest, in a full table, the first", 31, 7, "31");
    chains_recall(38, 38, DRAWER, RIGHT, 7, 3);
    fewest_lend(37, 39, 0);
    fewest_any("fewest, in a full table, beside longer ones", 39, 0, either, 2);
    fewest_crowd(4, 32);
    fewest_check("fewest, in a crowd through one", 37, 5, "31,32,37");
    fewest_check("fewest, in a crowd through one", 38, 5, "31,32,38");
    fewest_check("fewest, in a crowd, the one", 32, 6, "31,32");
    fewest_lend(37, 39, 0);
    fewest_check("fewest, in a crowd, beside longer ones", 39, 0, "38,37,39");
    fewest_crowd(4, 34);
    fewest_any("fewest, in a crowd through one of three", 38, 5, three, 3);
    fewest_lend(38, 39, 0);
    fewest_check("fewest, in a crowd, by an own grant", 39, 0, "38,39");
}

/* The least person and the greatest, one after the other and with one between. */
static void fewest_limits(void)
{
    fewest_start();
    chains_create(ROOT, RIGHTS_ITEM_MAX);
    fewest_allow(ROOT, 2);
    fewest_lend(ROOT, 31, 1);
    fewest_lend(31, RIGHTS_ITEM_MAX, 0);
    fewest_check("fewest, from the least person to the greatest", RIGHTS_ITEM_MAX, 0, "0,31,63");
    fewest_lend(ROOT, RIGHTS_ITEM_MAX, 0);
    fewest_check("fewest, directly", RIGHTS_ITEM_MAX, 0, "0,63");
    fewest_allow(RIGHTS_ITEM_MAX, 4);
    fewest_lend(RIGHTS_ITEM_MAX, ROOT, 2);
    fewest_check("fewest, the greatest person alone", RIGHTS_ITEM_MAX, 4, "63");
    fewest_check("fewest, the least person alone, and not through the greatest", ROOT, 2, "0");
    fewest_lend(RIGHTS_ITEM_MAX, ROOT, 3);
    fewest_check("fewest, from the greatest person to the least", ROOT, 3, "63,0");
}

/* ---- sweep: the loans past their last shift end, the others close up in their order, and the count is how many ended */

static void sweep_call(const char *call, uint32_t by, uint32_t number_due, uint32_t swept_due)
{
    uint32_t swept = UINT32_MAX;
    returned(call, rights_chains_sweep(UNIT, by, &swept), number_due);
    same(call, "the count", swept, swept_due);
}

/* No loan, none with a last shift, shift 0, and loans in their last shift, with a later one and open-ended. */
static void sweep_none(void)
{
    chains_anew();
    sweep_call("sweep, no loan", ROOT, 0, 0);
    chains_lend(HOLDER, BORROWER, DRAWER, RIGHT, LOAN_DEPTH, 0);
    chains_shift(RIGHTS_SHIFT_MAX);
    sweep_call("sweep, an open-ended loan", ROOT, 0, 0);
    chains_shift(0);
    chains_lend(HOLDER, BORROWER, DRAWER, RIGHT, LOAN_DEPTH, 1);
    chains_lend(HOLDER, BORROWER, DRAWER, RIGHT, LOAN_DEPTH, RIGHTS_SHIFT_MAX);
    sweep_call("sweep, shift 0", ROOT, 0, 0);
    chains_shift(1);
    sweep_call("sweep, in a last shift", ROOT, 0, 0);
}

static uint32_t sweep_of_last(uint32_t last) { return loan(last, HOLDER, DRAWER, RIGHT, BORROWER, last % 8); }

/* A loan for every last shift, 0 to 255. */
static void sweep_lasts(void)
{
    chains_anew();
    for (uint32_t last = 0; last <= RIGHTS_SHIFT_MAX; last++)
        chains_lend(HOLDER, BORROWER, DRAWER, RIGHT, last % 8, last);
}

/* Shift by shift each loan ends in the one after its last. */
static void sweep_each_shift(void)
{
    sweep_lasts();
    for (uint32_t now = 0; now <= RIGHTS_SHIFT_MAX; now++) {
        chains_shift(now);
        if (now > 1)
            loans_loan(sweep_of_last(now - 1), 0);
        sweep_call("sweep, the shift after", HOLDER, 0, now > 1);
        sweep_call("sweep, again", HOLDER, 0, 0);
    }
    same("sweep, every shift", "shift and loans left", loans_due[0], RIGHTS_SHIFT_MAX * 65536 + 2);
}

/* From shift 0 to 100, to 201 and to 255: 99, 101 and 54 loans, and two are left. */
static void sweep_jumps(void)
{
    static const uint32_t shifts[] = {0, 100, 201, RIGHTS_SHIFT_MAX}, counts[] = {0, 99, 101, 54};
    uint32_t last = 1;
    sweep_lasts();
    for (unsigned k = 0; k < 4; k++) {
        chains_shift(shifts[k]);
        for (; last < shifts[k]; last++)
            loans_loan(sweep_of_last(last), 0);
        sweep_call("sweep, some shifts later", HOLDER, 0, counts[k]);
        sweep_call("sweep, again", HOLDER, 0, 0);
    }
    same("sweep, some shifts later", "shift and loans left", loans_due[0], RIGHTS_SHIFT_MAX * 65536 + 2);
}

/* Any item that lives may: the root, one with no grant at all, one whose loan ends and one whose does not, a drawer, item 63. */
static void sweep_anybody(void)
{
    static const uint32_t persons[] = {ROOT, OWNER, HOLDER, BORROWER, DRAWER, RIGHTS_ITEM_MAX};
    chains_anew();
    chains_create(ROOT, RIGHTS_ITEM_MAX);
    chains_drop(ROOT, ROOT, RIGHTS_ITEM_MAX, 0, 0);
    chains_lend(BORROWER, HOLDER, DRAWER, RIGHT, LOAN_DEPTH, 0);
    for (uint32_t k = 0; k < 6; k++) {
        chains_lend(HOLDER, BORROWER, DRAWER, RIGHT, LOAN_DEPTH, k + 1);
        chains_lend(RIGHTS_ITEM_MAX, ROOT, ROOT, RIGHTS_RIGHT_MAX, 0, k + 1);
        chains_shift(k + 2);
        loans_loan(loan(k + 1, HOLDER, DRAWER, RIGHT, BORROWER, LOAN_DEPTH), 0);
        loans_loan(loan(k + 1, RIGHTS_ITEM_MAX, ROOT, RIGHTS_RIGHT_MAX, ROOT, 0), 0);
        sweep_call("sweep, by anybody", persons[k], 0, 2);
    }
}

/* A word of the loans is broken, and put back. 2 comes before 3 and 4. */
static void sweep_broken(const char *call, uint32_t word, uint32_t content)
{
    const uint32_t before = loans[word];
    loans[word] = loans_due[word] = content;
    sweep_call(call, ROOT, 2, 0);
    sweep_call(call, 64, 2, 0);
    sweep_call(call, DEAD, 2, 0);
    loans[word] = loans_due[word] = before;
}

/* A wrong length of either image. 1 comes before the others. */
static void sweep_length(const char *call, uint8_t *lent_grants, size_t bytes, uint32_t *lent_loans, size_t words)
{
    uint32_t swept = UINT32_MAX;
    returned(call, rights_chains_sweep(lent_grants, bytes, lent_loans, words, 64, &swept), 1);
    same(call, "the count", swept, 0);
}

/* No element, and one more than the images have. */
static void sweep_lengths(void)
{
    static uint8_t more_grants[RIGHTS_GRANTS_BYTES + 1];
    static uint32_t more_loans[RIGHTS_LOANS_WORDS + 1];
    memcpy(more_grants, grants, sizeof grants);
    memcpy(more_loans, loans, sizeof loans);
    sweep_length("sweep, no byte", grants, 0, loans, RIGHTS_LOANS_WORDS);
    sweep_length("sweep, no word", grants, RIGHTS_GRANTS_BYTES, loans, 0);
    sweep_length("sweep, one byte more", more_grants, RIGHTS_GRANTS_BYTES + 1, loans, RIGHTS_LOANS_WORDS);
    sweep_length("sweep, one word more", grants, RIGHTS_GRANTS_BYTES, more_loans, RIGHTS_LOANS_WORDS + 1);
    same_bytes("sweep, one byte more", "the grants", more_grants, grants_due, RIGHTS_GRANTS_BYTES);
    same_bytes("sweep, one word more", "the loans", more_loans, loans_due, LOANS_SIZE);
    same("sweep, one byte more", "the last byte", more_grants[RIGHTS_GRANTS_BYTES], 0);
    same("sweep, one word more", "the last word", more_loans[RIGHTS_LOANS_WORDS], 0);
}

/* Two of four loans are past, and stand after each refusal. */
static void sweep_refusals(void)
{
    chains_anew();
    chains_lend(HOLDER, BORROWER, DRAWER, RIGHT, LOAN_DEPTH, 0);
    chains_lend(HOLDER, BORROWER, DRAWER, RIGHT, LOAN_DEPTH, 1);
    chains_lend(HOLDER, BORROWER, DRAWER, RIGHT, LOAN_DEPTH, LAST - 1);
    chains_lend(HOLDER, BORROWER, DRAWER, RIGHT, LOAN_DEPTH, LAST);
    chains_shift(LAST);
    sweep_call("sweep, by 64", 64, 3, 0);
    sweep_call("sweep, by 75", HOLDER + 64, 3, 0);
    sweep_call("sweep, by 256", 256, 3, 0);
    sweep_call("sweep, by 65536", 65536, 3, 0);
    sweep_call("sweep, by 2147483648", 2147483648u, 3, 0);
    sweep_call("sweep, by 4294967295", UINT32_MAX, 3, 0);
    sweep_call("sweep, by dead", DEAD, 4, 0);
    sweep_call("sweep, by 1, dead", 1, 4, 0);
    sweep_call("sweep, by 63, dead", RIGHTS_ITEM_MAX, 4, 0);
    sweep_broken("sweep, one loan uncounted", 0, LAST * 65536 + 3);
    sweep_broken("sweep, one loan too many counted", 0, LAST * 65536 + 5);
    sweep_broken("sweep, 1,025 loans", 0, LAST * 65536 + RIGHTS_LOANS_MAX + 1);
    sweep_broken("sweep, shift 256", 0, BEYOND * 65536 + 4);
    sweep_broken("sweep, a loan twice", 3, loans[2]);
    sweep_broken("sweep, a past loan of right 0", 3, loan(LAST - 1, HOLDER, DRAWER, 0, BORROWER, LOAN_DEPTH));
    sweep_broken("sweep, a past loan by a dead item", 3, loan(LAST - 1, DEAD, DRAWER, RIGHT, BORROWER, LOAN_DEPTH));
    sweep_broken("sweep, a past loan on a dead item", 3, loan(LAST - 1, HOLDER, DEAD, RIGHT, BORROWER, LOAN_DEPTH));
    sweep_broken("sweep, a past loan to a dead item", 3, loan(LAST - 1, HOLDER, DRAWER, RIGHT, DEAD, LOAN_DEPTH));
    sweep_broken("sweep, a word after the end", RIGHTS_LOANS_MAX, loan(LAST, HOLDER, DRAWER, RIGHT, BORROWER, 7));
    grants[0] = (uint8_t)(grants_due[0] &= 0xfe);
    sweep_call("sweep, the root item dead", OWNER, 2, 0);
    grants[0] = (uint8_t)(grants_due[0] |= 1);
    sweep_lengths();
    loans_loan(loan(1, HOLDER, DRAWER, RIGHT, BORROWER, LOAN_DEPTH), 0);
    loans_loan(loan(LAST - 1, HOLDER, DRAWER, RIGHT, BORROWER, LOAN_DEPTH), 0);
    sweep_call("sweep, after the refusals", OWNER, 0, 2);
}

/*
 * A past loan bars a lower shift, and swept no longer; one in its last shift still does. What a sweep ended is not brought back by the
 * shift, a recall of it ends nothing, and lent anew it is a loan as any other.
 */
static void sweep_way_back(void)
{
    chains_anew();
    chains_allow(HOLDER, DRAWER, RIGHT, DEPTH);
    chains_lend(HOLDER, BORROWER, DRAWER, RIGHT, LOAN_DEPTH, LAST - 1);
    chains_lend(HOLDER, OWNER, DRAWER, RIGHT, LOAN_DEPTH, LAST);
    chains_shift(LAST);
    returned("chains shift, before a sweep", rights_chains_shift(UNIT, ROOT, LAST - 1), 12);
    loans_loan(loan(LAST - 1, HOLDER, DRAWER, RIGHT, BORROWER, LOAN_DEPTH), 0);
    sweep_call("sweep, the first past", DRAWER, 0, 1);
    returned("chains shift, a last shift stands", rights_chains_shift(UNIT, ROOT, LAST - 1), 12);
    returned("chains lend, what was swept", rights_chains_lend(UNIT, HOLDER, BORROWER, DRAWER, RIGHT, LOAN_DEPTH, LAST - 1), 13);
    returned("chains recall, what was swept", rights_chains_recall(UNIT, HOLDER, BORROWER, DRAWER, RIGHT, LOAN_DEPTH, LAST - 1), 0);
    chains_shift(LAST + 1);
    returned("chains shift, before a sweep", rights_chains_shift(UNIT, ROOT, LAST), 12);
    loans_loan(loan(LAST, HOLDER, DRAWER, RIGHT, OWNER, LOAN_DEPTH), 0);
    sweep_call("sweep, the other", DRAWER, 0, 1);
    chains_shift(LAST);
    chains_shift(1);
    chains_check("chains check, swept, in the shift of the loan", OWNER, 0, 0, nobody);
    chains_lend(HOLDER, OWNER, DRAWER, RIGHT, LOAN_DEPTH, LAST);
    chains_shift(LAST + 1);
    loans_loan(loan(LAST, HOLDER, DRAWER, RIGHT, OWNER, LOAN_DEPTH), 0);
    sweep_call("sweep, lent anew", DRAWER, 0, 1);
}

/* The loans of a table, rising with n from 0 to 1,023 for each last shift: the least and the greatest of each field among them. */
static uint32_t sweep_loan(uint32_t n, uint32_t last)
{
    static const uint32_t persons[] = {ROOT, OWNER, BORROWER, RIGHTS_ITEM_MAX}, rights[] = {1, RIGHT, SET_RIGHT, RIGHTS_RIGHT_MAX};
    return loan(last, persons[n / 256], n / 128 % 2 * RIGHTS_ITEM_MAX, rights[n / 32 % 4], persons[n / 8 % 4], n % 8);
}

enum { SWEPT_AT = 7 };

/* So many loans that are open-ended, past in shift 7, and with last shifts from 7 to 255: the table in shift 7. */
static void sweep_due(uint32_t open, uint32_t past, uint32_t later)
{
    uint32_t place = 0;
    memset(loans_due, 0, sizeof loans_due);
    for (uint32_t n = 0; n < open; n++)
        loans_due[++place] = sweep_loan(n, 0);
    for (uint32_t n = 0; n < past; n++)
        loans_due[++place] = sweep_loan(n, 1 + n * (SWEPT_AT - 1) / past);
    for (uint32_t n = 0; n < later; n++)
        loans_due[++place] = sweep_loan(n, SWEPT_AT + n * (BEYOND - SWEPT_AT) / later);
    loans_due[0] = SWEPT_AT * 65536 + place;
}

/* Such a table swept: a full one has no room before, and has it after unless nothing was past. */
static void sweep_table(uint32_t open, uint32_t past, uint32_t later)
{
    const int full = open + past + later == RIGHTS_LOANS_MAX;
    sweep_due(open, past, later);
    memcpy(loans, loans_due, sizeof loans);
    if (full)
        returned("chains lend, a full table", rights_chains_lend(UNIT, HOLDER, HOLDER, DRAWER, RIGHT, DEPTH, 0), 10);
    sweep_due(open, 0, later);
    sweep_call("sweep, a table", OWNER, 0, past);
    sweep_call("sweep, a table again", OWNER, 0, 0);
    if (full && past == 0)
        returned("chains lend, nothing swept", rights_chains_lend(UNIT, HOLDER, HOLDER, DRAWER, RIGHT, DEPTH, 0), 10);
    if (full && past > 0)
        chains_lend(HOLDER, HOLDER, DRAWER, RIGHT, DEPTH, 0);
    if (full && past == 1)
        returned("chains lend, the room taken", rights_chains_lend(UNIT, HOLDER, HOLDER, DRAWER, RIGHT, 1, 0), 10);
}

/* Few loans and many of each kind, none, and tables that the later ones fill; all 1,024 past among them. */
static void sweep_tables(void)
{
    static const uint32_t sizes[] = {0, 1, 2, 7, 8, 9, 64, 511, 512, 513, 1022, 1023, 1024};
    enum { SIZES = sizeof sizes / sizeof sizes[0] };
    chains_anew();
    chains_create(ROOT, RIGHTS_ITEM_MAX);
    for (unsigned k = 0; k < SIZES * SIZES * SIZES; k++) {
        const uint32_t open = sizes[k / SIZES / SIZES], past = sizes[k / SIZES % SIZES], later = sizes[k % SIZES];
        if (open + past + later <= RIGHTS_LOANS_MAX)
            sweep_table(open, past, later);
        if (later == 0 && open + past <= RIGHTS_LOANS_MAX)
            sweep_table(open, past, RIGHTS_LOANS_MAX - open - past);
    }
}

static const uint32_t sweep_shifts[] = {5, 6, 7, 8, 9, RIGHTS_SHIFT_MAX};
enum { SWEEP_SHIFTS = sizeof sweep_shifts / sizeof sweep_shifts[0] };

/* The answers of a copy in each of these shifts: what every person has, its depth and its number of persons. */
static void sweep_answers(uint8_t answers[SWEEP_SHIFTS][64][2])
{
    static uint8_t copy[RIGHTS_GRANTS_BYTES];
    static uint32_t copied[RIGHTS_LOANS_WORDS];
    memcpy(copy, grants, sizeof grants);
    memcpy(copied, loans, sizeof loans);
    for (unsigned k = 0; k < SWEEP_SHIFTS; k++) {
        same("sweep, a shift of the copy", "the number",
             rights_chains_shift(copy, RIGHTS_GRANTS_BYTES, copied, RIGHTS_LOANS_WORDS, ROOT, sweep_shifts[k]), 0);
        for (uint32_t who = 0; who < 64; who++) {
            uint8_t chain[RIGHTS_CHAIN_PERSONS];
            uint32_t depth = 77, persons = 77;
            same("sweep, a check of the copy", "the number",
                 rights_chains_check(copy, RIGHTS_GRANTS_BYTES, copied, RIGHTS_LOANS_WORDS, who, DRAWER, RIGHT, chain,
                                     RIGHTS_CHAIN_PERSONS, &depth, &persons), 0);
            answers[k][who][0] = (uint8_t)depth;
            answers[k][who][1] = (uint8_t)persons;
        }
    }
}

/* The last shift of the n-th of 81 loans, among nine persons: each from 0 to 8 comes nine times. */
static uint32_t sweep_last(uint32_t n) { return (n / 9 + 2 * (n % 9)) % 9; }

/* In shift 5 four times nine of these are past, and no answer rests on them. */
static void sweep_checks(void)
{
    static uint8_t before[SWEEP_SHIFTS][64][2], after[SWEEP_SHIFTS][64][2];
    fewest_start();
    fewest_allow(31, 7);
    fewest_allow(35, 3);
    for (uint32_t n = 0; n < 81; n++)
        chains_lend(31 + n / 9, 31 + n % 9, DRAWER, RIGHT, n * 5 % 8, sweep_last(n));
    chains_shift(sweep_shifts[0]);
    sweep_answers(before);
    for (uint32_t n = 0; n < 81; n++)
        if (sweep_last(n) >= 1 && sweep_last(n) <= 4)
            loans_loan(loan(sweep_last(n), 31 + n / 9, DRAWER, RIGHT, 31 + n % 9, n * 5 % 8), 0);
    sweep_call("sweep, among nine persons", 39, 0, 36);
    sweep_answers(after);
    same_bytes("sweep, among nine persons", "the answers in this shift and in later ones", after, before, sizeof after);
    same("sweep, among nine persons", "that the next shift has other answers", memcmp(after[0], after[1], sizeof after[0]) != 0, 1);
}

/* The short way ends, and the long one, open-ended, is given before the sweep and after it; in shift 3 the deeper loan is left. */
static void sweep_ways(void)
{
    fewest_start();
    fewest_allow(31, 4);
    fewest_lend(31, 32, 3);
    fewest_lend(32, 33, 2);
    chains_lend(31, 33, DRAWER, RIGHT, 2, 1);
    chains_lend(31, 34, DRAWER, RIGHT, 3, 3);
    chains_lend(31, 34, DRAWER, RIGHT, 1, 2);
    fewest_check("sweep, the short way", 33, 2, "31,33");
    chains_shift(3);
    fewest_check("sweep, the long way", 33, 2, "31,32,33");
    fewest_check("sweep, in its last shift", 34, 3, "31,34");
    loans_loan(loan(1, 31, DRAWER, RIGHT, 33, 2), 0);
    loans_loan(loan(2, 31, DRAWER, RIGHT, 34, 1), 0);
    sweep_call("sweep, of five loans two", 33, 0, 2);
    fewest_check("sweep, the long way after it", 33, 2, "31,32,33");
    fewest_check("sweep, in its last shift after it", 34, 3, "31,34");
    chains_shift(4);
    fewest_check("sweep, in the shift after it", 34, 0, "-");
    fewest_check("sweep, the long way in the shift after it", 33, 2, "31,32,33");
    loans_loan(loan(3, 31, DRAWER, RIGHT, 34, 3), 0);
    sweep_call("sweep, the last of them", 33, 0, 1);
    grants_grant(31, DRAWER, RIGHT, 4, 0);
    loans_loan(loan(0, 31, DRAWER, RIGHT, 32, 3), 0);
    returned("chains withdraw, after a sweep", rights_chains_withdraw(UNIT, ROOT, 31, DRAWER, RIGHT), 0);
}

/* ---- the ticket unit. Its tickets lie at places, and their numbers are those of the calls that issued them. */

#define TICKETS tickets, RIGHTS_TICKETS_WORDS
#define SHORT_TICKETS tickets, RIGHTS_TICKETS_WORDS - 1
#define RECORDS records, RIGHTS_TICKETS_MAX

static void tickets_item(unsigned item, int lives) { word_bit(tickets_due, 0, item, lives); }

/* What a place holds, by the header's layout: a ticket, or with no holders nothing. */
static void tickets_place(unsigned place, uint64_t number, uint64_t item, uint64_t right, uint64_t issuer, uint64_t holders)
{
    tickets_due[2 + 2 * place] = number + item * 4294967296u + right * 1099511627776u + issuer * 281474976710656u;
    tickets_due[3 + 2 * place] = holders;
}

static void tickets_vacant(unsigned place) { tickets_place(place, 0, 0, 0, 0, 0); }

static rights_ticket record(uint32_t number, unsigned item, unsigned right, unsigned issuer, uint64_t holders)
{
    rights_ticket made;
    made.number = number;
    made.item = (uint8_t)item;
    made.right = (uint8_t)right;
    made.issuer = (uint16_t)issuer;
    made.holders = holders;
    return made;
}

static void same_record(const char *call, rights_ticket given, rights_ticket due)
{
    same(call, "the record's number", given.number, due.number);
    same(call, "the record's item", given.item, due.item);
    same(call, "the record's right", given.right, due.right);
    same(call, "the record's issuer", given.issuer, due.issuer);
    same(call, "the record's holders", given.holders, due.holders);
}

/* The ticket of a create lies at the place given, and has the number given. */
static void tickets_create(unsigned by, unsigned on, unsigned place, uint32_t number)
{
    tickets_item(on, 1);
    tickets_place(place, number, on, 0, by, MEMBER(by));
    tickets_due[1] = (uint64_t)number + 1;
    returned("tickets create", rights_tickets_create(TICKETS, by, on), 0);
}

static void tickets_generate(unsigned by, unsigned on, unsigned right, unsigned place, uint32_t number)
{
    uint32_t given = 77;
    tickets_place(place, number, on, right, by, MEMBER(by));
    tickets_due[1] = (uint64_t)number + 1;
    returned("tickets generate", rights_tickets_generate(TICKETS, by, on, right, &given), 0);
    same("tickets generate", "the ticket", given, number);
}

/* A generate that is refused gives 0 back. */
static void tickets_refuse(const char *call, uint32_t by, uint32_t on, uint32_t right, uint32_t due)
{
    uint32_t given = 77;
    returned(call, rights_tickets_generate(TICKETS, by, on, right, &given), due);
    same(call, "the ticket", given, 0);
}

static void tickets_check(const char *call, uint32_t who, uint32_t on, uint32_t right, uint32_t number_due, uint32_t yes_due)
{
    uint32_t yes = 77;
    returned(call, rights_tickets_check(TICKETS, who, on, right, &yes), number_due);
    same(call, "yes", yes, yes_due);
}

/* A fresh unit, whatever its buffer held; ticket 4 is the owner's on the drawer, 5 opens it and is passed on twice. */
static void tickets_start(void)
{
    memset(tickets, 0xa5, sizeof tickets);
    memset(tickets_due, 0, sizeof tickets_due);
    tickets_item(ROOT, 1);
    tickets_due[1] = 1;
    tickets_place(0, 0, ROOT, 0, ROOT, MEMBER(ROOT));
    returned("tickets fresh", rights_tickets_fresh(TICKETS), 0);
    tickets_create(ROOT, OWNER, 1, 1);
    tickets_create(ROOT, HOLDER, 2, 2);
    tickets_create(ROOT, BORROWER, 3, 3);
    tickets_create(OWNER, DRAWER, 4, 4);
    tickets_generate(OWNER, DRAWER, RIGHT, 5, 5);
    tickets_place(5, 5, DRAWER, RIGHT, OWNER, MEMBER(OWNER) | MEMBER(HOLDER));
    returned("tickets pass", rights_tickets_pass(TICKETS, OWNER, HOLDER, 5), 0);
    tickets_place(5, 5, DRAWER, RIGHT, OWNER, MEMBER(OWNER) | MEMBER(HOLDER) | MEMBER(BORROWER));
    returned("tickets pass", rights_tickets_pass(TICKETS, HOLDER, BORROWER, 5), 0);
    returned("tickets pass, to a holder", rights_tickets_pass(TICKETS, BORROWER, HOLDER, 5), 0);
}

static void tickets_answers(void)
{
    tickets_check("tickets check", HOLDER, DRAWER, RIGHT, 0, 1);
    tickets_check("tickets check, passed on twice", BORROWER, DRAWER, RIGHT, 0, 1);
    tickets_check("tickets check, no", ROOT, DRAWER, RIGHT, 0, 0);
    tickets_check("tickets check, another right", HOLDER, DRAWER, SET_RIGHT, 0, 0);
    tickets_check("tickets check, another item", HOLDER, OWNER, RIGHT, 0, 0);
    tickets_check("tickets check, dead", DEAD, DRAWER, RIGHT, 0, 0);
    tickets_check("tickets check, who 64", 64, DRAWER, RIGHT, 3, 0);
    tickets_check("tickets check, on 64", HOLDER, 64, RIGHT, 3, 0);
    tickets_check("tickets check, right 8", HOLDER, DRAWER, 8, 3, 0);
    returned("tickets inspect", rights_tickets_inspect(TICKETS), 0);
}

/* The records of the image, one of them, and the check over them. */
static void tickets_records(void)
{
    const uint64_t holders = MEMBER(OWNER) | MEMBER(HOLDER) | MEMBER(BORROWER);
    uint32_t yes = 77;
    same("tickets", "the bytes of a record", sizeof(rights_ticket), 16);
    same("tickets", "the bytes of the records", sizeof records, RECORDS_SIZE);
    memset(records, 0xa5, sizeof records);
    memset(records_due, 0, sizeof records_due);
    records_due[0] = record(0, ROOT, 0, ROOT, MEMBER(ROOT));
    records_due[1] = record(1, OWNER, 0, ROOT, MEMBER(ROOT));
    records_due[2] = record(2, HOLDER, 0, ROOT, MEMBER(ROOT));
    records_due[3] = record(3, BORROWER, 0, ROOT, MEMBER(ROOT));
    records_due[4] = record(4, DRAWER, 0, OWNER, MEMBER(OWNER));
    records_due[5] = record(5, DRAWER, RIGHT, OWNER, holders);
    returned("tickets records", rights_tickets_records(TICKETS, RECORDS), 0);
    same_bytes("tickets records", "the image's memory", tickets + 2, records, RECORDS_SIZE);
    same_record("tickets at 5", rights_tickets_at(RECORDS, 5), record(5, DRAWER, RIGHT, OWNER, holders));
    same_record("tickets at 1,023", rights_tickets_at(RECORDS, 1023), record(0, 0, 0, 0, 0));
    same_record("tickets at 1,024", rights_tickets_at(RECORDS, 1024), record(0, 0, 0, 0, 0));
    same_record("tickets at 2^32 + 5", rights_tickets_at(RECORDS, (size_t)4294967296u + 5), record(0, 0, 0, 0, 0));
    same_record("tickets at the greatest", rights_tickets_at(RECORDS, SIZE_MAX), record(0, 0, 0, 0, 0));
    same_record("tickets at 4 of 5", rights_tickets_at(records, 5, 4), record(4, DRAWER, 0, OWNER, MEMBER(OWNER)));
    same_record("tickets at 5 of 5", rights_tickets_at(records, 5, 5), record(0, 0, 0, 0, 0));
    same_record("tickets at 0 of 0", rights_tickets_at(records, 0, 0), record(0, 0, 0, 0, 0));
    returned("tickets check of records", rights_tickets_check_records(RECORDS, HOLDER, DRAWER, RIGHT, &yes), 0);
    same("tickets check of records", "yes", yes, 1);
    yes = 77;
    returned("tickets check of records", rights_tickets_check_records(RECORDS, ROOT, DRAWER, RIGHT, &yes), 0);
    same("tickets check of records, no", "yes", yes, 0);
    yes = 77;
    returned("tickets check of records, right 8", rights_tickets_check_records(RECORDS, HOLDER, DRAWER, 8, &yes), 3);
    same("tickets check of records, right 8", "yes", yes, 0);
    yes = 77;
    returned("tickets check of records, places", rights_tickets_check_records(records, 1023, HOLDER, DRAWER, RIGHT, &yes), 1);
    same("tickets check of records, places", "yes", yes, 0);
    returned("tickets records, places", rights_tickets_records(TICKETS, records, RIGHTS_TICKETS_MAX - 1), 1);
    returned("tickets records, length", rights_tickets_records(SHORT_TICKETS, RECORDS), 1);
}

/* The records as the image has them now, by the header's layout, and a check over them. */
static void tickets_reread(const char *call, uint32_t who, uint32_t yes_due)
{
    uint32_t yes = 77;
    for (unsigned place = 0; place < RIGHTS_TICKETS_MAX; place++) {
        uint64_t word = tickets_due[2 + 2 * place];
        records_due[place] = record((uint32_t)(word % 4294967296u), word / 4294967296u % 256, word / 1099511627776u % 256,
                                    (unsigned)(word / 281474976710656u), tickets_due[3 + 2 * place]);
    }
    returned(call, rights_tickets_records(TICKETS, RECORDS), 0);
    returned(call, rights_tickets_check_records(RECORDS, who, DRAWER, RIGHT, &yes), 0);
    same(call, "yes", yes, yes_due);
}

/* The numbers of each command in their order; where two apply, the first. */
static void tickets_refusals(void)
{
    returned("tickets create, by 64", rights_tickets_create(TICKETS, 64, OWNER), 3);
    returned("tickets create, on 64", rights_tickets_create(TICKETS, ROOT, 64), 3);
    returned("tickets create, by dead", rights_tickets_create(TICKETS, DEAD, OWNER), 4);
    returned("tickets create, on lives", rights_tickets_create(TICKETS, ROOT, OWNER), 6);
    tickets_refuse("tickets generate, right 8", OWNER, DRAWER, 8, 3);
    tickets_refuse("tickets generate, on 64", OWNER, 64, RIGHT, 3);
    tickets_refuse("tickets generate, by dead", DEAD, DEAD, RIGHT, 4);
    tickets_refuse("tickets generate, on dead", OWNER, DEAD, RIGHT, 5);
    tickets_refuse("tickets generate, by a holder", HOLDER, DRAWER, RIGHT, 17);
    tickets_refuse("tickets generate, by the root", ROOT, DRAWER, RIGHT, 17);
    returned("tickets pass, to 64", rights_tickets_pass(TICKETS, OWNER, 64, 5), 3);
    returned("tickets pass, by dead", rights_tickets_pass(TICKETS, DEAD, DEAD, 5), 4);
    returned("tickets pass, to dead", rights_tickets_pass(TICKETS, OWNER, DEAD, 9), 5);
    returned("tickets pass, not held", rights_tickets_pass(TICKETS, HOLDER, OWNER, 4), 17);
    returned("tickets pass, by the root", rights_tickets_pass(TICKETS, ROOT, OWNER, 5), 17);
    returned("tickets pass, no such number", rights_tickets_pass(TICKETS, OWNER, HOLDER, 6), 17);
    returned("tickets pass, the greatest number", rights_tickets_pass(TICKETS, OWNER, HOLDER, UINT32_MAX), 17);
    returned("tickets remove, by 64", rights_tickets_remove(TICKETS, 64, 5), 3);
    returned("tickets remove, by dead", rights_tickets_remove(TICKETS, DEAD, 9), 4);
    returned("tickets remove, by a holder", rights_tickets_remove(TICKETS, HOLDER, 5), 17);
    returned("tickets remove, by the root", rights_tickets_remove(TICKETS, ROOT, 5), 17);
    returned("tickets remove, no such number", rights_tickets_remove(TICKETS, OWNER, 6), 17);
    returned("tickets delete, on 64", rights_tickets_delete(TICKETS, OWNER, 64), 3);
    returned("tickets delete, by dead", rights_tickets_delete(TICKETS, DEAD, ROOT), 4);
    returned("tickets delete, on dead", rights_tickets_delete(TICKETS, OWNER, DEAD), 5);
    returned("tickets delete, the root", rights_tickets_delete(TICKETS, OWNER, ROOT), 7);
    returned("tickets delete, by a holder", rights_tickets_delete(TICKETS, HOLDER, DRAWER), 17);
    returned("tickets delete, by the root", rights_tickets_delete(TICKETS, ROOT, DRAWER), 17);
}

/* Every call of the unit is refused so, whatever its other numbers are. */
static void tickets_all(const char *call, uint64_t *image, size_t words, uint32_t due)
{
    uint32_t number = 77, yes = 77;
    returned(call, rights_tickets_create(image, words, 64, DEAD), due);
    returned(call, rights_tickets_generate(image, words, 64, DRAWER, RIGHT, &number), due);
    same(call, "the ticket", number, 0);
    returned(call, rights_tickets_pass(image, words, 64, HOLDER, 5), due);
    returned(call, rights_tickets_remove(image, words, 64, 5), due);
    returned(call, rights_tickets_delete(image, words, 64, DRAWER), due);
    returned(call, rights_tickets_check(image, words, 64, DRAWER, RIGHT, &yes), due);
    same(call, "yes", yes, 0);
    returned(call, rights_tickets_inspect(image, words), due);
    returned(call, rights_tickets_records(image, words, RECORDS), due);
}

/* One word more than the image has, and the image in front of it; one record more than there are places. */
static void tickets_longer(void)
{
    static uint64_t longer[RIGHTS_TICKETS_WORDS + 1];
    static rights_ticket more[RIGHTS_TICKETS_MAX + 1], more_due[RIGHTS_TICKETS_MAX + 1];
    returned("tickets records, one more", rights_tickets_records(TICKETS, more, RIGHTS_TICKETS_MAX + 1), 1);
    same_bytes("tickets records, one more", "the records", more, more_due, sizeof more);
    memcpy(longer, tickets, sizeof tickets);
    tickets_all("tickets, one word more", longer, RIGHTS_TICKETS_WORDS + 1, 1);
    returned("tickets fresh, one word more", rights_tickets_fresh(longer, RIGHTS_TICKETS_WORDS + 1), 1);
    same_bytes("tickets, one word more", "the image", longer, tickets_due, TICKETS_SIZE);
    same("tickets, one word more", "the last word", longer[RIGHTS_TICKETS_WORDS], 0);
}

/* Nothing is wrong with the image but that item 0 is dead: its one ticket is the owner's, on the owner. */
static void tickets_rootless(void)
{
    static uint64_t before[RIGHTS_TICKETS_WORDS];
    memcpy(before, tickets, sizeof tickets);
    memset(tickets_due, 0, sizeof tickets_due);
    tickets_item(OWNER, 1);
    tickets_due[1] = 100;
    tickets_place(0, 0, OWNER, 0, OWNER, MEMBER(OWNER));
    memcpy(tickets, tickets_due, sizeof tickets);
    tickets_all("tickets, the root item dead and not named", TICKETS, 2);
    returned("tickets records, order and places", rights_tickets_records(TICKETS, records, RIGHTS_TICKETS_MAX - 1), 1);
    memcpy(tickets, before, sizeof tickets);
    memcpy(tickets_due, before, sizeof tickets);
}

/* A clause of in order is broken alone, in a word that is put back. */
static void tickets_broken(const char *call, unsigned word, uint64_t content)
{
    uint64_t before = tickets[word];
    tickets[word] = tickets_due[word] = content;
    tickets_all(call, TICKETS, 2);
    tickets[word] = tickets_due[word] = before;
}

static void tickets_order(void)
{
    const unsigned fifth = 12, next_to_last = 2 + 2 * 1022, last = 2 + 2 * 1023;
    const uint64_t word = tickets_due[12];
    tickets_all("tickets, length", SHORT_TICKETS, 1);
    tickets_all("tickets, no length", tickets, 0, 1);
    returned("tickets fresh, length", rights_tickets_fresh(SHORT_TICKETS), 1);
    tickets_longer();
    tickets_rootless();
    tickets_broken("tickets, the root item dead", 0, tickets_due[0] & ~MEMBER(ROOT));
    tickets_broken("tickets, the next beyond", 1, 4294967296u);
    tickets_broken("tickets, the greatest number is the next", 1, 5);
    tickets_broken("tickets, no holder", fifth + 1, 0);
    tickets_broken("tickets, a dead holder", fifth + 1, MEMBER(OWNER) | MEMBER(DEAD));
    tickets_broken("tickets, a dead item", fifth, word + (uint64_t)(DEAD - DRAWER) * 4294967296u);
    tickets_broken("tickets, item 64", fifth, word + (uint64_t)(64 - DRAWER) * 4294967296u);
    tickets_broken("tickets, right 8", fifth, word + (uint64_t)(8 - RIGHT) * 1099511627776u);
    tickets_broken("tickets, right 16 higher", fifth, word + (uint64_t)16 * 1099511627776u);
    tickets_broken("tickets, issuer 64", fifth, word + (uint64_t)(64 - OWNER) * 281474976710656u);
    tickets_broken("tickets, issuer 256 higher", fifth, word + (uint64_t)256 * 281474976710656u);
    tickets_broken("tickets, a number twice", fifth, word - 1);
    tickets_broken("tickets, the next number", fifth, word + 1);
    tickets_broken("tickets, a number without a holder", last, 1);
    tickets_broken("tickets, an issuer without a holder", next_to_last, 281474976710656u);
    tickets_broken("tickets, an item without a holder", last, 4294967296u);
    tickets_broken("tickets, a right without a holder", last, 1099511627776u);
    tickets_broken("tickets, ticket 0 again at the last place", last + 1, 1);
    returned("tickets inspect, again", rights_tickets_inspect(TICKETS), 0);
}

/*
 * The owner issues a second ticket of the right, which stays; with the first goes the right of those who had that alone. The owner is
 * deleted and made again: its tickets end but where others hold them, and it holds none.
 */
static void tickets_endings(void)
{
    tickets_generate(OWNER, DRAWER, RIGHT, 6, 6);
    tickets_place(6, 6, DRAWER, RIGHT, OWNER, MEMBER(OWNER) | MEMBER(BORROWER));
    returned("tickets pass", rights_tickets_pass(TICKETS, OWNER, BORROWER, 6), 0);
    tickets_vacant(5);
    returned("tickets remove", rights_tickets_remove(TICKETS, OWNER, 5), 0);
    returned("tickets remove, again", rights_tickets_remove(TICKETS, OWNER, 5), 17);
    tickets_check("tickets check, removed", HOLDER, DRAWER, RIGHT, 0, 0);
    tickets_check("tickets check, another ticket", BORROWER, DRAWER, RIGHT, 0, 1);
    tickets_place(4, 4, DRAWER, 0, OWNER, MEMBER(OWNER) | MEMBER(HOLDER));
    returned("tickets pass, edit", rights_tickets_pass(TICKETS, OWNER, HOLDER, 4), 0);
    tickets_generate(HOLDER, DRAWER, RIGHT, 5, 7);
    tickets_item(OWNER, 0);
    tickets_vacant(1);
    tickets_place(4, 4, DRAWER, 0, OWNER, MEMBER(HOLDER));
    tickets_place(6, 6, DRAWER, RIGHT, OWNER, MEMBER(BORROWER));
    returned("tickets delete, an issuer", rights_tickets_delete(TICKETS, ROOT, OWNER), 0);
    tickets_create(BORROWER, OWNER, 1, 8);
    tickets_check("tickets check, an issuer made again", OWNER, DRAWER, RIGHT, 0, 0);
    tickets_reread("tickets check of records, an issuer made again", OWNER, 0);
    returned("tickets pass, an issuer made again", rights_tickets_pass(TICKETS, OWNER, HOLDER, 6), 17);
    returned("tickets remove, an issuer made again", rights_tickets_remove(TICKETS, OWNER, 6), 17);
    returned("tickets pass, with another ticket for it and with edit", rights_tickets_pass(TICKETS, HOLDER, ROOT, 6), 17);
    tickets_item(DRAWER, 0);
    tickets_vacant(4);
    tickets_vacant(5);
    tickets_vacant(6);
    returned("tickets delete", rights_tickets_delete(TICKETS, HOLDER, DRAWER), 0);
    tickets_create(ROOT, DRAWER, 4, 9);
    tickets_check("tickets check, made again", BORROWER, DRAWER, RIGHT, 0, 0);
    tickets_item(BORROWER, 0);
    tickets_vacant(1);
    tickets_vacant(3);
    returned("tickets delete, the one holder", rights_tickets_delete(TICKETS, ROOT, BORROWER), 0);
    tickets_check("tickets check, the one holder", BORROWER, OWNER, 0, 0, 0);
}

/* 1,024 tickets live, then every number is used; 17 comes before 15, 15 before 16. A place anywhere is the next ticket's. */
static void tickets_full(void)
{
    uint32_t number = 10;
    tickets_generate(ROOT, ROOT, 1, 1, number++);
    tickets_generate(ROOT, ROOT, 2, 3, number++);
    for (unsigned place = 5; place < RIGHTS_TICKETS_MAX - 1; place++)
        tickets_generate(ROOT, ROOT, place % 8, place, number++);
    tickets_generate(ROOT, DRAWER, RIGHT, RIGHTS_TICKETS_MAX - 1, number);
    tickets_check("tickets check, by the last place", ROOT, DRAWER, RIGHT, 0, 1);
    tickets_reread("tickets check of records, by the last place", ROOT, 1);
    tickets_broken("tickets, full, a number twice at the ends", RIGHTS_TICKETS_WORDS - 2, tickets[RIGHTS_TICKETS_WORDS - 2] - number);
    tickets_refuse("tickets generate, full", ROOT, ROOT, RIGHT, 15);
    tickets_refuse("tickets generate, full and not held", HOLDER, DRAWER, RIGHT, 17);
    returned("tickets create, full", rights_tickets_create(TICKETS, ROOT, DEAD), 15);
    returned("tickets create, full and on lives", rights_tickets_create(TICKETS, ROOT, HOLDER), 6);
    tickets[1] = tickets_due[1] = 4294967295u;
    tickets_refuse("tickets generate, full and spent", ROOT, ROOT, RIGHT, 15);
    returned("tickets create, full and spent", rights_tickets_create(TICKETS, ROOT, DEAD), 15);
    tickets_vacant(700);
    returned("tickets remove, full", rights_tickets_remove(TICKETS, ROOT, 12 + 700 - 5), 0);
    tickets_refuse("tickets generate, spent", ROOT, ROOT, RIGHT, 16);
    tickets_refuse("tickets generate, spent and not held", HOLDER, DRAWER, RIGHT, 17);
    returned("tickets create, spent", rights_tickets_create(TICKETS, ROOT, DEAD), 16);
    returned("tickets create, spent and on lives", rights_tickets_create(TICKETS, ROOT, HOLDER), 6);
    tickets[1] = tickets_due[1] = 4294967294u;
    tickets_generate(ROOT, ROOT, 7, 700, 4294967294u);
    tickets_check("tickets check, the last number", ROOT, ROOT, 7, 0, 1);
    tickets_vacant(1023);
    returned("tickets remove, the last place", rights_tickets_remove(TICKETS, ROOT, 12 + 1023 - 5), 0);
    tickets_refuse("tickets generate, spent", ROOT, ROOT, RIGHT, 16);
}

/*
 * Two numbers alike in their low halves are two numbers. Ticket 0 goes, and its number names no ticket then, though records without a
 * ticket are all 0.
 */
static void tickets_numbers(void)
{
    tickets_start();
    tickets[1] = tickets_due[1] = 65536 + 5;
    tickets_generate(OWNER, DRAWER, SET_RIGHT, 6, 65536 + 5);
    returned("tickets inspect, low halves alike", rights_tickets_inspect(TICKETS), 0);
    tickets_place(6, 65536 + 5, DRAWER, SET_RIGHT, OWNER, MEMBER(OWNER) | MEMBER(ROOT));
    returned("tickets pass, low halves alike", rights_tickets_pass(TICKETS, OWNER, ROOT, 65536 + 5), 0);
    tickets_vacant(6);
    returned("tickets remove, low halves alike", rights_tickets_remove(TICKETS, OWNER, 65536 + 5), 0);
    returned("tickets remove, low halves alike", rights_tickets_remove(TICKETS, OWNER, 131072 + 5), 17);
    tickets_generate(ROOT, ROOT, 0, 6, 65536 + 6);
    tickets_vacant(0);
    returned("tickets remove, ticket 0", rights_tickets_remove(TICKETS, ROOT, 0), 0);
    returned("tickets remove, ticket 0 again", rights_tickets_remove(TICKETS, ROOT, 0), 17);
    returned("tickets pass, ticket 0", rights_tickets_pass(TICKETS, ROOT, OWNER, 0), 17);
    tickets_place(1, 1, OWNER, 0, ROOT, MEMBER(ROOT) | MEMBER(OWNER));
    returned("tickets pass, one's own", rights_tickets_pass(TICKETS, ROOT, OWNER, 1), 0);
    tickets_item(OWNER, 0);
    tickets_vacant(1);
    tickets_vacant(4);
    tickets_place(5, 5, DRAWER, RIGHT, OWNER, MEMBER(HOLDER) | MEMBER(BORROWER));
    returned("tickets delete, oneself", rights_tickets_delete(TICKETS, OWNER, OWNER), 0);
}

/* ---- which engine this is, and the texts */

static void engine(void)
{
    same("version", "the number", rights_version(), RIGHTS_VERSION);
    same("layout date", "the number", rights_layout_date(), RIGHTS_LAYOUT_DATE);
}

/* Every number has a text of its own, and every other number the same one. */
static void texts(void)
{
    const char *other = rights_text(RIGHTS_NO_TICKET + 1);
    same("text", "that of 4294967295 for no number", (uint64_t)strcmp(rights_text(UINT32_MAX), other), 0);
    for (uint32_t n = RIGHTS_DONE; n <= RIGHTS_NO_TICKET; n++) {
        same("text", "one of no letters", strlen(rights_text(n)) == 0, 0);
        same("text", "that of no number", strcmp(rights_text(n), other) == 0, 0);
        for (uint32_t m = RIGHTS_DONE; m < n; m++)
            same("text", "two numbers with one text", strcmp(rights_text(n), rights_text(m)) == 0, 0);
    }
    same("text of 0", "the word", (uint64_t)strcmp(rights_text(RIGHTS_DONE), "done"), 0);
}

int main(void)
{
    memset(lists, 0, sizeof lists);
    lists_grants();
    lists_answers();
    rows_grants();
    rows_answers();
    lists_sets();
    rows_sets();
    conversions();
    lists_endings();
    rows_endings();
    lists_lengths();
    rows_lengths();
    chains_grants();
    chains_sets();
    chains_loans();
    chains_answers();
    chains_drops();
    chains_dropped_edit();
    chains_refused_drops();
    chains_drop_limits();
    chains_shifts();
    chains_shift_limits();
    chains_refusals();
    chains_lengths();
    chains_endings();
    lenders_grants();
    lenders_loans();
    lenders_left();
    lenders_endings();
    lenders_full();
    lenders_limits();
    fewest_direct();
    fewest_own();
    fewest_equal();
    fewest_lender();
    fewest_greatest();
    fewest_longest();
    fewest_loops();
    fewest_shifts();
    fewest_ended();
    fewest_several();
    fewest_crowded();
    fewest_limits();
    sweep_none();
    sweep_each_shift();
    sweep_jumps();
    sweep_anybody();
    sweep_refusals();
    sweep_way_back();
    sweep_tables();
    sweep_checks();
    sweep_ways();
    tickets_start();
    tickets_answers();
    tickets_records();
    tickets_refusals();
    tickets_order();
    tickets_endings();
    tickets_full();
    tickets_numbers();
    engine();
    texts();
    printf("C calls: %u compared, %u differ\n", compared, differences);
    return differences == 0 ? 0 : 1;
}
