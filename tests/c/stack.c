/*
 * The greatest stack use of each function of rights.h: each call runs on a stack of its own that was painted before, and what it
 * painted over is counted, down from the frame of its caller. Every call is made on a fresh unit, on full tables in several shifts and
 * with ticket numbers in several shapes, and refused. Fails where a call used more than RIGHTS_STACK_BYTES, or a call of the ticket unit
 * more than RIGHTS_TICKETS_STACK_BYTES.
 */
#define _XOPEN_SOURCE 700
#include <stdio.h>
#include <stdlib.h>
#include <string.h>
#include <ucontext.h>

#include "rights.h"

enum { STACK = 64 * 1024, PAINT = 0xa5 };
enum { LENDER = 3, OTHER = 4, DRAWER = 9, RIGHT = 1, DEAD = 60, LAST = 4 };

static unsigned char stack[STACK];
static ucontext_t here, there;
static unsigned char *caller;

static uint64_t lists[RIGHTS_LISTS_WORDS];
static uint8_t rows[RIGHTS_ROWS_BYTES];
static uint8_t grants[RIGHTS_GRANTS_BYTES];
static uint32_t loans[RIGHTS_LOANS_WORDS];
static uint64_t tickets[RIGHTS_TICKETS_WORDS];
static rights_ticket records[RIGHTS_TICKETS_MAX], looked_at;

/* The set of every item but the dead one. */
#define SET (~((uint64_t)1 << DEAD))

static uint32_t number, yes, depth, persons, swept, ticket;
static uint64_t persons_set;
static uint8_t chain[RIGHTS_CHAIN_PERSONS];

#define LISTS lists, RIGHTS_LISTS_WORDS
#define ROWS rows, RIGHTS_ROWS_BYTES
#define UNIT grants, RIGHTS_GRANTS_BYTES, loans, RIGHTS_LOANS_WORDS
#define TICKETS tickets, RIGHTS_TICKETS_WORDS
#define RECORDS records, RIGHTS_TICKETS_MAX

/* Each call in a function of its own, whose frame is where counting begins. */
#define CALL(name, ...) \
    static void name(void) \
    { \
        unsigned char frame; \
        caller = &frame; \
        number = rights_##name(__VA_ARGS__); \
    }

/* The calls of a unit without depth, over its buffer. */
#define FLAT(unit, ...) \
    CALL(unit##_fresh, __VA_ARGS__) \
    CALL(unit##_create, __VA_ARGS__, 0, DEAD) \
    CALL(unit##_delete, __VA_ARGS__, 0, DEAD) \
    CALL(unit##_allow, __VA_ARGS__, 0, LENDER, DRAWER, RIGHT, 7) \
    CALL(unit##_allow_set, __VA_ARGS__, 0, SET, DRAWER, RIGHT, 7) \
    CALL(unit##_withdraw, __VA_ARGS__, 0, LENDER, DRAWER, RIGHT) \
    CALL(unit##_check, __VA_ARGS__, LENDER, DRAWER, RIGHT, &yes) \
    CALL(unit##_subjects, __VA_ARGS__, &persons_set) \
    CALL(unit##_inspect, __VA_ARGS__)

FLAT(lists, LISTS)
FLAT(rows, ROWS)
CALL(lists_to_rows, LISTS, ROWS)
CALL(rows_to_lists, ROWS, LISTS)
CALL(chains_fresh, UNIT)
CALL(chains_create, UNIT, 0, DEAD)
CALL(chains_delete, UNIT, 0, DEAD)
CALL(chains_allow, UNIT, 0, LENDER, DRAWER, RIGHT, 7)
CALL(chains_allow_set, UNIT, 0, SET, DRAWER, RIGHT, 7)
CALL(chains_withdraw, UNIT, 0, LENDER, DRAWER, RIGHT)
CALL(chains_drop, UNIT, 0, OTHER, DRAWER, RIGHT, OTHER)
CALL(chains_lend, UNIT, LENDER, 0, DRAWER, RIGHT, 7, LAST)
CALL(chains_recall, UNIT, LENDER, 0, DRAWER, RIGHT, 7, LAST)
CALL(chains_shift, UNIT, 0, LAST)
CALL(chains_sweep, UNIT, 0, &swept)
CALL(chains_check, UNIT, 0, DRAWER, RIGHT, chain, RIGHTS_CHAIN_PERSONS, &depth, &persons)
CALL(chains_inspect, UNIT)
CALL(tickets_fresh, TICKETS)
CALL(tickets_create, TICKETS, 0, DEAD)
CALL(tickets_generate, TICKETS, 0, DRAWER, RIGHT, &ticket)
CALL(tickets_pass, TICKETS, 0, LENDER, 0)
CALL(tickets_remove, TICKETS, 0, 0)
CALL(tickets_delete, TICKETS, 0, DEAD)
CALL(tickets_check, TICKETS, LENDER, DRAWER, RIGHT, &yes)
CALL(tickets_inspect, TICKETS)
CALL(tickets_records, TICKETS, RECORDS)
CALL(tickets_check_records, RECORDS, LENDER, DRAWER, RIGHT, &yes)
CALL(version, )
CALL(layout_date, )

/* The one call that gives no number back. */
static void tickets_at(void)
{
    unsigned char frame;
    caller = &frame;
    looked_at = rights_tickets_at(RECORDS, 1023);
}

/*
 * fresh stands last of its unit: it leaves nothing of the state that the others are measured on. drop and withdraw stand before allow
 * and allow_set: each ends the last grant of a lender, and its loans. sweep stands after shift, which makes loans past, and after all
 * that are measured beside them.
 */
static const struct {
    const char *name;
    void (*call)(void);
} calls[] = {
    {"lists_inspect", lists_inspect}, {"lists_check", lists_check}, {"lists_subjects", lists_subjects}, {"lists_allow", lists_allow},
    {"lists_allow_set", lists_allow_set}, {"lists_withdraw", lists_withdraw}, {"lists_create", lists_create},
    {"lists_delete", lists_delete}, {"lists_to_rows", lists_to_rows}, {"rows_inspect", rows_inspect}, {"rows_check", rows_check},
    {"rows_subjects", rows_subjects}, {"rows_allow", rows_allow}, {"rows_allow_set", rows_allow_set},
    {"rows_withdraw", rows_withdraw}, {"rows_create", rows_create}, {"rows_delete", rows_delete}, {"rows_to_lists", rows_to_lists},
    {"lists_fresh", lists_fresh}, {"rows_fresh", rows_fresh}, {"chains_inspect", chains_inspect}, {"chains_check", chains_check},
    {"chains_lend", chains_lend}, {"chains_recall", chains_recall}, {"chains_drop", chains_drop},
    {"chains_withdraw", chains_withdraw}, {"chains_allow", chains_allow}, {"chains_allow_set", chains_allow_set},
    {"chains_create", chains_create}, {"chains_delete", chains_delete}, {"chains_shift", chains_shift},
    {"chains_sweep", chains_sweep}, {"chains_fresh", chains_fresh}, {"tickets_inspect", tickets_inspect},
    {"tickets_check", tickets_check}, {"tickets_records", tickets_records}, {"tickets_at", tickets_at},
    {"tickets_check_records", tickets_check_records}, {"tickets_pass", tickets_pass}, {"tickets_generate", tickets_generate},
    {"tickets_create", tickets_create}, {"tickets_delete", tickets_delete}, {"tickets_remove", tickets_remove},
    {"tickets_fresh", tickets_fresh}, {"version", version}, {"layout_date", layout_date},
};
enum { CALLS = sizeof calls / sizeof calls[0] };

static size_t greatest[CALLS];

static size_t used_by(void (*call)(void))
{
    unsigned char *deepest = stack;
    memset(stack, PAINT, sizeof stack);
    getcontext(&there);
    there.uc_stack.ss_sp = stack;
    there.uc_stack.ss_size = sizeof stack;
    there.uc_link = &here;
    makecontext(&there, call, 0);
    swapcontext(&here, &there);
    while (*deepest == PAINT)
        deepest++;
    return (size_t)(caller - deepest);
}

static void measure(void)
{
    for (unsigned k = 0; k < CALLS; k++) {
        size_t used = used_by(calls[k].call);
        if (used > greatest[k])
            greatest[k] = used;
    }
}

static void must(uint32_t given)
{
    if (given != RIGHTS_DONE) {
        printf("stack: a state could not be made: %s\n", rights_text(given));
        exit(1);
    }
}

static void make_fresh(void)
{
    must(rights_lists_fresh(LISTS));
    must(rights_rows_fresh(ROWS));
    must(rights_chains_fresh(UNIT));
    must(rights_tickets_fresh(TICKETS));
}

/* The numbers of a full table: rising, falling, alike in the low half, in no order. */
static uint64_t shaped(unsigned shape, uint32_t place)
{
    switch (shape) {
    case 0: return place;
    case 1: return 1023 - place;
    case 2: return place * 65536;
    default: return place * 2654435761u % 4294967291u;
    }
}

/* So many tickets of right 0 live, in turn for the root item and the drawer, each held by every item that lives. */
static void make_tickets(uint32_t many, unsigned shape)
{
    memset(tickets, 0, sizeof tickets);
    tickets[0] = SET;
    tickets[1] = 4294967290u;
    for (uint32_t place = 0; place < many; place++) {
        tickets[2 + 2 * place] = shaped(shape, place) + (uint64_t)(place % 2 * DRAWER) * 4294967296u;
        tickets[3 + 2 * place] = SET;
    }
    must(rights_tickets_inspect(TICKETS));
}

/* A number stands twice, at the ends. */
static void make_twice(void)
{
    make_tickets(RIGHTS_TICKETS_MAX, 1);
    tickets[2 + 2 * 1023] = tickets[2];
}

/*
 * Every item but one lives, every person has the right on the item, and so many loans of that item and right stand, open-ended or with
 * last shift 1 to 4: past ones among them where the present shift is later.
 */
static void make_full(uint32_t many, uint32_t now)
{
    make_fresh();
    for (uint32_t on = 1; on < 64; on++) {
        if (on == DEAD)
            continue;
        must(rights_lists_create(LISTS, 0, on));
        must(rights_rows_create(ROWS, 0, on));
        must(rights_chains_create(UNIT, 0, on));
    }
    for (uint32_t to = 0; to < 60; to++) {
        must(rights_lists_allow(LISTS, 0, to, DRAWER, RIGHT, 7));
        must(rights_rows_allow(ROWS, 0, to, DRAWER, RIGHT, 7));
        must(rights_chains_allow(UNIT, 0, to, DRAWER, RIGHT, to % 8));
    }
    for (uint32_t n = 0; n < many; n++)
        must(rights_chains_lend(UNIT, n % 59 + 1, n / 59 + 1, DRAWER, RIGHT, n % 8, n % (LAST + 1)));
    must(rights_chains_shift(UNIT, 0, now));
}

/* No image is in order. */
static void make_damaged(void)
{
    memset(lists, 0, sizeof lists);
    memset(rows, 0, sizeof rows);
    memset(grants, 0, sizeof grants);
    memset(loans, 0, sizeof loans);
    memset(tickets, 0, sizeof tickets);
}

static int is_of_tickets(unsigned call)
{
    return strncmp(calls[call].name, "tickets_", 8) == 0;
}

/* The greatest use of the calls of the ticket unit, or of the others; whether it is within the limit. */
static int told(int of_tickets, int limit)
{
    unsigned most = CALLS;
    for (unsigned k = 0; k < CALLS; k++)
        if (is_of_tickets(k) == of_tickets && (most == CALLS || greatest[k] > greatest[most]))
            most = k;
    printf("stack: at most %lu bytes, by rights_%s; the header says %d\n", (unsigned long)greatest[most], calls[most].name, limit);
    return greatest[most] <= (size_t)limit;
}

int main(void)
{
    static const uint32_t loans_of_key[] = {0, 1, 16, 63, 64, 65, 200, 1023, 1024};
    static const uint32_t shifts[] = {0, 3, LAST + 1};
    static const uint32_t tickets_alive[] = {1, 2, 16, 64, 300, 1023, 1024};
    enum { SHIFTS = sizeof shifts / sizeof shifts[0] };
    int within;
    make_fresh();
    measure();
    for (unsigned k = 0; k < SHIFTS * (sizeof loans_of_key / sizeof loans_of_key[0]); k++) {
        make_full(loans_of_key[k / SHIFTS], shifts[k % SHIFTS]);
        measure();
    }
    for (unsigned k = 0; k < 4 * (sizeof tickets_alive / sizeof tickets_alive[0]); k++) {
        make_tickets(tickets_alive[k / 4], k % 4);
        measure();
    }
    make_twice();
    measure();
    make_damaged();
    measure();
    within = told(0, RIGHTS_STACK_BYTES);
    return told(1, RIGHTS_TICKETS_STACK_BYTES) && within ? 0 : 1;
}
