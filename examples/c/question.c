/*
 * A nurse's question at the drawer. The nurse has a grant of depth 2 and lends it to a colleague, who lends it on to a relief carer,
 * both with no last shift. May the relief carer open the drawer, and through whom? And after the nurse's grant is withdrawn? Given
 * back, the right starts clean: the nurse's loan has ended, and the colleague may not. Last, a command that is refused: the nurse may
 * not edit the drawer.
 *
 * Each call is written on a line: the command with its arguments, then the number that it returned and its text. A check that is not
 * refused has yes or no there; yes comes with the depth and the persons of the chain.
 */
#include <inttypes.h>
#include <stdio.h>

#include "rights.h"

enum { ROOT = 0, NURSE = 3, COLLEAGUE = 4, RELIEF_CARER = 5, DRAWER = 9 };
enum { OPEN = 1 };
enum { OPEN_ENDED = 0 };

static uint8_t grants[RIGHTS_GRANTS_BYTES];
static uint32_t loans[RIGHTS_LOANS_WORDS];

static void show_number(uint32_t number)
{
    printf(": %" PRIu32 ", %s\n", number, rights_text(number));
}

static void fresh(void)
{
    uint32_t number = rights_chains_fresh(grants, RIGHTS_GRANTS_BYTES, loans, RIGHTS_LOANS_WORDS);
    printf("fresh");
    show_number(number);
}

static void create(uint32_t by, uint32_t on)
{
    uint32_t number = rights_chains_create(grants, RIGHTS_GRANTS_BYTES, loans, RIGHTS_LOANS_WORDS, by, on);
    printf("create by=%" PRIu32 " on=%" PRIu32, by, on);
    show_number(number);
}

/* The arguments that allow, withdraw and lend share. */
static void show(const char *command, uint32_t by, uint32_t to, uint32_t on, uint32_t right)
{
    printf("%s by=%" PRIu32 " to=%" PRIu32 " on=%" PRIu32 " right=%" PRIu32, command, by, to, on, right);
}

static void allow(uint32_t by, uint32_t to, uint32_t on, uint32_t right, uint32_t depth)
{
    uint32_t number = rights_chains_allow(grants, RIGHTS_GRANTS_BYTES, loans, RIGHTS_LOANS_WORDS, by, to, on, right, depth);
    show("allow", by, to, on, right);
    printf(" depth=%" PRIu32, depth);
    show_number(number);
}

static void lend(uint32_t by, uint32_t to, uint32_t on, uint32_t right, uint32_t depth, uint32_t last)
{
    uint32_t number = rights_chains_lend(grants, RIGHTS_GRANTS_BYTES, loans, RIGHTS_LOANS_WORDS, by, to, on, right, depth, last);
    show("lend", by, to, on, right);
    printf(" depth=%" PRIu32 " last=%" PRIu32, depth, last);
    show_number(number);
}

static void withdraw(uint32_t by, uint32_t to, uint32_t on, uint32_t right)
{
    uint32_t number = rights_chains_withdraw(grants, RIGHTS_GRANTS_BYTES, loans, RIGHTS_LOANS_WORDS, by, to, on, right);
    show("withdraw", by, to, on, right);
    show_number(number);
}

static void show_chain(const uint8_t *chain, uint32_t persons)
{
    for (uint32_t k = 0; k < persons; k++)
        printf("%s%u", k == 0 ? "" : ",", (unsigned)chain[k]);
    printf("\n");
}

static void check(uint32_t who, uint32_t on, uint32_t right)
{
    uint8_t chain[RIGHTS_CHAIN_PERSONS] = {0};
    uint32_t depth, persons;
    uint32_t number = rights_chains_check(grants, RIGHTS_GRANTS_BYTES, loans, RIGHTS_LOANS_WORDS, who, on, right, chain,
                                          RIGHTS_CHAIN_PERSONS, &depth, &persons);
    printf("check who=%" PRIu32 " on=%" PRIu32 " right=%" PRIu32, who, on, right);
    if (number != RIGHTS_DONE) {
        show_number(number);
    } else if (persons == 0) {
        printf(": no\n");
    } else {
        printf(": yes depth=%" PRIu32 " via=", depth);
        show_chain(chain, persons);
    }
}

int main(void)
{
    if (rights_version() != RIGHTS_VERSION || rights_layout_date() != RIGHTS_LAYOUT_DATE) {
        fprintf(stderr, "rights.h and the library are not of one engine\n");
        return 1;
    }
    fresh();
    create(ROOT, NURSE);
    create(ROOT, COLLEAGUE);
    create(ROOT, RELIEF_CARER);
    create(ROOT, DRAWER);
    allow(ROOT, NURSE, DRAWER, OPEN, 2);
    lend(NURSE, COLLEAGUE, DRAWER, OPEN, 1, OPEN_ENDED);
    lend(COLLEAGUE, RELIEF_CARER, DRAWER, OPEN, 0, OPEN_ENDED);
    check(RELIEF_CARER, DRAWER, OPEN);
    withdraw(ROOT, NURSE, DRAWER, OPEN);
    check(RELIEF_CARER, DRAWER, OPEN);
    allow(ROOT, NURSE, DRAWER, OPEN, 2);
    check(COLLEAGUE, DRAWER, OPEN);
    withdraw(NURSE, COLLEAGUE, DRAWER, OPEN);
    return 0;
}
