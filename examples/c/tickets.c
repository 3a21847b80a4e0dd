/*
 * A home on tickets. The sister makes the drawer, issues a ticket that opens it and passes it to a nurse, who passes it on to a relief
 * carer. May the relief carer open the drawer? Only the sister issues and takes back: the carer and the nurse are refused. Taken back,
 * the ticket is gone from everyone. The sister issues another for the relief carer and leaves the home. The relief carer's ticket stays,
 * but nobody holds one of right 0 on the drawer any more: the sister should have passed hers on first.
 *
 * Each call is written on a line: the command with its arguments, then the number that it returned and its text, and for generate the
 * number of the new ticket. A check that is not refused has yes or no there. Last come the live tickets, each with its place.
 */
#include <inttypes.h>
#include <stdio.h>

#include "rights.h"

enum { ROOT = 0, SISTER = 1, NURSE = 2, RELIEF_CARER = 3, DRAWER = 9 };
enum { OPEN = 1 };

static uint64_t image[RIGHTS_TICKETS_WORDS];
static rights_ticket tickets[RIGHTS_TICKETS_MAX];

static void show_number(uint32_t number)
{
    printf(": %" PRIu32 ", %s\n", number, rights_text(number));
}

static void fresh(void)
{
    uint32_t number = rights_tickets_fresh(image, RIGHTS_TICKETS_WORDS);
    printf("fresh");
    show_number(number);
}

static void create(uint32_t by, uint32_t on)
{
    uint32_t number = rights_tickets_create(image, RIGHTS_TICKETS_WORDS, by, on);
    printf("create by=%" PRIu32 " on=%" PRIu32, by, on);
    show_number(number);
}

/* The number of the new ticket; 0 where it was refused. */
static uint32_t generate(uint32_t by, uint32_t on, uint32_t right)
{
    uint32_t ticket;
    uint32_t number = rights_tickets_generate(image, RIGHTS_TICKETS_WORDS, by, on, right, &ticket);
    printf("generate by=%" PRIu32 " on=%" PRIu32 " right=%" PRIu32, by, on, right);
    if (number == RIGHTS_DONE)
        printf(": ticket %" PRIu32 "\n", ticket);
    else
        show_number(number);
    return ticket;
}

static void pass(uint32_t by, uint32_t to, uint32_t ticket)
{
    uint32_t number = rights_tickets_pass(image, RIGHTS_TICKETS_WORDS, by, to, ticket);
    printf("pass by=%" PRIu32 " to=%" PRIu32 " number=%" PRIu32, by, to, ticket);
    show_number(number);
}

static void remove_ticket(uint32_t by, uint32_t ticket)
{
    uint32_t number = rights_tickets_remove(image, RIGHTS_TICKETS_WORDS, by, ticket);
    printf("remove by=%" PRIu32 " number=%" PRIu32, by, ticket);
    show_number(number);
}

static void delete_item(uint32_t by, uint32_t on)
{
    uint32_t number = rights_tickets_delete(image, RIGHTS_TICKETS_WORDS, by, on);
    printf("delete by=%" PRIu32 " on=%" PRIu32, by, on);
    show_number(number);
}

static void check(uint32_t who, uint32_t on, uint32_t right)
{
    uint32_t yes;
    uint32_t number = rights_tickets_check(image, RIGHTS_TICKETS_WORDS, who, on, right, &yes);
    printf("check who=%" PRIu32 " on=%" PRIu32 " right=%" PRIu32, who, on, right);
    if (number != RIGHTS_DONE)
        show_number(number);
    else
        printf(": %s\n", yes ? "yes" : "no");
}

static void show_ticket(unsigned place, rights_ticket ticket)
{
    printf("place %u: ticket %" PRIu32 " on=%u right=%u issued by %u, held by", place, ticket.number, (unsigned)ticket.item,
           (unsigned)ticket.right, (unsigned)ticket.issuer);
    for (unsigned person = 0; person <= RIGHTS_ITEM_MAX; person++)
        if (ticket.holders >> person & 1)
            printf(" %u", person);
    printf("\n");
}

static void show_tickets(void)
{
    uint32_t number = rights_tickets_records(image, RIGHTS_TICKETS_WORDS, tickets, RIGHTS_TICKETS_MAX);
    printf("records");
    show_number(number);
    for (unsigned place = 0; place < RIGHTS_TICKETS_MAX; place++) {
        rights_ticket ticket = rights_tickets_at(tickets, RIGHTS_TICKETS_MAX, place);
        if (ticket.holders != 0)
            show_ticket(place, ticket);
    }
}

int main(void)
{
    uint32_t opens;
    if (rights_version() != RIGHTS_VERSION || rights_layout_date() != RIGHTS_LAYOUT_DATE) {
        fprintf(stderr, "rights.h and the library are not of one engine\n");
        return 1;
    }
    fresh();
    create(ROOT, SISTER);
    create(ROOT, NURSE);
    create(ROOT, RELIEF_CARER);
    create(SISTER, DRAWER);
    opens = generate(SISTER, DRAWER, OPEN);
    pass(SISTER, NURSE, opens);
    pass(NURSE, RELIEF_CARER, opens);
    check(RELIEF_CARER, DRAWER, OPEN);
    (void)generate(RELIEF_CARER, DRAWER, OPEN);
    remove_ticket(NURSE, opens);
    remove_ticket(SISTER, opens);
    check(RELIEF_CARER, DRAWER, OPEN);
    pass(NURSE, RELIEF_CARER, opens);
    opens = generate(SISTER, DRAWER, OPEN);
    pass(SISTER, RELIEF_CARER, opens);
    delete_item(ROOT, SISTER);
    check(RELIEF_CARER, DRAWER, OPEN);
    (void)generate(ROOT, DRAWER, OPEN);
    show_tickets();
    return 0;
}
