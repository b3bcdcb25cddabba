/*
 * A unit's main loop with two modules, and the incident that the protection is
 * for: the modem module goes on using a block that it has given back, while
 * the level module keeps its queue of stamps there.
 *
 * In a unit the compiler puts the check in place of each store, call and
 * return; here each is written out.
 */
#include "hmt.h"

#include <stdio.h>
#include <string.h>

enum { MODEM = 0, LEVEL = 1, TURNS = 3, QUEUE_BYTES = 12 };

/* The unit's memory, and what the runtime is lent beside it. */
static uint8_t ram[HMT_RAM_BYTES];
static uint8_t slot[HMT_SLOT_BYTES];
static uint8_t table[HMT_TABLE_BYTES];

#define UNIT ram, sizeof ram, slot, sizeof slot

static const struct hmt_config config = {
    256, 320, 448, 512,         /* bot, heap, safe, top */
    4096,                       /* jt */
    {
        { 100, 200 },           /* the modem's code */
        { 200, 300 },           /* the level's code */
        { 0, 0 }, { 0, 0 }, { 0, 0 }, { 0, 0 }, { 0, 0 },
        { 10, 100 }             /* trusted code */
    }
};

/* Where the main loop's calls return to, and its stack pointer there: a module
   may use the stack up to it. */
static const uint16_t loop_site = 50, loop_stack = 4000;

static int wrong;

static void expect(const char *what, int holds)
{
    if (!holds) {
        printf("  NOT AS IT SHOULD BE: %s\n", what);
        wrong = 1;
    }
}

/* ---- the modem module (domain 0) ---------------------------------------- */

static uint16_t message;        /* it never forgets this address: the mistake */

static void modem(int turn)
{
    static const char text[] = "CONNECT";
    uint32_t answer;
    unsigned i;

    if (turn == 1) {
        answer = hmt_malloc(UNIT, sizeof text);
        expect("the modem gets a block", HMT_NUMBER(answer) == HMT_DONE);
        message = HMT_VALUE(answer);
        for (i = 0; i < sizeof text; i++)
            expect("it writes its message", HMT_NUMBER(hmt_store(UNIT,
                (uint16_t)(message + i), (uint8_t)text[i])) == HMT_DONE);
        answer = hmt_free(UNIT, message);
        expect("it gives the block back", HMT_NUMBER(answer) == HMT_DONE);
        printf("turn %d: modem used block %u and gave it back\n", turn,
            (unsigned)message);
    } else {
        answer = hmt_store(UNIT, message, '!');
        expect("the late store is refused",
            HMT_NUMBER(answer) == HMT_NOT_YOURS);
        printf("turn %d: modem stores late into %u: refused, %u\n", turn,
            (unsigned)message, (unsigned)HMT_NUMBER(answer));
    }
}

/* ---- the level module (domain 1) ----------------------------------------- */

static uint16_t queue;
static uint8_t stamps;          /* how many it has put into its queue */

static uint8_t stamp_byte(unsigned i)
{
    return (uint8_t)(0x50 + i);
}

static void level(int turn)
{
    unsigned i;

    if (turn == 1) {
        uint32_t answer = hmt_malloc(UNIT, QUEUE_BYTES);
        expect("the level gets a queue", HMT_NUMBER(answer) == HMT_DONE);
        queue = HMT_VALUE(answer);
        printf("turn %d: level has its queue at %u\n", turn, (unsigned)queue);
    }
    for (i = 0; i < QUEUE_BYTES / TURNS; i++, stamps++)
        expect("it stores a stamp", HMT_NUMBER(hmt_store(UNIT,
            (uint16_t)(queue + stamps), stamp_byte(stamps))) == HMT_DONE);
    printf("turn %d: level has stored %u bytes of stamps\n", turn,
        (unsigned)stamps);
}

/* ---- the main loop (trusted) ---------------------------------------------- */

/* Calls entry 0 of a module through the jump table and comes back. */
static void enter(unsigned domain, void (*module)(int), int turn)
{
    uint16_t target = (uint16_t)(config.jt + HMT_TABLE_WORD(domain, 0));
    uint32_t answer = hmt_call(UNIT, table, sizeof table, target, loop_site,
        loop_stack);

    expect("the module is called", HMT_NUMBER(answer) == HMT_DONE
        && HMT_VALUE(answer) == config.code[domain].start);
    module(turn);
    answer = hmt_return(UNIT);
    expect("it returns to the loop", HMT_NUMBER(answer) == HMT_DONE
        && HMT_VALUE(answer) == loop_site);
}

int main(void)
{
    unsigned i;
    int turn;

    hmt_put_entry(table, HMT_TABLE_WORD(MODEM, 0), config.code[MODEM].start);
    hmt_put_entry(table, HMT_TABLE_WORD(LEVEL, 0), config.code[LEVEL].start);
    hmt_configure(slot, &config);
    expect("set-up is done", HMT_NUMBER(hmt_set_up(UNIT)) == HMT_DONE);
    for (turn = 1; turn <= TURNS; turn++) {
        enter(MODEM, modem, turn);
        enter(LEVEL, level, turn);
    }
    expect("the level's queue lies where the message was", queue == message);
    printf("the stamps:");
    for (i = 0; i < QUEUE_BYTES; i++) {
        printf(" %02x", ram[queue + i]);
        expect("a stamp is intact", ram[queue + i] == stamp_byte(i));
    }
    printf(wrong ? "\nsomething is wrong\n" : "\nall as they were stored\n");
    return wrong;
}
