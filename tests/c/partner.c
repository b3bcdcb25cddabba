/*
 * The second program's machine behind the functions of include/hmt.h. What
 * the C layer adds to the machine (the slot, lengths, byte 47, an untouched
 * slot on a refusal) is written here a second time, from document 02 alone;
 * nothing of the header but its types is used, so that a mistake in its
 * constants is seen.
 */
#include "subject.h"
#include "machine.h"

static uint16_t number_at(const uint8_t *bytes, int at)
{
    return (uint16_t)(bytes[at] + 256 * bytes[at + 1]);
}

static uint8_t *put_number(uint8_t *at, unsigned number)
{
    at[0] = (uint8_t)(number % 256);
    at[1] = (uint8_t)(number / 256);
    return at + 2;
}

static void read_config(struct machine_config *c, const uint8_t *slot)
{
    int d;

    c->bot = number_at(slot, 0);
    c->heap = number_at(slot, 2);
    c->safe = number_at(slot, 4);
    c->top = number_at(slot, 6);
    c->jt = number_at(slot, 8);
    for (d = 0; d < MACHINE_DOMAINS; d++) {
        c->code[d].start = number_at(slot, 10 + 4 * d);
        c->code[d].end = number_at(slot, 12 + 4 * d);
    }
}

/* Writes all 48 bytes, one number after the other. */
static void write_state(uint8_t *slot, const struct machine_state *s)
{
    const struct machine_config *c = &s->config;
    uint8_t *at = slot;
    int d;

    at = put_number(at, c->bot);
    at = put_number(at, c->heap);
    at = put_number(at, c->safe);
    at = put_number(at, c->top);
    at = put_number(at, c->jt);
    for (d = 0; d < MACHINE_DOMAINS; d++) {
        at = put_number(at, c->code[d].start);
        at = put_number(at, c->code[d].end);
    }
    at = put_number(at, s->bound);
    at = put_number(at, s->pointer);
    *at++ = s->domain;
    *at = 0;
}

/* Reads the state; the refusal that the machine can't know, or 0. */
static uint32_t open_slot(struct machine_state *s, int lengths_right,
    const uint8_t *slot)
{
    if (!lengths_right)
        return 1;
    if (slot[47] != 0)
        return 3;
    read_config(&s->config, slot);
    s->bound = number_at(slot, 42);
    s->pointer = number_at(slot, 44);
    s->domain = slot[46];
    return 0;
}

/* A refusal leaves the slot as it was; the machine does so with RAM. */
static uint32_t close_slot(uint8_t *slot, const struct machine_state *s,
    struct machine_answer a)
{
    if (a.number == 0)
        write_state(slot, s);
    return a.number * 65536u + a.value;
}

static uint32_t partner_set_up(uint8_t *ram, size_t ram_len,
    uint8_t *slot, size_t slot_len)
{
    struct machine_config c;
    struct machine_state s;
    struct machine_answer a;

    if (ram_len != 4096 || slot_len != 48)
        return 1 * 65536;
    read_config(&c, slot);
    a = machine_setup(&s, &c, ram, ram_len);
    return close_slot(slot, &s, a);
}

static uint32_t partner_store(uint8_t *ram, size_t ram_len,
    uint8_t *slot, size_t slot_len, uint16_t address, uint8_t byte)
{
    struct machine_state s;
    uint32_t refusal = open_slot(&s, ram_len == 4096 && slot_len == 48, slot);

    if (refusal)
        return refusal * 65536;
    return close_slot(slot, &s, machine_store(&s, ram, ram_len, address, byte));
}

static uint32_t partner_call(uint8_t *ram, size_t ram_len,
    uint8_t *slot, size_t slot_len, const uint8_t *table, size_t table_len,
    uint16_t target, uint16_t site, uint16_t pointer)
{
    struct machine_state s;
    uint16_t words[MACHINE_TABLE];
    uint32_t refusal = open_slot(&s,
        ram_len == 4096 && slot_len == 48 && table_len == 2048, slot);
    int i;

    if (refusal)
        return refusal * 65536;
    for (i = 0; i < MACHINE_TABLE; i++)
        words[i] = number_at(table, 2 * i);
    return close_slot(slot, &s, machine_call(&s, ram, ram_len,
        words, MACHINE_TABLE, target, site, pointer));
}

static uint32_t partner_return(uint8_t *ram, size_t ram_len,
    uint8_t *slot, size_t slot_len)
{
    struct machine_state s;
    uint32_t refusal = open_slot(&s, ram_len == 4096 && slot_len == 48, slot);

    if (refusal)
        return refusal * 65536;
    return close_slot(slot, &s, machine_return(&s, ram, ram_len));
}

static uint32_t partner_malloc(uint8_t *ram, size_t ram_len,
    uint8_t *slot, size_t slot_len, uint16_t size)
{
    struct machine_state s;
    uint32_t refusal = open_slot(&s, ram_len == 4096 && slot_len == 48, slot);

    if (refusal)
        return refusal * 65536;
    return close_slot(slot, &s, machine_malloc(&s, ram, ram_len, size));
}

static uint32_t partner_free(uint8_t *ram, size_t ram_len,
    uint8_t *slot, size_t slot_len, uint16_t address)
{
    struct machine_state s;
    uint32_t refusal = open_slot(&s, ram_len == 4096 && slot_len == 48, slot);

    if (refusal)
        return refusal * 65536;
    return close_slot(slot, &s, machine_free(&s, ram, ram_len, address));
}

static uint32_t partner_change(uint8_t *ram, size_t ram_len,
    uint8_t *slot, size_t slot_len, uint16_t address, uint8_t domain)
{
    struct machine_state s;
    uint32_t refusal = open_slot(&s, ram_len == 4096 && slot_len == 48, slot);

    if (refusal)
        return refusal * 65536;
    return close_slot(slot, &s,
        machine_change(&s, ram, ram_len, address, domain));
}

const struct subject partner = {
    "partner", partner_set_up, partner_store, partner_call, partner_return,
    partner_malloc, partner_free, partner_change
};
