/*
 * The step machine (scope document, sections 2 to 6).
 *
 * Built otherwise than the packed map suggests: each operation that needs the
 * map unpacks all of it into one byte for each block, works on those bytes,
 * and packs back only the blocks whose code it changed. Nothing is kept
 * between operations, so a map that trusted stores have damaged is met as it
 * stands in RAM. Runs and segments are looked for from the heap's end
 * downward, not upward.
 */
#include "machine.h"

#include <stdbool.h>
#include <string.h>

enum {
    BLOCK = 8,                          /* bytes in a block */
    MOST_BLOCKS = MACHINE_RAM / BLOCK,
    HIGHEST = MACHINE_RAM - 1,          /* the last RAM byte */
    HIGHEST_JT = 64512,                 /* so that jt + 1024 is 65536 at most */
    DOMAIN_WORDS = 128,                 /* table words for each domain */
    TRUSTED_MORE = 14,                  /* continues a trusted segment */
    LOCAL_TAG = 255,
    LOCAL_FRAME = 3,                    /* site low, site high, tag */
    CROSS_FRAME = 5                     /* site, old bound, tag */
};

/* The map of one moment, unpacked (section 2). */
struct picture {
    unsigned blocks;                    /* n */
    unsigned heap, safe;                /* first block of each part */
    uint8_t code[MOST_BLOCKS];          /* the operation writes here */
    uint8_t was[MOST_BLOCKS];           /* as RAM has it */
};

/* Section 6: value 0 goes with every refusal. */
static struct machine_answer refuse(uint16_t number)
{
    struct machine_answer answer = { number, 0 };
    return answer;
}

/* Section 6: number 0 and a value. */
static struct machine_answer done(unsigned value)
{
    struct machine_answer answer = { 0, (uint16_t)value };
    return answer;
}

/* Sections 2 and 3: all configuration rules. int is wider than 16 bits here,
   so no sum below can wrap. */
static bool config_good(const struct machine_config *c)
{
    int i, j;

    if (c->bot % BLOCK || c->heap % BLOCK || c->safe % BLOCK || c->top % BLOCK)
        return false;
    if (c->bot >= c->top || c->top > MACHINE_RAM)
        return false;
    if (c->heap > c->safe || c->safe > c->top)
        return false;
    /* m is n / 2 rounded up, so m <= heap - bot says n <= 2 (heap - bot) */
    if (c->heap < c->bot || (c->top - c->bot) / BLOCK > 2 * (c->heap - c->bot))
        return false;
    if (c->jt > HIGHEST_JT)
        return false;
    for (i = 0; i < MACHINE_DOMAINS; i++) {
        if (c->code[i].start > c->code[i].end || c->code[i].end > c->jt)
            return false;
        /* two ranges share a word if the greater start is below the lesser
           end; with an empty range, whose start is its end, that cannot be,
           so empty ranges need no test of their own */
        for (j = 0; j < i; j++) {
            uint16_t low = c->code[i].start > c->code[j].start
                ? c->code[i].start : c->code[j].start;
            uint16_t high = c->code[i].end < c->code[j].end
                ? c->code[i].end : c->code[j].end;
            if (low < high)
                return false;
        }
    }
    return true;
}

/* Section 4: is the state good? */
static bool state_good(const struct machine_state *s)
{
    const struct machine_config *c = &s->config;

    return config_good(c)
        && s->domain < MACHINE_DOMAINS
        && s->bound + 1 >= c->top && s->bound <= HIGHEST
        && s->pointer >= c->safe && s->pointer <= c->top;
}

/* Section 6, numbers 1 and 3, which come first in all operations. */
static uint16_t first_refusal(const struct machine_state *s, bool lengths_right)
{
    return !lengths_right ? 1 : !state_good(s) ? 3 : 0;
}

/* Section 3: does this flash word lie in that domain's code range? */
static bool in_code(const struct machine_config *c, unsigned domain,
    uint16_t word)
{
    return c->code[domain].start <= word && word < c->code[domain].end;
}

/* Section 2: unpacks the map as RAM has it now. */
static void unpack(struct picture *p, const struct machine_config *c,
    const uint8_t *ram)
{
    const uint8_t *map = ram + c->bot;
    unsigned k;

    p->blocks = (unsigned)(c->top - c->bot) / BLOCK;
    p->heap = (unsigned)(c->heap - c->bot) / BLOCK;
    p->safe = (unsigned)(c->safe - c->bot) / BLOCK;
    for (k = 0; k < p->blocks; k++)
        p->was[k] = k % 2 ? map[k / 2] / 16 : map[k / 2] % 16;
    memcpy(p->code, p->was, p->blocks);
}

/* Section 2: packs back the blocks whose code was changed, and no others; the
   half that no block uses is therefore left alone. */
static void pack(const struct picture *p, const struct machine_config *c,
    uint8_t *ram)
{
    unsigned k;

    for (k = 0; k < p->blocks; k++) {
        uint8_t *half_pair = ram + c->bot + k / 2;
        if (p->code[k] == p->was[k])
            continue;
        if (k % 2)
            *half_pair = (uint8_t)(*half_pair % 16 + p->code[k] * 16);
        else
            *half_pair = (uint8_t)(*half_pair / 16 * 16 + p->code[k]);
    }
}

/* Section 2: makes blocks first to end - 1 one segment of a domain. */
static void write_segment(struct picture *p, unsigned first, unsigned end,
    unsigned domain)
{
    unsigned k;

    for (k = first; k < end; k++)
        p->code[k] = (uint8_t)(2 * domain + (k == first));
}

/* Section 2: does this code continue a segment of that owner? */
static bool continues(uint8_t code, unsigned owner)
{
    return code == 2 * owner;
}

/* Section 5, free and change: the end (first block after it) of the segment
   that starts at a heap block. Going down from the heap's end, the last block
   seen that does not continue the owner is the lowest such block. */
static unsigned segment_end(const struct picture *p, unsigned first)
{
    unsigned owner = p->code[first] / 2;
    unsigned end = p->safe;
    unsigned k;

    for (k = p->safe - 1; k > first; k--)
        if (!continues(p->code[k], owner))
            end = k;
    return end;
}

/* Section 5, free and change: the block whose first byte is at the address,
   if it is a heap block with an odd code that is not 15. */
static bool segment_start(const struct picture *p,
    const struct machine_config *c, uint16_t address, unsigned *block)
{
    if (address < c->heap || address >= c->safe || address % BLOCK)
        return false;
    *block = (unsigned)(address - c->bot) / BLOCK;
    return p->code[*block] % 2 == 1 && p->code[*block] != MACHINE_FREE;
}

/* Sections 2, 3, 4. */
struct machine_answer machine_setup(struct machine_state *state,
    const struct machine_config *config, uint8_t *ram, size_t ram_length)
{
    struct machine_config c = *config;  /* it may be the one inside state */
    struct picture p;
    unsigned k;

    memset(state, 0, sizeof *state);
    if (ram_length != MACHINE_RAM)
        return refuse(1);
    if (!config_good(&c))
        return refuse(2);
    unpack(&p, &c, ram);
    for (k = 0; k < p.blocks; k++) {
        bool heap_block = k >= p.heap && k < p.safe;
        bool starts = k == 0 || k == p.safe;
        p.code[k] = heap_block || starts ? MACHINE_FREE : TRUSTED_MORE;
    }
    pack(&p, &c, ram);
    if (p.blocks % 2)
        ram[c.bot + p.blocks / 2] |= 0xf0;  /* the unused half is 15 */
    state->config = c;
    state->domain = MACHINE_TRUSTED;
    state->bound = HIGHEST;
    state->pointer = c.safe;
    return done(0);
}

/* Section 5, store. */
struct machine_answer machine_store(struct machine_state *s,
    uint8_t *ram, size_t ram_length, uint16_t address, uint8_t byte)
{
    const struct machine_config *c = &s->config;
    uint16_t first = first_refusal(s, ram_length == MACHINE_RAM);

    if (first)
        return refuse(first);
    if (address > HIGHEST)
        return refuse(4);
    if (s->domain != MACHINE_TRUSTED) {
        if (address < c->bot)
            return refuse(5);
        if (address < c->top) {
            struct picture p;
            unpack(&p, c, ram);
            if (p.code[(address - c->bot) / BLOCK] / 2 != s->domain)
                return refuse(5);
        } else if (address > s->bound) {
            return refuse(6);
        }
    }
    ram[address] = byte;
    return done(0);
}

/* Section 5, call: the safe stack area and nothing else of RAM is handed in.
   False if the frame would pass its end. */
static bool push(uint8_t *area, unsigned area_length, unsigned used,
    const uint8_t *frame, unsigned frame_length)
{
    if (used + frame_length > area_length)
        return false;
    memcpy(area + used, frame, frame_length);
    return true;
}

/* Section 5, call. */
struct machine_answer machine_call(struct machine_state *s,
    uint8_t *ram, size_t ram_length,
    const uint16_t *table, size_t table_length,
    uint16_t target, uint16_t site, uint16_t stack)
{
    const struct machine_config *c = &s->config;
    uint16_t first = first_refusal(s,
        ram_length == MACHINE_RAM && table_length == MACHINE_TABLE);
    uint8_t frame[CROSS_FRAME];
    unsigned frame_length;
    struct machine_state after;
    uint16_t value;

    if (first)
        return refuse(first);
    if (!in_code(c, s->domain, site))
        return refuse(7);
    after = *s;
    frame[0] = (uint8_t)(site % 256);
    frame[1] = (uint8_t)(site / 256);
    if (target < c->jt) {
        if (!in_code(c, s->domain, target))
            return refuse(8);
        frame[2] = LOCAL_TAG;
        frame_length = LOCAL_FRAME;
        value = target;
    } else {
        unsigned word = (unsigned)(target - c->jt);
        unsigned called = word / DOMAIN_WORDS;
        if (word >= MACHINE_TABLE)
            return refuse(9);
        value = table[word];
        if (value == 0 || !in_code(c, called, value))
            return refuse(10);
        if (stack + 1 < c->top || stack > s->bound)
            return refuse(11);
        frame[2] = (uint8_t)(s->bound % 256);
        frame[3] = (uint8_t)(s->bound / 256);
        frame[4] = s->domain;
        frame_length = CROSS_FRAME;
        after.domain = (uint8_t)called;
        after.bound = stack;
    }
    if (!push(ram + c->safe, (unsigned)(c->top - c->safe),
            (unsigned)(s->pointer - c->safe), frame, frame_length))
        return refuse(12);
    after.pointer = (uint16_t)(s->pointer + frame_length);
    *s = after;
    return done(value);
}

/* Section 5, return: the used part of the safe stack area is handed in and
   the topmost frame read from it. Gives the frame's length, 0 for damage that
   can be seen without the code ranges. */
static unsigned top_frame(const uint8_t *used_area, unsigned used,
    uint16_t *site, uint16_t *old_bound, uint8_t *tag)
{
    unsigned length;
    const uint8_t *frame;

    *tag = used_area[used - 1];
    if (*tag == LOCAL_TAG)
        length = LOCAL_FRAME;
    else if (*tag < MACHINE_DOMAINS)
        length = CROSS_FRAME;
    else
        return 0;
    if (used < length)
        return 0;
    frame = used_area + used - length;
    *site = (uint16_t)(frame[0] + 256u * frame[1]);
    if (length == CROSS_FRAME)
        *old_bound = (uint16_t)(frame[2] + 256u * frame[3]);
    return length;
}

/* Section 5, return. RAM is only read: popped bytes stay. */
struct machine_answer machine_return(struct machine_state *s,
    uint8_t *ram, size_t ram_length)
{
    const struct machine_config *c = &s->config;
    uint16_t first = first_refusal(s, ram_length == MACHINE_RAM);
    uint16_t site = 0, old_bound = s->bound;  /* a local frame keeps both */
    uint8_t tag, domain = s->domain;
    unsigned length;

    if (first)
        return refuse(first);
    if (s->pointer == c->safe)
        return refuse(13);
    length = top_frame(ram + c->safe, (unsigned)(s->pointer - c->safe),
        &site, &old_bound, &tag);
    if (length == CROSS_FRAME)
        domain = tag;
    if (length == 0 || !in_code(c, domain, site)
        || old_bound < s->bound || old_bound > HIGHEST)
        return refuse(14);
    s->domain = domain;
    s->bound = old_bound;
    s->pointer = (uint16_t)(s->pointer - length);
    return done(site);
}

/* Section 5, malloc. Going down from the heap's end, the last block seen with
   enough free blocks from it upward starts the lowest run. */
struct machine_answer machine_malloc(struct machine_state *s,
    uint8_t *ram, size_t ram_length, uint16_t size)
{
    const struct machine_config *c = &s->config;
    uint16_t first = first_refusal(s, ram_length == MACHINE_RAM);
    unsigned need = size / (unsigned)BLOCK + (size % BLOCK != 0);
    unsigned run = 0, found = 0, k;
    struct picture p;

    if (first)
        return refuse(first);
    if (s->domain == MACHINE_TRUSTED)
        return refuse(15);
    if (size == 0)
        return refuse(16);
    unpack(&p, c, ram);
    for (k = p.safe; k-- > p.heap; ) {
        run = p.code[k] == MACHINE_FREE ? run + 1 : 0;
        if (run >= need)
            found = k;
    }
    if (found == 0)         /* block 0 holds the map, never heap */
        return refuse(17);
    write_segment(&p, found, found + need, s->domain);
    pack(&p, c, ram);
    return done(c->bot + BLOCK * found);
}

/* Section 5, free. */
struct machine_answer machine_free(struct machine_state *s,
    uint8_t *ram, size_t ram_length, uint16_t address)
{
    const struct machine_config *c = &s->config;
    uint16_t first = first_refusal(s, ram_length == MACHINE_RAM);
    struct picture p;
    unsigned start, end;

    if (first)
        return refuse(first);
    unpack(&p, c, ram);
    if (!segment_start(&p, c, address, &start))
        return refuse(18);
    if (p.code[start] / 2 != s->domain)
        return refuse(19);
    end = segment_end(&p, start);
    memset(p.code + start, MACHINE_FREE, end - start);
    pack(&p, c, ram);
    return done(end - start);
}

/* Section 5, change of owner. */
struct machine_answer machine_change(struct machine_state *s,
    uint8_t *ram, size_t ram_length, uint16_t address, uint8_t domain)
{
    const struct machine_config *c = &s->config;
    uint16_t first = first_refusal(s, ram_length == MACHINE_RAM);
    struct picture p;
    unsigned start, end;

    if (first)
        return refuse(first);
    unpack(&p, c, ram);
    if (!segment_start(&p, c, address, &start))
        return refuse(18);
    if (p.code[start] / 2 != s->domain)
        return refuse(19);
    if (domain >= MACHINE_TRUSTED)
        return refuse(20);
    end = segment_end(&p, start);
    write_segment(&p, start, end, domain);
    pack(&p, c, ram);
    return done(end - start);
}
