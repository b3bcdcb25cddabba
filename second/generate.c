/*
 * Seeded generator of scripts: generate SEED > script
 *
 * The same seed gives the same bytes on every machine; for that no expression
 * draws twice where C leaves the order open. The seed chooses the kind of
 * script (the list at the end) and, for kinds that go through a list of rules
 * or edges, the place in that list; neighbouring seeds therefore cover all of
 * it. The machine runs along, so that the generator knows the state and can
 * steer to where something happens.
 */
#include "machine.h"

#include <stdbool.h>
#include <stdio.h>
#include <stdlib.h>
#include <string.h>

enum {
    LONGEST = 65536,                    /* bytes in a script that runs */
    HEADER = 48,                        /* bytes before the table pairs */
    MOST_PAIRS = (LONGEST - HEADER) / 4,
    WORDS = 128                         /* table words for each domain */
};

#define COUNT(list) (sizeof (list) / sizeof (list)[0])

struct maker {
    uint64_t random;
    unsigned place;                     /* place in a kind's list */
    struct machine_config config;
    struct { uint16_t index, entry; } pair[MOST_PAIRS];
    unsigned pairs;
    uint8_t script[LONGEST + 64];
    size_t length, limit;               /* limit: no operation past it */
    bool full;                          /* an operation did not fit */
    struct machine_state state;         /* the machine that runs along */
    uint8_t ram[MACHINE_RAM];
    uint16_t table[MACHINE_TABLE];
};

/* ---- chance ---------------------------------------------------------- */

/* splitmix64: whole numbers only, so the same everywhere. */
static uint32_t draw32(struct maker *g)
{
    uint64_t z = g->random += 0x9e3779b97f4a7c15u;
    z = (z ^ (z >> 30)) * 0xbf58476d1ce4e5b9u;
    z = (z ^ (z >> 27)) * 0x94d049bb133111ebu;
    return (uint32_t)((z ^ (z >> 31)) >> 32);
}

/* 0 to n - 1; n is at least 1. */
static unsigned below(struct maker *g, unsigned n)
{
    return (unsigned)(((uint64_t)draw32(g) * n) >> 32);
}

/* low to high, both included. */
static unsigned between(struct maker *g, unsigned low, unsigned high)
{
    return low + below(g, high - low + 1);
}

static bool percent(struct maker *g, unsigned chance)
{
    return below(g, 100) < chance;
}

/* ---- bytes ----------------------------------------------------------- */

static void put8(struct maker *g, unsigned byte)
{
    if (g->length < sizeof g->script)
        g->script[g->length++] = (uint8_t)byte;
}

static void put16(struct maker *g, unsigned number)
{
    put8(g, number % 256);
    put8(g, number / 256 % 256);
}

/* Section 7: writes the header, sets the machine up. False if refused; then
   no operation is written either. */
static bool begin(struct maker *g)
{
    unsigned i;

    put8(g, 'H');
    put8(g, 'M');
    put8(g, 'T');
    put8(g, 1);
    put16(g, g->config.bot);
    put16(g, g->config.heap);
    put16(g, g->config.safe);
    put16(g, g->config.top);
    put16(g, g->config.jt);
    for (i = 0; i < MACHINE_DOMAINS; i++) {
        put16(g, g->config.code[i].start);
        put16(g, g->config.code[i].end);
    }
    put16(g, g->pairs);
    for (i = 0; i < g->pairs; i++) {
        put16(g, g->pair[i].index);
        put16(g, g->pair[i].entry);
        if (g->pair[i].index < MACHINE_TABLE)
            g->table[g->pair[i].index] = g->pair[i].entry;
    }
    g->full = machine_setup(&g->state, &g->config, g->ram,
        MACHINE_RAM).number != 0;
    return !g->full;
}

/* Is there room for an operation of so many bytes? */
static bool room(struct maker *g, size_t bytes)
{
    if (g->length + bytes > g->limit)
        g->full = true;
    return !g->full;
}

/* The operations: written and run along. 99 if there is no room. */
static unsigned store(struct maker *g, unsigned address, unsigned byte)
{
    if (!room(g, 4))
        return 99;
    put8(g, 1);
    put16(g, address);
    put8(g, byte);
    return machine_store(&g->state, g->ram, MACHINE_RAM, (uint16_t)address,
        (uint8_t)byte).number;
}

/* A store of any byte. */
static unsigned store_any(struct maker *g, unsigned address)
{
    return store(g, address, below(g, 256));
}

static unsigned call(struct maker *g, unsigned target, unsigned site,
    unsigned stack)
{
    if (!room(g, 7))
        return 99;
    put8(g, 2);
    put16(g, target);
    put16(g, site);
    put16(g, stack);
    return machine_call(&g->state, g->ram, MACHINE_RAM, g->table,
        MACHINE_TABLE, (uint16_t)target, (uint16_t)site,
        (uint16_t)stack).number;
}

static unsigned back(struct maker *g)
{
    if (!room(g, 1))
        return 99;
    put8(g, 3);
    return machine_return(&g->state, g->ram, MACHINE_RAM).number;
}

static unsigned take(struct maker *g, unsigned size)
{
    if (!room(g, 3))
        return 99;
    put8(g, 4);
    put16(g, size);
    return machine_malloc(&g->state, g->ram, MACHINE_RAM,
        (uint16_t)size).number;
}

static unsigned give(struct maker *g, unsigned address)
{
    if (!room(g, 3))
        return 99;
    put8(g, 5);
    put16(g, address);
    return machine_free(&g->state, g->ram, MACHINE_RAM,
        (uint16_t)address).number;
}

static unsigned change(struct maker *g, unsigned address, unsigned domain)
{
    if (!room(g, 4))
        return 99;
    put8(g, 6);
    put16(g, address);
    put8(g, domain);
    return machine_change(&g->state, g->ram, MACHINE_RAM, (uint16_t)address,
        (uint8_t)domain).number;
}

/* ---- configurations -------------------------------------------------- */

/* Lays out the protected range in blocks: heap blocks, safe stack blocks and
   blocks to spare between map and heap, shrunk until they fit; bot anywhere
   that leaves room, or 0, or as high as can be (top 4096). */
enum where { ANYWHERE, LOWEST, HIGHEST };

static void lay_out(struct maker *g, unsigned heap, unsigned safe,
    unsigned spare, enum where where)
{
    unsigned under = 1, n, bot;

    for (;;) {
        while (16 * under < under + spare + heap + safe)
            under++;                    /* 2 codes in a byte, 16 in a block */
        n = under + spare + heap + safe;
        if (n <= MACHINE_RAM / 8)
            break;
        under = 1;
        spare /= 2;
        if (heap >= safe)
            heap = heap * 9 / 10;
        else
            safe = safe * 9 / 10;
    }
    bot = where == LOWEST ? 0 : where == HIGHEST ? MACHINE_RAM / 8 - n
        : below(g, MACHINE_RAM / 8 - n + 1);
    g->config.bot = (uint16_t)(8 * bot);
    g->config.heap = (uint16_t)(8 * (bot + under + spare));
    g->config.safe = (uint16_t)(8 * (bot + under + spare + heap));
    g->config.top = (uint16_t)(8 * (bot + n));
}

/* The same with heap and safe stack area of any size between limits. */
static void lay_between(struct maker *g, unsigned heap_low,
    unsigned heap_high, unsigned safe_low, unsigned safe_high,
    unsigned spare_high)
{
    unsigned heap = between(g, heap_low, heap_high);
    unsigned safe = between(g, safe_low, safe_high);
    unsigned spare = between(g, 0, spare_high);

    lay_out(g, heap, safe, spare, ANYWHERE);
}

/* Code ranges: each domain one eighth of the flash below jt, in any order,
   with or without a gap to its neighbours. Domains not in `used` (one bit for
   each) get an empty range anywhere, also inside another one. */
static void lay_code(struct maker *g, unsigned jt, unsigned used)
{
    unsigned order[MACHINE_DOMAINS], i;
    unsigned span = jt / MACHINE_DOMAINS;

    g->config.jt = (uint16_t)jt;
    for (i = 0; i < MACHINE_DOMAINS; i++) {
        unsigned other = below(g, i + 1);
        order[i] = order[other];
        order[other] = i;
    }
    for (i = 0; i < MACHINE_DOMAINS; i++) {
        unsigned start = order[i] * span, end = start + span;
        if (!(used >> i & 1))
            start = end = below(g, jt + 1);
        else if (span > 4) {
            start += percent(g, 50) ? 0 : below(g, span / 2);
            end -= percent(g, 50) ? 0 : below(g, span / 2);
        }
        if (order[i] == 7 && used >> i & 1 && percent(g, 50))
            end = jt;                   /* up to the last word below jt */
        g->config.code[i].start = (uint16_t)start;
        g->config.code[i].end = (uint16_t)end;
    }
}

static void add_pair(struct maker *g, unsigned index, unsigned entry)
{
    if (g->pairs < MOST_PAIRS) {
        g->pair[g->pairs].index = (uint16_t)index;
        g->pair[g->pairs++].entry = (uint16_t)entry;
    }
}

/* An entry for a domain: good ones if there can be, or one just outside. */
static unsigned some_entry(struct maker *g, unsigned domain, bool good)
{
    unsigned start = g->config.code[domain].start;
    unsigned end = g->config.code[domain].end;

    if (good && start < end)
        switch (below(g, 3)) {
        case 0: return start;
        case 1: return end - 1;
        default: return between(g, start, end - 1);
        }
    switch (below(g, 5)) {
    case 0: return 0;
    case 1: return start - 1;           /* 65535 if start is 0 */
    case 2: return end;
    case 3: return g->config.jt;
    default: return below(g, 65536);
    }
}

/* Table: for each domain a good entry in its first and last word or
   elsewhere, some that are not good, some given twice (later ones win). */
static void lay_table(struct maker *g)
{
    unsigned domain, i;

    for (domain = 0; domain < MACHINE_DOMAINS; domain++) {
        unsigned base = domain * WORDS, word, good = between(g, 1, 3);
        for (i = 0; i < 3 + good; i++) {
            word = base + below(g, WORDS);
            add_pair(g, word, some_entry(g, domain, i >= 3));
        }
        add_pair(g, base, some_entry(g, domain, percent(g, 75)));
        add_pair(g, base + 127, some_entry(g, domain, percent(g, 75)));
    }
}

/* A good configuration of middling size: what most kinds start from. */
static void usual(struct maker *g)
{
    static const uint16_t jts[] = { 4096, 64512, 800, 1024, 32768 };
    unsigned heap = between(g, 4, percent(g, 30) ? 400 : 60);
    unsigned safe = between(g, 2, percent(g, 20) ? 60 : 16);
    unsigned spare = below(g, 4);
    unsigned used = percent(g, 60) ? 0xff : 0x81u | below(g, 256);

    lay_out(g, heap, safe, spare,
        (enum where)(percent(g, 70) ? ANYWHERE : 1 + below(g, 2)));
    lay_code(g, jts[below(g, COUNT(jts))], used);
    lay_table(g);
}

/* ---- values that meet a limit ---------------------------------------- */

static unsigned edge_address(struct maker *g)
{
    const struct machine_config *c = &g->config;

    switch (below(g, 20)) {
    case 0: return c->bot - 1u;         /* 65535 if bot is 0 */
    case 1: return c->bot;
    case 2: return c->heap - 1u;
    case 3: return c->heap;
    case 4: return c->safe - 1u;
    case 5: return c->safe;
    case 6: return c->top - 1u;
    case 7: return c->top;
    case 8: return g->state.bound;
    case 9: return g->state.bound + 1u;
    case 10: return 4095;
    case 11: return 4096;
    case 12: return 65535;
    case 13: return g->state.pointer;
    case 14: return below(g, 65536);
    case 15: return c->bot + (c->top - c->bot) / 16u;  /* at the map's end */
    case 16: return c->bot + below(g, (c->top - c->bot + 15u) / 16);  /* map */
    case 17: return g->state.pointer - between(g, 1, 5);    /* a frame */
    default: return below(g, MACHINE_RAM);
    }
}

static unsigned edge_stack(struct maker *g)
{
    switch (below(g, 9)) {
    case 0: return g->config.top - 2u;
    case 1: return g->config.top - 1u;
    case 2: return g->state.bound;
    case 3: return g->state.bound + 1u;
    case 4: return 4095;
    case 5: return 4096;
    case 6: return below(g, 65536);
    default: return between(g, g->config.top - 1u, g->state.bound);
    }
}

/* A flash word near an end of the current (or of any) code range. */
static unsigned edge_word(struct maker *g)
{
    unsigned d = percent(g, 80) ? g->state.domain : below(g, MACHINE_DOMAINS);
    unsigned start = g->config.code[d].start, end = g->config.code[d].end;

    switch (below(g, 8)) {
    case 0: return start - 1;
    case 1: return end;
    case 2: return start;
    case 3: return end - 1;
    case 4: return below(g, 65536);
    default: return start < end ? between(g, start, end - 1) : start;
    }
}

static unsigned edge_target(struct maker *g)
{
    unsigned jt = g->config.jt, end;

    switch (below(g, 12)) {
    case 0: return jt - 1;
    case 1: return jt;
    case 2: return jt + 1023;
    case 3: return jt + 1024;           /* 0 if jt is 64512: a local call */
    case 4: return 65535;
    case 5: return below(g, 65536);
    case 6: return jt + below(g, MACHINE_TABLE);
    case 7:                             /* an end of a domain's words */
        end = below(g, 16);
        return jt + WORDS * (end / 2) + 127 * (end % 2);
    case 8: return g->pairs ? jt + g->pair[below(g, g->pairs)].index : 0;
    default: return edge_word(g);
    }
}

static unsigned edge_size(struct maker *g)
{
    static const uint16_t sizes[] = { 0, 1, 7, 8, 9, 16, 17, 65528, 65535 };
    unsigned heap = g->config.safe - (unsigned)g->config.heap;

    switch (below(g, 6)) {
    case 0: return heap;
    case 1: return heap + 1;
    case 2: return heap ? below(g, heap) : 1;
    case 3: return between(g, 1, 64);
    default: return sizes[below(g, COUNT(sizes))];
    }
}

static unsigned edge_domain(struct maker *g)
{
    static const uint8_t domains[] = { 7, 8, 255 };

    return percent(g, 75) ? below(g, 7) : domains[below(g, COUNT(domains))];
}

/* ---- looking at the map ---------------------------------------------- */

static unsigned blocks(const struct maker *g)
{
    return (unsigned)(g->config.top - g->config.bot) / 8;
}

static unsigned code_of(const struct maker *g, unsigned block)
{
    unsigned pair = g->ram[g->config.bot + block / 2];
    return block % 2 ? pair / 16 : pair % 16;
}

/* A block of the heap (or of the whole map) with a code from low to high, by
   chance among all; false if there is none. */
static bool find_block(struct maker *g, bool whole, unsigned low,
    unsigned high, unsigned *block)
{
    unsigned first = whole ? 0 : (g->config.heap - g->config.bot) / 8u;
    unsigned end = whole ? blocks(g) : (g->config.safe - g->config.bot) / 8u;
    unsigned seen = 0, k;

    for (k = first; k < end; k++)
        if (code_of(g, k) >= low && code_of(g, k) <= high
            && below(g, ++seen) == 0)
            *block = k;
    return seen > 0;
}

/* An address for free or change: mostly a segment's start of the current
   domain, or of another one, or something beside it. */
static unsigned edge_segment(struct maker *g)
{
    unsigned block, own = 2u * g->state.domain + 1;

    switch (below(g, 8)) {
    case 0: return edge_address(g);
    case 1: return g->config.heap - 8u * below(g, 2);
    case 2: return g->config.safe - 8u * below(g, 2);
    case 3:
        if (find_block(g, false, 0, 13, &block))
            return g->config.bot + 8 * block + (percent(g, 70) ? 0
                : between(g, 1, 8));
        return g->config.heap;
    default:
        if (g->state.domain < 7 && find_block(g, false, own, own, &block))
            return g->config.bot + 8 * block;
        if (find_block(g, false, 0, 13, &block))
            return g->config.bot + 8 * block;
        return g->config.heap;
    }
}

/* ---- steps ----------------------------------------------------------- */

/* A site in the current code range; false if the range is empty. */
static bool own_word(struct maker *g, unsigned *word)
{
    unsigned start = g->config.code[g->state.domain].start;
    unsigned end = g->config.code[g->state.domain].end;

    if (start >= end)
        return false;
    *word = between(g, start, end - 1);
    return true;
}

/* A cross-domain call into a domain, with a pointer near the bound so that
   stack is left for more. False if no entry is good or the call is refused. */
static bool go_to(struct maker *g, unsigned domain)
{
    unsigned from = below(g, WORDS), i, site, gap;

    if (!own_word(g, &site))
        return false;
    gap = g->state.bound + 1u - g->config.top;
    gap = below(g, (gap > 12 ? 12 : gap) + 1);
    for (i = 0; i < WORDS; i++) {
        unsigned word = domain * WORDS + (from + i) % WORDS;
        unsigned entry = g->table[word];
        if (entry != 0 && entry >= g->config.code[domain].start
            && entry < g->config.code[domain].end)
            return call(g, g->config.jt + word, site, g->state.bound - gap)
                == 0;
    }
    return false;
}

static bool go_local(struct maker *g)
{
    unsigned site, target;

    return own_word(g, &site) && own_word(g, &target)
        && call(g, target, site, below(g, 65536)) == 0;
}

/* Back until nothing is left to go back to or a frame is damaged. */
static void unwind(struct maker *g)
{
    while (back(g) == 0)
        ;
}

/* Into the trusted domain, by going back or by calling it. */
static bool go_trusted(struct maker *g)
{
    while (g->state.domain != 7)
        if (percent(g, 50) ? !go_to(g, 7) : back(g) != 0)
            return g->state.domain == 7 || go_to(g, 7);
    return true;
}

/* A store that is allowed and, from domain 7, harms nothing. */
static void good_store(struct maker *g)
{
    unsigned own = 2u * g->state.domain, block;
    bool stack = g->state.bound >= g->config.top;

    if (g->state.domain == 7)
        store_any(g, stack ? between(g, g->config.top, 4095)
            : g->config.heap);
    else if ((!stack || percent(g, 70))
        && find_block(g, false, own, own + 1, &block))
        store_any(g, g->config.bot + 8 * block + below(g, 8));
    else if (stack)
        store_any(g, percent(g, 30) ? g->state.bound
            : between(g, g->config.top, g->state.bound));
}

/* One step that should be done, not refused. */
static void good_step(struct maker *g)
{
    unsigned own = 2u * g->state.domain + 1, block;
    unsigned left = g->config.top - (unsigned)g->state.pointer;

    if (g->state.domain == 7 && percent(g, 70) && left >= 5) {
        go_to(g, below(g, 8));
        return;
    }
    switch (below(g, 10)) {
    case 0: case 1:
        good_store(g);
        break;
    case 2: case 3:
        if (g->state.domain < 7 && find_block(g, false, 15, 15, &block))
            take(g, between(g, 1, percent(g, 80) ? 24 : 120));
        else
            good_store(g);
        break;
    case 4:
        if (find_block(g, false, own, own, &block) && own < 15)
            give(g, g->config.bot + 8 * block);
        break;
    case 5:
        if (find_block(g, false, own, own, &block) && own < 15)
            change(g, g->config.bot + 8 * block, below(g, 7));
        break;
    case 6: case 7:
        if (left >= 5 && percent(g, 75))
            go_to(g, below(g, 8));
        else if (left >= 3)
            go_local(g);
        break;
    default:
        if (g->state.pointer > g->config.safe)
            back(g);
    }
}

static void edge_change(struct maker *g)
{
    unsigned address = edge_segment(g);

    change(g, address, edge_domain(g));
}

/* One step with operands at or beside the limits. */
static void edge_step(struct maker *g)
{
    unsigned target, site;

    switch (below(g, 8)) {
    case 0: case 1:
        /* from domain 7 a store mostly goes where it breaks nothing, else no
           long run would be left */
        if (g->state.domain == 7 && percent(g, 80))
            good_store(g);
        else
            store_any(g, edge_address(g));
        break;
    case 2: case 3:
        target = edge_target(g);
        site = edge_word(g);
        call(g, target, site, edge_stack(g));
        break;
    case 4: back(g); break;
    case 5: take(g, edge_size(g)); break;
    case 6: give(g, edge_segment(g)); break;
    default: edge_change(g); break;
    }
}

/* So many steps, this share of them of the kind that is done. */
static void steps(struct maker *g, unsigned count, unsigned share_good)
{
    while (count-- > 0 && !g->full)
        if (percent(g, share_good))
            good_step(g);
        else
            edge_step(g);
}

/* ---- kinds of scripts ------------------------------------------------ */

/* Good and other steps mixed. */
static void kind_mixed(struct maker *g)
{
    usual(g);
    begin(g);
    steps(g, between(g, 100, 1500), 60);
}

/* Long runs that mostly succeed. */
static void kind_long(struct maker *g)
{
    usual(g);
    lay_between(g, 40, 400, 6, 60, 0);
    begin(g);
    steps(g, between(g, 500, 6000), 96);
}

/* Every configuration rule broken by itself, at its edge. */
static void kind_broken(struct maker *g)
{
    enum { ALONE = 11, PAIRS = 28 };
    struct machine_config *c = &g->config;
    unsigned rule = g->place % (ALONE + 16 + PAIRS + 6), i, j;

    lay_out(g, 20, 8, 1, ANYWHERE);
    lay_code(g, 8000, 0xff);
    lay_table(g);
    if (rule < ALONE)
        switch (rule) {
        case 0: c->bot = (uint16_t)(c->bot + between(g, 1, 7)); break;
        case 1: c->heap = (uint16_t)(c->heap + between(g, 1, 7)); break;
        case 2: c->safe = (uint16_t)(c->safe + between(g, 1, 7)); break;
        case 3: c->top = (uint16_t)(c->top - between(g, 1, 7)); break;
        case 4: c->bot = c->heap = c->safe = c->top; break;  /* n = 0 */
        case 5:                                 /* map longer than its place */
            lay_out(g, between(g, 60, 300), 8, 0, ANYWHERE);
            c->heap = (uint16_t)(c->heap - 8);
            break;
        case 6:                                 /* by one half: n = 16 i + 1 */
            i = between(g, 1, 24);
            c->bot = (uint16_t)(8 * below(g, 512 - 16 * i));
            c->heap = (uint16_t)(c->bot + 8 * i);
            c->top = (uint16_t)(c->bot + 8 * (16 * i + 1));
            c->safe = (uint16_t)(c->top - 8 * below(g, 8));
            break;
        case 7: c->heap = (uint16_t)(c->safe + 8); break;
        case 8: c->safe = (uint16_t)(c->top + 8); break;
        case 9:                                 /* top 4104 */
            lay_out(g, 20, 8, 1, HIGHEST);
            c->top = (uint16_t)(c->top + 8);
            break;
        default: c->jt = 64513; break;
        }
    else if (rule < ALONE + 8) {                /* start above end */
        i = rule - ALONE;
        c->code[i].start = (uint16_t)(c->code[i].end + 1);
    } else if (rule < ALONE + 16) {             /* end above jt */
        i = rule - ALONE - 8;
        lay_code(g, 8000, 0xffu & ~(1u << i));
        c->code[i].start = percent(g, 50) ? 8000 : 8001;
        c->code[i].end = 8001;
    } else if (rule < ALONE + 16 + PAIRS) {     /* two share one word */
        unsigned pair = rule - ALONE - 16;
        for (i = 1; pair >= i; i++)
            pair -= i;
        j = pair;
        if (percent(g, 50)) {
            unsigned swap = i;
            i = j;
            j = swap;
        }
        lay_code(g, 8000, 0xffu & ~(1u << i));
        if (percent(g, 50)) {
            c->code[i].start = c->code[j].start;
            c->code[i].end = (uint16_t)(c->code[j].start + 1);
        } else {
            c->code[i].start = (uint16_t)(c->code[j].end - 1);
            c->code[i].end = c->code[j].end;
        }
    } else {                                    /* several rules, far off */
        c->bot = (uint16_t)(8 * below(g, 8192));
        if (percent(g, 50))
            c->heap = (uint16_t)(8 * below(g, 8192));
        if (percent(g, 50))
            c->safe = (uint16_t)(8 * below(g, 8192));
        if (percent(g, 50))
            c->top = (uint16_t)(8 * below(g, 8192));
        i = below(g, 8);
        c->code[i].start = (uint16_t)below(g, 65536);
        if (percent(g, 50))
            c->code[i].end = (uint16_t)below(g, 65536);
    }
    if (begin(g)) {
        steps(g, 40, 50);                       /* chance made a good one */
    } else {                                    /* none of this may be run */
        put8(g, 3);
        put8(g, percent(g, 50) ? 3 : 9);
    }
}

/* Configurations that are good but at an edge. */
static void kind_edge(struct maker *g)
{
    struct machine_config *c = &g->config;
    unsigned i, j;

    usual(g);
    switch (g->place % 24) {
    case 0: lay_out(g, 0, 8, 0, ANYWHERE); break;       /* empty heap */
    case 1: lay_out(g, 20, 0, 0, ANYWHERE); break;      /* no safe stack */
    case 2: lay_out(g, 0, 0, 0, ANYWHERE); break;       /* one block in all */
    case 3: lay_out(g, 0, 0, 0, HIGHEST); break;
    case 4: lay_out(g, 40, 8, 0, HIGHEST); break;       /* top 4096 */
    case 5: lay_out(g, 470, 10, 0, LOWEST); break;      /* all of RAM */
    case 6: lay_out(g, 40, 8, 0, LOWEST); break;        /* bot 0 */
    case 7: lay_out(g, 1, 8, 0, ANYWHERE); break;       /* one-block heap */
    case 8: lay_out(g, 8, 1, 0, ANYWHERE); break;       /* 8 bytes of safe */
    case 9: lay_out(g, 7, 7, 1, ANYWHERE); break;       /* n = 16, spare */
    /* the next four: the heap starts exactly where the map ends */
    case 10: lay_out(g, 10, 5, 0, ANYWHERE); break;     /* n = 16, m = 8 */
    case 11: lay_out(g, 9, 5, 0, ANYWHERE); break;      /* n = 15, m = 8 */
    case 12: lay_out(g, 20, 10, 0, ANYWHERE); break;    /* n = 32, m = 16 */
    case 13: lay_out(g, 20, 9, 0, ANYWHERE); break;     /* n = 31, m = 16 */
    case 14: lay_out(g, 12, 5, 0, ANYWHERE); break;     /* n = 19, odd */
    case 15: lay_out(g, 1, 0, 0, ANYWHERE); break;
    case 16: lay_out(g, 2, 2, 30, ANYWHERE); break;     /* wide gap below */
    case 17: g->pairs = 0; lay_code(g, 64512, 0xff); lay_table(g); break;
    case 18: g->pairs = 0; lay_code(g, 8, 0xff); lay_table(g); break;
    case 19: g->pairs = 0; lay_code(g, 0, 0); lay_table(g); break;
    case 20:                                    /* all 1,024 words given */
        for (i = 0; i < MACHINE_TABLE; i++)
            add_pair(g, i, some_entry(g, i / WORDS, percent(g, 80)));
        break;
    case 21:                                    /* 7 alone has code */
        g->pairs = 0;
        lay_code(g, 1000, 0x80);
        lay_table(g);
        break;
    case 22:                                    /* ranges side by side, a
                                                   range that has word 0 */
        g->pairs = 0;
        for (i = 0; i < MACHINE_DOMAINS; i++) {
            j = (i + g->place / 24) % MACHINE_DOMAINS;
            c->code[j].start = (uint16_t)(100 * i);
            c->code[j].end = (uint16_t)(100 * i + 100);
        }
        c->jt = 800;
        lay_table(g);
        break;
    default:                                    /* one-word ranges */
        g->pairs = 0;
        for (i = 0; i < MACHINE_DOMAINS; i++) {
            c->code[i].start = (uint16_t)(7 - i);
            c->code[i].end = (uint16_t)(8 - i);
        }
        c->jt = (uint16_t)(percent(g, 50) ? 8 : 64512);
        lay_table(g);
        break;
    }
    begin(g);
    steps(g, between(g, 100, 800), 50);
}

/* Many segments of several owners and sizes, taken and freed. */
static void kind_fragments(struct maker *g)
{
    unsigned rounds = between(g, 5, 60), i, block;

    usual(g);
    lay_between(g, 20, 450, 4, 20, 1);
    begin(g);
    while (rounds-- > 0 && !g->full) {
        unsigned own;
        if (percent(g, 30))
            unwind(g);
        go_to(g, below(g, 8));
        own = 2u * g->state.domain + 1;
        for (i = between(g, 1, 25); i > 0; i--)
            take(g, percent(g, 90) ? between(g, 1, 60) : edge_size(g));
        for (i = between(g, 0, 20); i > 0; i--) {
            if (own >= 15 || !find_block(g, false, own, own, &block))
                break;
            if (percent(g, 75))
                give(g, g->config.bot + 8 * block);
            else
                change(g, g->config.bot + 8 * block, below(g, 7));
        }
        for (i = 3; i > 0; i--)
            edge_step(g);
    }
}

/* Calls within calls until 12 comes, and back. */
static void kind_nesting(struct maker *g)
{
    unsigned rounds = between(g, 2, 8), tries;

    usual(g);
    lay_between(g, 0, 20, 0, percent(g, 30) ? 200 : 20, 0);
    begin(g);
    while (rounds-- > 0 && !g->full) {
        unsigned share = below(g, 101), refused = 0;
        for (tries = 1000; tries > 0 && refused < 4 && !g->full; tries--)
            if (!(percent(g, share) ? go_to(g, below(g, 8)) : go_local(g))
                && g->config.top - g->state.pointer < 5)
                refused++;              /* 12, or no good entry */
        for (tries = below(g, 4); tries > 0; tries--)
            edge_step(g);
        if (percent(g, 70))
            unwind(g);
        else
            for (tries = below(g, 30); tries > 0; tries--)
                back(g);
    }
}

/* Both sides of every limit, one after the other, in several states. */
static void kind_limits(struct maker *g)
{
    static const int sides[] = { -9, -8, -7, -2, -1, 0, 1, 2, 7, 8, 9 };
    static const uint8_t domains[] = { 7, 8, 255, 0, 1, 2, 3, 4, 5, 6 };
    const struct machine_config *c = &g->config;
    unsigned round, i, j, d, block, heap;

    usual(g);
    begin(g);
    heap = c->safe - (unsigned)c->heap;
    if (go_to(g, below(g, 7))) {                /* the whole heap, while free */
        take(g, heap + 1);
        take(g, heap);
        take(g, 1);
        give(g, c->heap);
        take(g, heap - 7);                      /* as many blocks */
        give(g, c->heap);
    }
    for (round = 0; round < 4; round++) {
        steps(g, 10, 90);

        unsigned site = 0;
        const uint16_t places[] = { c->bot, c->heap, c->safe, c->top,
            (uint16_t)(c->bot + (blocks(g) + 1) / 2), g->state.bound,
            g->state.pointer, 4095, 0 };

        for (i = 0; i < COUNT(places); i++)
            for (j = 0; j < COUNT(sides); j++) {
                unsigned address = places[i] + (unsigned)sides[j];
                if (g->state.domain != 7 || address % 65536 >= c->top)
                    store_any(g, address);
                give(g, address);
                if (j % 2)
                    change(g, address, edge_domain(g));
            }
        for (d = 0; d < MACHINE_DOMAINS; d++) {
            /* local targets and sites at the ends of every range; then table
               words at the ends of every domain's part */
            const unsigned words[] = { c->code[d].start - 1u,
                c->code[d].start, c->code[d].end - 1u, c->code[d].end };
            for (i = 0; i < COUNT(words); i++) {
                own_word(g, &site);
                if (call(g, words[i], site, 0) == 0)
                    back(g);
                own_word(g, &site);
                if (call(g, site, words[i], 0) == 0)
                    back(g);
            }
            own_word(g, &site);
            if (call(g, c->jt + WORDS * d, site, g->state.bound) == 0)
                back(g);
            if (call(g, c->jt + WORDS * d + 127, site, g->state.bound) == 0)
                back(g);
        }
        call(g, c->jt - 1u, site, g->state.bound);
        call(g, c->jt + 1024u, site, g->state.bound);
        for (i = 0; i < g->pairs; i++) {        /* pointers at a good entry */
            const unsigned stacks[] = { c->top - 2u, c->top - 1u,
                g->state.bound, g->state.bound + 1u, 4095, 4096, 65535, 0 };
            unsigned target = c->jt + (unsigned)g->pair[i].index;
            own_word(g, &site);
            if (call(g, target, site, g->state.bound) != 0)
                continue;
            back(g);
            for (j = 0; j < COUNT(stacks); j++)
                if (call(g, target, site, stacks[j]) == 0)
                    back(g);
            if (percent(g, 50))
                break;
        }
        const unsigned sizes[] = { 0, 1, 8, 9, 65535, heap, heap + 1 };
        unsigned own = 2u * g->state.domain + 1;
        for (i = 0; i < COUNT(sizes); i++) {
            take(g, sizes[i]);
            if (own < 15 && find_block(g, false, own, own, &block))
                give(g, c->bot + 8 * block);
        }
        for (i = 0; i < COUNT(domains) && own < 15; i++) {
            take(g, between(g, 1, 20));
            if (find_block(g, false, own, own, &block))
                change(g, c->bot + 8 * block, domains[i]);
        }
        go_to(g, below(g, 7));
    }
}

/* From domain 7: gives a block a code by storing its map byte. */
static void damage_code(struct maker *g, unsigned block, unsigned code)
{
    unsigned address = g->config.bot + block / 2, pair = g->ram[address];

    if (block < blocks(g))
        store(g, address, block % 2 ? pair % 16 + 16 * code
            : pair / 16 * 16 + code);
}

/* Trusted stores into the map, then operations that meet the damage. */
static void kind_map_damage(struct maker *g)
{
    const struct machine_config *c = &g->config;
    unsigned rounds = between(g, 3, 15), i, k, block;

    usual(g);
    lay_between(g, 0, percent(g, 20) ? 300 : 40, 4, 16, 1);
    begin(g);
    while (rounds-- > 0 && !g->full) {
        unsigned heap = (c->heap - c->bot) / 8u, safe = (c->safe - c->bot) / 8u;
        unsigned d = below(g, 7);

        steps(g, between(g, 0, 40), 90);
        if (!go_trusted(g))
            continue;
        switch (below(g, 7)) {
        case 0:                                 /* any bytes */
            for (i = between(g, 1, 12); i > 0; i--)
                store_any(g, c->bot + below(g, (blocks(g) + 1) / 2));
            break;
        case 1:                                 /* segment to the heap's end
                                                   and on into the safe area */
            k = heap + below(g, safe - heap + 1);
            damage_code(g, k, 2 * d + 1);
            for (k++; k < safe + 3; k++)
                damage_code(g, k, 2 * d);
            break;
        case 2:                                 /* no start before it */
            for (k = heap; k < safe && percent(g, 95); k++)
                damage_code(g, k, 2 * d);
            break;
        case 3:                                 /* starts beside the heap */
            damage_code(g, heap - 1, 2 * d + below(g, 2));
            damage_code(g, heap, 2 * d + below(g, 2));
            damage_code(g, safe, 2 * d + below(g, 2));
            if (safe > heap)
                damage_code(g, safe - 1, 2 * d + below(g, 2));
            break;
        case 4:                                 /* blocks of 7 in the heap,
                                                   free codes outside it */
            for (i = between(g, 1, 6); i > 0; i--) {
                damage_code(g, heap + below(g, safe - heap + 1), 14);
                damage_code(g, below(g, blocks(g)), 15);
            }
            break;
        case 5:                                 /* segments run together: a
                                                   start becomes a going-on */
            for (i = between(g, 1, 8); i > 0; i--)
                if (find_block(g, false, 0, 13, &block) && block > 0)
                    damage_code(g, block, code_of(g, block - 1) & 14);
            break;
        default:                                /* the map itself, the safe
                                                   area or all of it given */
            for (k = 0; k < blocks(g) && percent(g, 97); k++)
                damage_code(g, k, 2 * d + percent(g, 20));
        }
        go_to(g, percent(g, 70) ? d : below(g, 8));
        for (i = between(g, 5, 40); i > 0; i--)
            switch (below(g, 8)) {
            case 0: take(g, percent(g, 70) ? between(g, 1, 40)
                : edge_size(g)); break;
            case 1: case 2: give(g, edge_segment(g)); break;
            case 3: edge_change(g); break;
            case 4:                             /* its own block, wherever */
                if (g->state.domain < 7 && find_block(g, true,
                        2u * g->state.domain, 2u * g->state.domain + 1,
                        &block))
                    store_any(g, c->bot + 8 * block + below(g, 8));
                break;
            case 5: store_any(g, edge_address(g)); break;
            case 6: back(g); break;
            default: give(g, c->heap + 8 * below(g, safe - heap + 2)); break;
            }
    }
}

/* From domain 7: writes a frame below the safe pointer. With too few bytes in
   the area it is made whole from bytes below `safe`, which must not count. */
static void craft(struct maker *g, unsigned tag, unsigned site,
    unsigned bound)
{
    unsigned end = g->state.pointer, start = end - (tag == 255 ? 3 : 5);

    store(g, start, site % 256);
    store(g, start + 1, site / 256 % 256);
    if (tag != 255) {
        store(g, start + 2, bound % 256);
        store(g, start + 3, bound / 256 % 256);
    }
    store(g, end - 1, tag);
}

/* From domain 7: goes down by crafted local frames of three bytes until fewer
   are left than a frame needs. */
static void run_short(struct maker *g)
{
    unsigned used, site;

    if (g->state.pointer == g->config.safe)
        go_to(g, 7);
    while (g->state.domain == 7 && !g->full && own_word(g, &site)
        && (used = g->state.pointer - (unsigned)g->config.safe) > 0) {
        if (used < 5) {
            craft(g, 7, site, g->state.bound);
            back(g);                    /* 14 */
        }
        craft(g, 255, site, 0);
        if (back(g) != 0)               /* 14 if used was 1 or 2 */
            break;
    }
}

/* Trusted stores into the safe stack area, then returns that meet them. */
static void kind_frame_damage(struct maker *g)
{
    static const uint8_t tags[] = { 8, 9, 127, 128, 254, 255, 7, 6, 0 };
    const struct machine_config *c = &g->config;
    unsigned rounds = between(g, 10, 120), i;

    usual(g);
    lay_between(g, 0, 20, 1, 16, 0);
    begin(g);
    while (rounds-- > 0 && !g->full) {
        unsigned d = below(g, MACHINE_DOMAINS), used, site, bound, p;

        for (i = below(g, 5); i > 0; i--)
            if (percent(g, 60))
                go_to(g, percent(g, 40) ? 7 : below(g, 8));
            else
                go_local(g);
        if (percent(g, 10))
            unwind(g);
        if (!go_trusted(g))
            continue;
        p = g->state.pointer;
        used = p - c->safe;
        if (used == 0 && percent(g, 70)) {
            go_local(g);
            continue;
        }
        switch (below(g, 7)) {
        case 0:                                 /* the tag */
            if (used > 0)
                store(g, p - 1, percent(g, 60) ? tags[below(g, COUNT(tags))]
                    : below(g, 8));
            break;
        case 1:                                 /* any byte of the frame */
            if (used > 0)
                store_any(g, p - 1 - below(g, used < 5 ? used : 5));
            break;
        case 2:                                 /* any byte of the area */
            p = between(g, c->safe, c->top - 1u);
            store(g, p, percent(g, 50) ? 255 : below(g, 9));
            break;
        case 3:                                 /* a local frame anew */
            site = c->code[7].start + (percent(g, 50) ? -below(g, 2)
                : c->code[7].end - c->code[7].start - below(g, 2));
            if (used > 0)
                craft(g, 255, site, 0);
            break;
        case 4:
            run_short(g);
            break;
        default:                                /* a cross-domain frame anew */
            site = c->code[d].start + (percent(g, 50) ? -below(g, 2)
                : c->code[d].end - c->code[d].start - below(g, 2));
            switch (below(g, 8)) {
            case 0: bound = g->state.bound - 1u; break;
            case 1: bound = g->state.bound + 1u; break;
            case 2: bound = 4096; break;
            case 3: bound = below(g, 65536); break;
            case 4: bound = 65535; break;
            case 5: bound = 4095; break;
            default: bound = g->state.bound; break;
            }
            if (used > 0)
                craft(g, d, site, bound);
        }
        for (i = between(g, 1, 3); i > 0; i--)
            back(g);
        if (percent(g, 20))
            steps(g, below(g, 6), 50);
    }
}

/* Fills the script with operations up to an exact length; what is left over
   at the end is filled with returns, which take one byte. */
static void fill(struct maker *g, size_t length)
{
    g->limit = length;
    while (!g->full)
        steps(g, 50, 90);
    g->full = false;
    while (g->length < length)
        back(g);
}

/* Damaged, cut and overlong files. */
static void kind_file(struct maker *g)
{
    static const uint8_t operations[] = { 1, 2, 4, 5, 6 };
    static const uint8_t operands[] = { 3, 6, 2, 2, 3 };
    unsigned which = g->place % 30, i;

    usual(g);
    if (which == 6)
        add_pair(g, 1023, g->config.code[7].start);
    if (which == 7)
        add_pair(g, 1024, g->config.code[7].start);
    if (which == 8)                     /* early, and good ones after it */
        g->pair[0].index = (uint16_t)(percent(g, 50) ? 1024 : 65535);
    if (which == 9) {                   /* bad comes before a refused set-up */
        add_pair(g, 1024, 0);
        g->config.bot = g->config.top;
    }
    if (which == 26 || which == 27)     /* a header of 65,536 bytes: room for
                                           just so many pairs */
        while (g->pairs < MOST_PAIRS) {
            i = below(g, MACHINE_TABLE);
            add_pair(g, i, some_entry(g, i / WORDS, percent(g, 80)));
        }
    begin(g);
    if (which != 26 && which != 27)
        steps(g, between(g, 0, 60), 80);
    switch (which) {
    case 0: case 1: case 2: g->script[which] ^= 0x20; break;    /* mark */
    case 3: g->script[3] = 0; break;                            /* version */
    case 4: g->script[3] = 2; break;
    case 5: g->script[3] = (uint8_t)between(g, 3, 255); break;
    case 6: case 7: case 8: case 9: break;
    case 10: g->length = below(g, HEADER); break;       /* cut header */
    case 11: g->length = HEADER - 1; break;
    case 12: g->length = HEADER; break;                 /* no pair is there */
    case 13: g->length = HEADER + 4 * g->pairs - 1; break;
    case 14: g->length = HEADER + 4 * g->pairs; break;  /* whole, no more */
    case 15: g->length = HEADER + below(g, 4 * g->pairs); break;
    case 16: put8(g, 0); break;                         /* no such operation */
    case 17: put8(g, 7); put8(g, 3); break;
    case 18: put8(g, between(g, 8, 255)); put16(g, 3); break;
    case 19: case 20: case 21:                          /* cut operation */
        i = (g->place / 30 + which) % COUNT(operations);
        put8(g, operations[i]);
        for (i = which == 19 ? 0 : below(g, operands[i]); i > 0; i--)
            put8(g, below(g, 256));
        break;
    case 22: fill(g, LONGEST); break;                   /* the longest */
    case 23: fill(g, LONGEST); put8(g, 3); break;       /* one byte more */
    case 24:                                            /* longest, and cut */
        fill(g, LONGEST - 2);
        put8(g, 4);
        put8(g, 4);
        break;
    case 25: fill(g, LONGEST); put8(g, 3); g->script[0] = 0; break;
    case 26: break;                                     /* header only */
    case 27:                                            /* one pair missing */
        g->script[HEADER - 2] = (uint8_t)((MOST_PAIRS + 1) % 256);
        g->script[HEADER - 1] = (uint8_t)((MOST_PAIRS + 1) / 256);
        break;
    case 28: g->length = percent(g, 50) ? 0 : below(g, 5); break;
    default: fill(g, LONGEST); for (i = 60; i > 0; i--) put8(g, 3); break;
    }
}

/* The kinds; one that stands here more often comes more often. */
static void (*const kinds[])(struct maker *) = {
    kind_mixed, kind_broken, kind_limits, kind_edge,
    kind_fragments, kind_file, kind_frame_damage, kind_broken,
    kind_map_damage, kind_nesting, kind_long, kind_edge,
    kind_frame_damage, kind_broken, kind_map_damage, kind_file
};

int main(int argc, char **argv)
{
    static struct maker g;              /* too large for a small stack */
    unsigned long long seed;
    unsigned k, here;
    char *end;

    if (argc != 2 || (seed = strtoull(argv[1], &end, 10), *end || !*argv[1])) {
        fputs("usage: generate SEED > script\n", stderr);
        return 2;
    }
    g.random = seed;
    g.limit = LONGEST;
    here = (unsigned)(seed % COUNT(kinds));
    /* the place counts the scripts of this kind up to this seed */
    for (k = 0; k < COUNT(kinds); k++)
        if (kinds[k] == kinds[here])
            g.place += (unsigned)(seed / COUNT(kinds) % 65536) + (k < here);
    kinds[here](&g);
    if (fwrite(g.script, 1, g.length, stdout) != g.length
        || fflush(stdout) != 0) {
        fputs("generate: standard output cannot be written\n", stderr);
        return 1;
    }
    return 0;
}
