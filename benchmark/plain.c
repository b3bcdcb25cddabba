/*
 * The functions of include/hmt.h written by hand in C, to be fast: what the
 * proved library is measured against. Every check of the document is made, in
 * its order, and every refusal leaves slot and RAM alone. The slot is read in
 * place; nothing is unpacked that a step does not need.
 *
 * No processor's own vector instructions are used: a unit has none. Numbers
 * are loaded whole, so the processor must have the low byte first too.
 */
#include "subject.h"

#include <string.h>

#if __BYTE_ORDER__ != __ORDER_LITTLE_ENDIAN__
#error "numbers in the slot have the low byte first"
#endif

enum {
    RAM = 4096, SLOT = 48, TABLE = 2048,
    BOT = 0, HEAP = 2, SAFE = 4, TOP = 6, JT = 8, RANGES = 10,
    BOUND = 42, POINTER = 44, DOMAIN = 46,
    TRUSTED = 7, FREE = 15, LOCAL_TAG = 255
};

#define REFUSE(number) return (uint32_t)(number) << 16

/* Two bytes, low one first: one load, one store. */
static inline unsigned word(const uint8_t *bytes)
{
    uint16_t number;

    memcpy(&number, bytes, 2);
    return number;
}

static inline void put_word(uint8_t *bytes, unsigned number)
{
    uint16_t low = (uint16_t)number;

    memcpy(bytes, &low, 2);
}

/* ---- the state's own check --------------------------------------------- */

/* Code ranges in any order: start <= end <= jt, and each that is not empty
   shares no word with one before it. */
static int __attribute__((noinline)) any_order_good(const uint8_t *ranges,
    unsigned jt)
{
    unsigned starts[8], ends[8], count = 0, d, k;

    for (d = 0; d < 8; d++) {
        unsigned start = word(ranges + 4 * d), end = word(ranges + 4 * d + 2);
        if (start > end || end > jt)
            return 0;
        if (start == end)
            continue;
        for (k = 0; k < count; k++)
            if (start < ends[k] && starts[k] < end)
                return 0;
        starts[count] = start;
        ends[count++] = end;
    }
    return 1;
}

/* Modules 0 to 6 lie in rising order and the trusted code not after them: is
   it before the first of them? */
static int __attribute__((noinline)) trusted_first_good(const uint8_t *ranges,
    unsigned jt)
{
    unsigned start = word(ranges + 28), end = word(ranges + 30), d = 0;

    while (d < 7 && word(ranges + 4 * d) == word(ranges + 4 * d + 2))
        d++;
    return (start <= end && end <= word(ranges + 4 * d))
        || any_order_good(ranges, jt);
}

/* The code ranges. Modules usually lie in rising order with the trusted code
   before or after them: one pass sees that, and only another order costs the
   test of pairs. An end at or below last needs no test against jt. */
static inline int ranges_good(const uint8_t *ranges, unsigned jt)
{
    unsigned last = 0, start, end, d;

    for (d = 0; d < 7; d++) {
        start = word(ranges + 4 * d);
        end = word(ranges + 4 * d + 2);
        if (start >= last) {
            if (start > end)
                return 0;
            last = end;
        } else if (start != end) {
            return any_order_good(ranges, jt);
        }
    }
    if (last > jt)
        return 0;
    start = word(ranges + 28);
    end = word(ranges + 30);
    if (start < last)
        return trusted_first_good(ranges, jt);
    return start <= end && end <= jt;
}

static inline __attribute__((always_inline)) int config_good(
    const uint8_t *slot)
{
    unsigned bot = word(slot + BOT), heap = word(slot + HEAP);
    unsigned safe = word(slot + SAFE), top = word(slot + TOP);
    unsigned jt = word(slot + JT);

    if ((bot | heap | safe | top) & 7)
        return 0;
    if (bot >= top || heap > safe || safe > top || top > RAM)
        return 0;
    /* m is ((top - bot) / 8 + 1) / 2 */
    if (bot + (top - bot + 8) / 16 > heap)
        return 0;
    return jt <= 64512 && ranges_good(slot + RANGES, jt);
}

static int __attribute__((noinline)) state_good(const uint8_t *slot)
{
    unsigned safe = word(slot + SAFE), top = word(slot + TOP);
    unsigned bound = word(slot + BOUND), pointer = word(slot + POINTER);

    /* the domain and the 0 above it, read as one number */
    return word(slot + DOMAIN) <= TRUSTED
        && bound + 1 >= top && bound < RAM
        && pointer >= safe && pointer <= top
        && config_good(slot);
}

#define CHECK_STATE(lengths_right) \
    do { \
        if (!(lengths_right)) \
            REFUSE(1); \
        if (!state_good(slot)) \
            REFUSE(3); \
    } while (0)

/* ---- the map ----------------------------------------------------------- */

static inline unsigned code_of(const uint8_t *map, unsigned k)
{
    return map[k / 2] >> (k % 2 * 4) & 15;
}

static inline void put_code(uint8_t *map, unsigned k, unsigned code)
{
    unsigned shift = k % 2 * 4;

    map[k / 2] = (uint8_t)((map[k / 2] & (240 >> shift)) | code << shift);
}

/* Blocks first to end - 1 get one code, two blocks to a byte. */
static inline void fill(uint8_t *map, unsigned first, unsigned end,
    unsigned code)
{
    if (first < end && first % 2)
        put_code(map, first++, code);
    if (first + 1 < end)
        memset(map + first / 2, (int)(17 * code), (end - first) / 2);
    if (first < end && end % 2)
        put_code(map, end - 1, code);
}

/* ---- set-up and the operations ------------------------------------------ */

static uint32_t plain_set_up(uint8_t *ram, size_t ram_len,
    uint8_t *slot, size_t slot_len)
{
    unsigned bot, blocks, heap, safe;
    uint8_t *map;

    if (ram_len != RAM || slot_len != SLOT)
        REFUSE(1);
    if (!config_good(slot))
        REFUSE(2);
    bot = word(slot + BOT);
    blocks = (word(slot + TOP) - bot) / 8;
    heap = (word(slot + HEAP) - bot) / 8;
    safe = (word(slot + SAFE) - bot) / 8;
    map = ram + bot;
    memset(map, 0xee, (blocks + 1) / 2);
    map[0] |= 15;
    if (heap % 2 && heap < safe)
        map[heap / 2] |= 0xf0;
    if (safe / 2 > (heap + 1) / 2)
        memset(map + (heap + 1) / 2, 0xff, safe / 2 - (heap + 1) / 2);
    if (safe % 2 && heap < safe)
        map[safe / 2] |= 15;
    if (safe < blocks)
        put_code(map, safe, FREE);
    if (blocks % 2)
        map[blocks / 2] |= 0xf0;
    put_word(slot + BOUND, RAM - 1);
    memcpy(slot + POINTER, slot + SAFE, 2);
    put_word(slot + DOMAIN, TRUSTED);
    return 0;
}

static uint32_t plain_store(uint8_t *ram, size_t ram_len,
    uint8_t *slot, size_t slot_len, uint16_t address, uint8_t byte)
{
    CHECK_STATE(ram_len == RAM && slot_len == SLOT);
    if (address >= RAM)
        REFUSE(4);
    if (slot[DOMAIN] != TRUSTED) {
        unsigned bot = word(slot + BOT);
        if (address >= word(slot + TOP)) {
            if (address > word(slot + BOUND))
                REFUSE(6);
        } else if (address < bot || code_of(ram + bot, (address - bot) / 8) / 2
                != slot[DOMAIN]) {
            REFUSE(5);
        }
    }
    ram[address] = byte;
    return 0;
}

static uint32_t plain_call(uint8_t *ram, size_t ram_len,
    uint8_t *slot, size_t slot_len, const uint8_t *table, size_t table_len,
    uint16_t target, uint16_t site, uint16_t pointer)
{
    unsigned domain, start, end, jt, top, bound, safe_pointer, entry, called;
    uint8_t *frame;

    CHECK_STATE(ram_len == RAM && slot_len == SLOT && table_len == TABLE);
    domain = slot[DOMAIN];
    start = word(slot + RANGES + 4 * domain);
    end = word(slot + RANGES + 4 * domain + 2);
    if (site < start || site >= end)
        REFUSE(7);
    jt = word(slot + JT);
    top = word(slot + TOP);
    safe_pointer = word(slot + POINTER);
    frame = ram + safe_pointer;
    if (target < jt) {
        if (target < start || target >= end)
            REFUSE(8);
        if (safe_pointer + 3 > top)
            REFUSE(12);
        put_word(frame, site);
        frame[2] = LOCAL_TAG;
        put_word(slot + POINTER, safe_pointer + 3);
        return target;
    }
    if (target - jt >= TABLE / 2)
        REFUSE(9);
    entry = word(table + 2 * (target - jt));
    called = (target - jt) / 128;
    if (entry == 0 || entry < word(slot + RANGES + 4 * called)
        || entry >= word(slot + RANGES + 4 * called + 2))
        REFUSE(10);
    bound = word(slot + BOUND);
    if (pointer + 1u < top || pointer > bound)
        REFUSE(11);
    if (safe_pointer + 5 > top)
        REFUSE(12);
    put_word(frame, site);
    put_word(frame + 2, bound);
    frame[4] = (uint8_t)domain;
    put_word(slot + BOUND, pointer);
    put_word(slot + POINTER, safe_pointer + 5);
    slot[DOMAIN] = (uint8_t)called;
    return entry;
}

static uint32_t plain_return(uint8_t *ram, size_t ram_len,
    uint8_t *slot, size_t slot_len)
{
    unsigned safe_pointer, used, tag, domain, site, bound;

    CHECK_STATE(ram_len == RAM && slot_len == SLOT);
    safe_pointer = word(slot + POINTER);
    used = safe_pointer - word(slot + SAFE);
    if (used == 0)
        REFUSE(13);
    tag = ram[safe_pointer - 1];
    if (tag == LOCAL_TAG) {
        if (used < 3)
            REFUSE(14);
        safe_pointer -= 3;
        site = word(ram + safe_pointer);
        domain = slot[DOMAIN];
        if (site < word(slot + RANGES + 4 * domain)
            || site >= word(slot + RANGES + 4 * domain + 2))
            REFUSE(14);
        put_word(slot + POINTER, safe_pointer);
        return site;
    }
    if (tag > TRUSTED || used < 5)
        REFUSE(14);
    safe_pointer -= 5;
    site = word(ram + safe_pointer);
    bound = word(ram + safe_pointer + 2);
    if (site < word(slot + RANGES + 4 * tag)
        || site >= word(slot + RANGES + 4 * tag + 2)
        || bound < word(slot + BOUND) || bound >= RAM)
        REFUSE(14);
    put_word(slot + BOUND, bound);
    put_word(slot + POINTER, safe_pointer);
    slot[DOMAIN] = (uint8_t)tag;
    return site;
}

/* The lowest run of so many free blocks from first to end - 1; 0 for none,
   since block 0 is never heap. Two blocks to a step; run counts the free ones
   directly before them, and is less than need. A run that starts above highest
   would pass the end; one that does not is complete before it, so the steps
   need no other end. */
static inline unsigned find_run(const uint8_t *map, unsigned first,
    unsigned end, unsigned need)
{
    unsigned highest = end - need, last_but_one = need - 1, run = 0, k;

    if (need > end - first)
        return 0;
    k = first;
    if (k % 2) {
        run = map[k / 2] >= 0xf0;
        if (run == need)
            return first;
        k++;
        if (k - run > highest)
            return 0;
    }
    for (; ; k += 2) {
        unsigned both = map[k / 2];
        if (both == 0xff) {
            run += 2;
            if (run >= need)
                return k + 2 - run;
            continue;
        }
        if (run == last_but_one) {
            if ((both & 15) == FREE)
                return k - run;
            if (run == 0 && both >= 0xf0)   /* one block is enough */
                return k < highest ? k + 1 : 0;
        }
        run = both >= 0xf0;
        if (k + 2 - run > highest)
            return 0;
    }
}

static uint32_t plain_malloc(uint8_t *ram, size_t ram_len,
    uint8_t *slot, size_t slot_len, uint16_t size)
{
    unsigned domain, bot, found, need;

    CHECK_STATE(ram_len == RAM && slot_len == SLOT);
    domain = slot[DOMAIN];
    if (domain == TRUSTED)
        REFUSE(15);
    if (size == 0)
        REFUSE(16);
    bot = word(slot + BOT);
    need = (unsigned)(((uint32_t)size + 7) / 8);    /* no wrap at 16 bits */
    found = find_run(ram + bot, (word(slot + HEAP) - bot) / 8,
        (word(slot + SAFE) - bot) / 8, need);
    if (found == 0)
        REFUSE(17);
    put_code(ram + bot, found, 2 * domain + 1);
    fill(ram + bot, found + 1, found + need, 2 * domain);
    return bot + 8 * found;
}

/* Free and change: the segment's first block, or the refusal as a negative
   number. */
static inline int own_segment(const uint8_t *ram, const uint8_t *slot,
    unsigned address)
{
    unsigned bot = word(slot + BOT), k, code;

    if (address % 8 || address < word(slot + HEAP)
        || address >= word(slot + SAFE))
        return -18;
    k = (address - bot) / 8;
    code = code_of(ram + bot, k);
    if (code % 2 == 0 || code == FREE)
        return -18;
    return code / 2 != slot[DOMAIN] ? -19 : (int)k;
}

/* The end of the current domain's segment that starts at a block, two blocks
   to a step. */
static inline unsigned segment_end(const uint8_t *ram, const uint8_t *slot,
    unsigned first)
{
    unsigned bot = word(slot + BOT), end = (word(slot + SAFE) - bot) / 8;
    unsigned more = 2u * slot[DOMAIN], k = first + 1;
    const uint8_t *map = ram + bot;

    if (k % 2 && k < end) {
        if (map[k / 2] >> 4 != more)
            return k;
        k++;
    }
    while (k + 1 < end && map[k / 2] == 17 * more)
        k += 2;
    if (k < end && (map[k / 2] & 15u) == more)
        k++;
    return k;
}

static uint32_t plain_free(uint8_t *ram, size_t ram_len,
    uint8_t *slot, size_t slot_len, uint16_t address)
{
    unsigned end;
    int first;

    CHECK_STATE(ram_len == RAM && slot_len == SLOT);
    first = own_segment(ram, slot, address);
    if (first < 0)
        REFUSE(-first);
    end = segment_end(ram, slot, (unsigned)first);
    fill(ram + word(slot + BOT), (unsigned)first, end, FREE);
    return end - (unsigned)first;
}

static uint32_t plain_change(uint8_t *ram, size_t ram_len,
    uint8_t *slot, size_t slot_len, uint16_t address, uint8_t domain)
{
    unsigned end;
    int first;

    CHECK_STATE(ram_len == RAM && slot_len == SLOT);
    first = own_segment(ram, slot, address);
    if (first < 0)
        REFUSE(-first);
    if (domain >= TRUSTED)
        REFUSE(20);
    end = segment_end(ram, slot, (unsigned)first);
    put_code(ram + word(slot + BOT), (unsigned)first, 2u * domain + 1);
    fill(ram + word(slot + BOT), (unsigned)first + 1, end, 2u * domain);
    return end - (unsigned)first;
}

const struct subject plain = {
    "plain", plain_set_up, plain_store, plain_call, plain_return,
    plain_malloc, plain_free, plain_change
};
