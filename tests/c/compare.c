/*
 * Long random runs through the functions of include/hmt.h and through the
 * second program's machine, side by side:
 *
 *     compare [OPERATIONS [SEED]]
 *
 * After every operation the answer, all 48 slot bytes and all of RAM are
 * compared, and a refusal must have left both as they were before it. The same
 * numbers give the same run on every machine.
 *
 * Which functions are tried is said at compile time: -DSUBJECT=library or
 * -DSUBJECT=plain. They get memory that ends, or begins, at a page that can't
 * be touched, so a byte read or written outside what is lent stops the run; so
 * does a write to the jump table or to a buffer of a wrong length.
 *
 * Counted is each pair of a function and an answer number that it can give:
 * passed if it came and always agreed, failed if it did not or never came.
 */
#define _DEFAULT_SOURCE

#include "subject.h"

#include <signal.h>
#include <stdbool.h>
#include <stdio.h>
#include <stdlib.h>
#include <string.h>
#include <sys/mman.h>
#include <unistd.h>

enum { RAM = 4096, SLOT = 48, TABLE = 2048, TRUSTED = 7, OTHER = 21 };

enum function { SET_UP, STORE, CALL, RETURN, MALLOC, FREE, CHANGE, FUNCTIONS };

static const char *const names[FUNCTIONS] = {
    "set_up", "store", "call", "return", "malloc", "free", "change"
};

/* Section 6 and Ask 1: bit n is set if the function can answer n. */
#define BIT(n) (1ul << (n))
static const unsigned long can_come[FUNCTIONS] = {
    BIT(0) | BIT(1) | BIT(2),
    BIT(0) | BIT(1) | BIT(3) | BIT(4) | BIT(5) | BIT(6),
    BIT(0) | BIT(1) | BIT(3) | BIT(7) | BIT(8) | BIT(9) | BIT(10) | BIT(11)
        | BIT(12),
    BIT(0) | BIT(1) | BIT(3) | BIT(13) | BIT(14),
    BIT(0) | BIT(1) | BIT(3) | BIT(15) | BIT(16) | BIT(17),
    BIT(0) | BIT(1) | BIT(3) | BIT(18) | BIT(19),
    BIT(0) | BIT(1) | BIT(3) | BIT(18) | BIT(19) | BIT(20)
};

static const struct subject *const subject = &SUBJECT;

/* ---- chance ------------------------------------------------------------- */

static uint64_t chance;

/* splitmix64: whole numbers only, so the same everywhere. No expression below
   draws twice where C leaves the order open. */
static unsigned below(unsigned n)
{
    uint64_t z = chance += 0x9e3779b97f4a7c15u;
    z = (z ^ (z >> 30)) * 0xbf58476d1ce4e5b9u;
    z = (z ^ (z >> 27)) * 0x94d049bb133111ebu;
    return (unsigned)(((z ^ (z >> 31)) >> 32) * n >> 32);
}

static unsigned between(unsigned low, unsigned high)
{
    return low + below(high - low + 1);
}

static bool percent(unsigned n)
{
    return below(100) < n;
}

/* A number or one of its neighbours. */
static unsigned near(unsigned n)
{
    return n + below(3) - 1;
}

/* ---- the memory that is lent -------------------------------------------- */

/* A page between two that can't be touched. The lent bytes lie at its start
   or its end; the rest of the page is filled and must stay so. */
struct lent {
    uint8_t *page, *bytes;
    size_t length, page_length;
};

static const uint8_t filling = 0xa5;
static struct lent ram, slot, table;                /* the subject's */
static uint8_t ram2[RAM], slot2[SLOT], table2[TABLE];   /* the partner's */
static uint8_t *vast_end;       /* end of 4 GB and more that can be read only */
static unsigned long operations;            /* done so far */

static void *map_pages(size_t length, int protection)
{
    void *pages = mmap(NULL, length, protection,
        MAP_PRIVATE | MAP_ANONYMOUS | MAP_NORESERVE, -1, 0);

    if (pages == MAP_FAILED) {
        printf("compare: no memory\n");
        exit(2);
    }
    return pages;
}

static void protect(void *pages, size_t length, int protection)
{
    if (mprotect(pages, length, protection) != 0) {
        printf("compare: can't protect memory\n");
        exit(2);
    }
}

static void make_lent(struct lent *l, size_t length)
{
    size_t page = (size_t)sysconf(_SC_PAGESIZE);

    l->length = length;
    l->page_length = page;
    l->page = (uint8_t *)map_pages(3 * page, PROT_NONE) + page;
    protect(l->page, page, PROT_READ | PROT_WRITE);
    l->bytes = l->page;
}

/* Puts the lent bytes at the start or the end of their page. */
static void place(struct lent *l, bool at_end)
{
    l->bytes = l->page + (at_end ? l->page_length - l->length : 0);
    memset(l->page, filling, l->page_length);
}

static bool filling_intact(const struct lent *l)
{
    const uint8_t *rest = l->bytes == l->page ? l->page + l->length : l->page;
    size_t i, length = l->page_length - l->length;

    if (length == 0)
        return true;
    for (i = 0; i < 8; i++)
        if (rest[i] != filling)
            return false;
    /* all equal to the first: each byte equals the one before it */
    return memcmp(rest, rest + 1, length - 1) == 0;
}

/* A touch outside: nothing more can be said than where the run stood. */
static void touched(int signal_number)
{
    static const char text[] = "\nFAILED: a byte was touched that was not lent, "
        "or written that was lent to be read\nc-compare: 0 passed, 1 failed\n";

    (void)signal_number;
    if (write(1, text, sizeof text - 1) < 0)
        _exit(3);
    _exit(1);
}

static void make_memory(void)
{
    size_t vast = ((size_t)1 << 32) + ((size_t)1 << 20);
    size_t page = (size_t)sysconf(_SC_PAGESIZE);
    uint8_t *pages = map_pages(vast + page, PROT_READ);
    struct sigaction action;

    vast_end = pages + vast;
    protect(vast_end, page, PROT_NONE);
    make_lent(&ram, RAM);
    make_lent(&slot, SLOT);
    make_lent(&table, TABLE);
    memset(&action, 0, sizeof action);
    action.sa_handler = touched;
    sigaction(SIGSEGV, &action, NULL);
    sigaction(SIGBUS, &action, NULL);
}

/* ---- one operation ------------------------------------------------------ */

/* a, b, c: the operands in the order of the header. */
struct step {
    enum function function;
    unsigned a, b, c;
    size_t ram_length, slot_length, table_length;
};

static uint32_t perform(const struct subject *s, const struct step *t,
    uint8_t *r, uint8_t *q, const uint8_t *words)
{
    size_t rl = t->ram_length, ql = t->slot_length;
    uint16_t a = (uint16_t)t->a, b = (uint16_t)t->b, c = (uint16_t)t->c;

    switch (t->function) {
    case SET_UP: return s->set_up(r, rl, q, ql);
    case STORE: return s->store(r, rl, q, ql, a, (uint8_t)b);
    case CALL: return s->call(r, rl, q, ql, words, t->table_length, a, b, c);
    case RETURN: return s->back(r, rl, q, ql);
    case MALLOC: return s->take(r, rl, q, ql, a);
    case FREE: return s->give_back(r, rl, q, ql, a);
    default: return s->change(r, rl, q, ql, a, (uint8_t)b);
    }
}

static unsigned long came[FUNCTIONS][OTHER + 1], differed[FUNCTIONS][OTHER + 1];
static unsigned reports;

static void report(const struct step *t, uint32_t got, uint32_t want)
{
    unsigned i;

    if (++reports > 10)
        return;
    printf("DIFFERENT: operation %lu, %s(%u, %u, %u), lengths %zu %zu %zu: "
        "%s says %u/%u, the partner %u/%u\n", operations, names[t->function],
        t->a, t->b, t->c, t->ram_length, t->slot_length, t->table_length,
        subject->name, HMT_NUMBER(got), HMT_VALUE(got), HMT_NUMBER(want),
        HMT_VALUE(want));
    for (i = 0; i < SLOT; i++)
        if (slot.bytes[i] != slot2[i])
            printf("  slot byte %u: %u, the partner's %u\n", i, slot.bytes[i],
                slot2[i]);
    for (i = 0; i < RAM; i++)
        if (ram.bytes[i] != ram2[i])
            printf("  RAM byte %u: %u, the partner's %u\n", i, ram.bytes[i],
                ram2[i]);
    if (!filling_intact(&slot) || !filling_intact(&ram))
        printf("  a byte beside what is lent was written\n");
}

/* After a difference the subject goes on from where the partner is. */
static void copy_over(void)
{
    memcpy(ram.bytes, ram2, RAM);
    memcpy(slot.bytes, slot2, SLOT);
}

/* A buffer of a wrong length lies where nothing can be written. */
static unsigned run(const struct step *t)
{
    static uint8_t ram_before[RAM], slot_before[SLOT];
    uint8_t *r = ram.bytes, *q = slot.bytes;
    const uint8_t *words = table.bytes;
    uint32_t got, want;
    unsigned number;
    bool same;

    if (t->ram_length != RAM)
        r = vast_end - t->ram_length;
    if (t->slot_length != SLOT)
        q = vast_end - t->slot_length;
    if (t->table_length != TABLE)
        words = vast_end - t->table_length;
    memcpy(ram_before, ram2, RAM);
    memcpy(slot_before, slot2, SLOT);
    operations++;
    got = perform(subject, t, r, q, words);
    want = perform(&partner, t, ram2, slot2, table2);
    number = HMT_NUMBER(got) < OTHER ? HMT_NUMBER(got) : OTHER;
    same = got == want && memcmp(slot.bytes, slot2, SLOT) == 0
        && memcmp(ram.bytes, ram2, RAM) == 0
        && filling_intact(&slot) && filling_intact(&ram);
    if (got >= 65536)
        same = same && got % 65536 == 0
            && memcmp(slot.bytes, slot_before, SLOT) == 0
            && memcmp(ram.bytes, ram_before, RAM) == 0;
    came[t->function][number]++;
    if (!same) {
        differed[t->function][number]++;
        report(t, got, want);
        place(&slot, slot.bytes != slot.page);
        copy_over();
    }
    return number;
}

static unsigned run3(enum function f, unsigned a, unsigned b, unsigned c)
{
    struct step t = { f, a, b, c, RAM, SLOT, TABLE };

    return run(&t);
}

/* One of the three lengths, or two, is wrong; now and then by 2^16 or 2^32,
   which a length kept in too few bits would not show. */
static size_t wrong(size_t right)
{
    static const size_t off[] = { 1, 2, 64, 96, 256, 65536 };

    switch (below(5)) {
    case 0: return below((unsigned)right);
    case 1: return right - 1;
    case 2: return right * 2;
    case 3: return right + off[below(6)];
    default: return right + ((size_t)1 << 32);
    }
}

static void run_wrong_length(enum function f, unsigned a, unsigned b,
    unsigned c)
{
    struct step t = { f, a, b, c, RAM, SLOT, TABLE };
    unsigned which = between(1, f == CALL ? 7 : 3);

    if (which & 1)
        t.ram_length = wrong(RAM);
    if (which & 2)
        t.slot_length = wrong(SLOT);
    if (which & 4)
        t.table_length = wrong(TABLE);
    run(&t);
}

/* ---- what stands in slot and RAM now ------------------------------------ */

static unsigned bot(void) { return hmt_get(slot2, HMT_SLOT_BOT); }
static unsigned heap(void) { return hmt_get(slot2, HMT_SLOT_HEAP); }
static unsigned safe(void) { return hmt_get(slot2, HMT_SLOT_SAFE); }
static unsigned top(void) { return hmt_get(slot2, HMT_SLOT_TOP); }
static unsigned jt(void) { return hmt_get(slot2, HMT_SLOT_JT); }
static unsigned bound(void) { return hmt_get(slot2, HMT_SLOT_BOUND); }
static unsigned pointer(void) { return hmt_get(slot2, HMT_SLOT_POINTER); }
static unsigned domain(void) { return slot2[HMT_SLOT_DOMAIN]; }
static unsigned start(unsigned d) { return hmt_get(slot2, HMT_SLOT_START(d)); }
static unsigned end(unsigned d) { return hmt_get(slot2, HMT_SLOT_END(d)); }

static unsigned code_at(unsigned address)
{
    unsigned k = (address - bot()) / 8;

    return k % 2 ? ram2[bot() + k / 2] / 16 : ram2[bot() + k / 2] % 16;
}

/* A random heap block with a code from low to high (both included), as an
   address; a place in or just after the heap if there is none. */
static unsigned block_with(unsigned low, unsigned high)
{
    unsigned blocks = (safe() - heap()) / 8, k = below(blocks + 1), i;

    for (i = 0; i < blocks; i++, k++) {
        unsigned address = heap() + 8 * (k % blocks);
        unsigned code = code_at(address);
        if (code >= low && code <= high)
            return address;
    }
    return between(heap(), safe());
}

static bool holds_segment(void)
{
    unsigned code = 2 * domain() + 1, address = block_with(code, code);

    return domain() != TRUSTED && address % 8 == 0 && address < safe()
        && code_at(address) == code;
}

/* A word of a domain's code; for an empty range the word at it. */
static unsigned word_of(unsigned d)
{
    return start(d) < end(d) ? between(start(d), end(d) - 1) : start(d);
}

/* ---- steered operations -------------------------------------------------- */

static unsigned do_store(void)
{
    unsigned own = 2 * domain(), address, inside = below(8);

    switch (below(20)) {
    case 0: address = near(bot()); break;
    case 1: address = near(top()); break;
    case 2: address = near(bound()); break;
    case 3: address = percent(50) ? near(RAM) : below(65536); break;
    case 4: address = below(RAM); break;
    case 5: address = block_with(0, 13) + inside; break;
    case 6: case 7: case 8: case 9: case 10: case 11:
        address = top() + below(bound() + 1 - top() + 1);
        break;
    default: address = block_with(own, own + 1) + inside; break;
    }
    return run3(STORE, address, below(256), 0);
}

/* The trusted domain writes map and safe stack too: mostly what could stand
   there, so that the run goes on through what it has done. */
static unsigned do_trusted_store(void)
{
    unsigned map = (top() - bot() + 8) / 16, address, byte = below(256);

    switch (below(6)) {
    case 0:
        address = bot() + below(map);
        if (percent(70))
            byte = (ram2[address] & 0xf0) | below(16);
        break;
    case 1:
        address = safe() + below(top() - safe() + 1);
        if (address < RAM && percent(85))
            byte = ram2[address];
        break;
    case 2:
        address = pointer() - 1;
        byte = percent(50) ? 255 : below(9);
        if (address < RAM && percent(80))
            byte = ram2[address];
        break;
    default:
        return do_store();
    }
    return run3(STORE, address, byte, 0);
}

static unsigned do_call(void)
{
    unsigned d = domain(), site = word_of(d), target, stack, word;

    word = between(0, 1023);
    if (percent(80))        /* a module, not the trusted domain */
        word %= 7 * 128;
    target = jt() + word;
    stack = top() - 1 + below(bound() - top() + 2);
    if (percent(50) && bound() >= top() + 7)    /* leaves room for the next */
        stack = bound() - below(8);
    switch (below(24)) {
    case 0: site = percent(50) ? near(start(d)) : near(end(d)); break;
    case 1: target = percent(50) ? near(start(d)) : near(end(d)); break;
    case 2: target = percent(50) ? near(jt()) : near(jt() + 1024); break;
    case 3: target = below(65536); break;
    case 4: stack = percent(50) ? near(top() - 1) : near(bound()); break;
    case 5: stack = percent(50) ? below(65536) : near(RAM); break;
    case 6: site = below(65536); break;
    case 7: case 8: case 9: case 10: case 11: target = word_of(d); break;
    default: break;
    }
    return run3(CALL, target, site, stack);
}

static unsigned do_malloc(void)
{
    unsigned room = safe() - heap(), size = between(1, 40), off = below(3);

    switch (below(16)) {
    case 0: size = 8 * between(1, 8) + off - 1; break;
    case 1: size = near(room + 8); break;
    case 2: size = between(0, room + 9); break;
    case 3: size = percent(50) ? 65535 - below(9) : below(65536); break;
    case 4: size = 0; break;
    default: break;
    }
    return run3(MALLOC, size, 0, 0);
}

static unsigned segment_address(void)
{
    unsigned own = 2 * domain() + 1, off = between(1, 8);

    switch (below(12)) {
    case 0: return block_with(0, 15);
    case 1: return block_with(0, 13);
    case 2: return percent(50) ? near(heap()) : near(safe());
    case 3: return percent(50) ? below(65536) : bot() + 8 * below(512);
    case 4: return block_with(own, own) + off;
    default: return block_with(own, own);
    }
}

static unsigned do_free(void)
{
    return run3(FREE, segment_address(), 0, 0);
}

static unsigned do_change(void)
{
    unsigned address = segment_address();
    unsigned to = percent(90) ? below(7) : percent(50) ? near(7) : below(256);

    return run3(CHANGE, address, to, 0);
}

/* One operation that mostly succeeds. */
static void steered(void)
{
    unsigned roll = below(100);
    bool at_bottom = pointer() == safe();

    if (roll < 2) {
        unsigned f = below(FUNCTIONS), a = below(65536), b = below(65536);
        run_wrong_length((enum function)f, a, b, below(65536));
    } else if (domain() == TRUSTED && roll < 94) {
        if (roll < (at_bottom ? 60 : 35))
            do_call();
        else if (roll < 75 || (at_bottom && roll < 90))
            do_trusted_store();
        else
            run3(RETURN, 0, 0, 0);
    } else if (domain() == TRUSTED) {           /* what it may not do */
        if (roll < 96)
            do_malloc();
        else if (roll < 98)
            do_free();
        else
            do_change();
    } else if (roll < 25) {
        do_store();
    } else if (roll < 48) {
        if (holds_segment() && percent(45))
            do_free();
        else
            do_malloc();
    } else if (roll < 54) {
        do_free();
    } else if (roll < 62) {
        do_change();
    } else if (roll < 80) {
        if (do_call() == 12)
            run3(RETURN, 0, 0, 0);
    } else {
        run3(RETURN, 0, 0, 0);
    }
}

/* ---- configurations ------------------------------------------------------ */

static void put(unsigned at, unsigned number)
{
    hmt_put(slot2, at, (uint16_t)number);
}

/* Four good RAM addresses: of every size, with empty parts now and then. A
   roomy unit has a heap and a safe stack worth a long run. */
static void good_memory(bool roomy)
{
    unsigned b = below(511), t, h, s, room;

    if (percent(30))
        b = 0;
    t = percent(30) ? 512 : between(b + 1, 512);
    if (roomy) {
        b = below(256);
        t = b + between(32, 256);
    }
    /* in blocks from here: the map needs ((t - b + 1) / 2) / 8 rounded up */
    room = b + ((t - b + 1) / 2 + 7) / 8;
    h = percent(70) ? room : between(room, t);
    s = between(h, t);
    if (percent(5))
        s = h;
    if (percent(5))
        s = t;
    if (roomy) {
        h = percent(50) ? room : room + below(4);
        s = t - (t - h) / between(3, 6);
    }
    put(HMT_SLOT_BOT, 8 * b);
    put(HMT_SLOT_HEAP, 8 * h);
    put(HMT_SLOT_SAFE, 8 * s);
    put(HMT_SLOT_TOP, 8 * t);
}

static int by_size(const void *a, const void *b)
{
    return *(const int *)a - *(const int *)b;
}

/* Good code ranges: cuts of 0 to jt, sorted; domains rising, trusted code first
   and then rising, or in any order. */
static void good_ranges(bool roomy)
{
    unsigned base = percent(20) ? 64512 : below(percent(20) ? 65 : 64513);
    unsigned order[8] = { 0, 1, 2, 3, 4, 5, 6, 7 }, d, i;
    unsigned empty = percent(50) ? 0 : 25, kind = below(10);
    int cut[16];

    if (roomy) {
        base = between(2000, 64512);
        empty = percent(50) ? 0 : 3;
    }
    for (i = 0; i < 16; i++)
        cut[i] = (int)below(base + 1);
    qsort(cut, 16, sizeof cut[0], by_size);
    if (percent(50))                            /* each touches the next */
        for (i = 1; i < 8; i++)
            cut[2 * i] = cut[2 * i - 1];
    if (percent(20))                            /* word 0 is code too */
        cut[0] = 0;
    for (i = 7; i > 0 && kind > 2; i--) {
        unsigned j = kind > 4 ? below(i + 1) : i - 1, held = order[i];
        order[i] = order[j];
        order[j] = held;
    }
    put(HMT_SLOT_JT, base);
    for (i = 0; i < 8; i++) {
        d = order[i];
        put(HMT_SLOT_START(d), (unsigned)cut[2 * i]);
        put(HMT_SLOT_END(d), (unsigned)cut[2 * i + 1]);
        if (percent(empty)) {       /* empty, and perhaps inside another */
            unsigned at = percent(50) ? 0 : below(base + 1);
            put(HMT_SLOT_START(d), at);
            put(HMT_SLOT_END(d), at);
        }
    }
}

/* A jump table that mostly leads into the code of its domains. */
static void new_table(void)
{
    unsigned i;

    protect(table.page, table.page_length, PROT_READ | PROT_WRITE);
    place(&table, percent(50));
    for (i = 0; i < 1024; i++) {
        unsigned d = i / 128, entry = word_of(d);
        switch (below(24)) {
        case 0: entry = 0; break;
        case 1: entry = below(65536); break;
        case 2: entry = near(end(d)); break;
        case 3: entry = near(start(d)); break;
        default: break;
        }
        hmt_put_entry(table2, i, (uint16_t)entry);
    }
    memcpy(table.bytes, table2, TABLE);
    protect(table.page, table.page_length, PROT_READ);
}

static void fill_random(uint8_t *bytes, unsigned length)
{
    unsigned i;

    for (i = 0; i < length; i++)
        bytes[i] = (uint8_t)below(256);
}

/* Slot and RAM from the partner's bytes to the subject, at a new place. */
static void lend(void)
{
    place(&slot, percent(50));
    place(&ram, percent(50));
    copy_over();
}

static void new_unit(bool roomy)
{
    good_memory(roomy);
    good_ranges(roomy);
    fill_random(slot2 + HMT_SLOT_BOUND, SLOT - HMT_SLOT_BOUND);
    if (percent(50))
        memset(ram2, 0, RAM);
    else
        fill_random(ram2, RAM);
    new_table();
    lend();
}

/* ---- runs ---------------------------------------------------------------- */

/* A set-up and what may follow it. */
static void long_run(void)
{
    unsigned left = between(100, 1000);

    new_unit(percent(85));
    if (run3(SET_UP, 0, 0, 0) == 0)
        while (left-- > 0)
            steered();
}

/* Any good state, over a map and a safe stack that a run may not have left. */
static void fresh_state(void)
{
    unsigned i, at;

    put(HMT_SLOT_BOUND, between(top() - 1, RAM - 1));
    if (percent(20))
        put(HMT_SLOT_BOUND, percent(50) ? top() - 1 : RAM - 1);
    put(HMT_SLOT_POINTER, between(safe(), top()));
    if (percent(60) && top() - safe() >= 8)
        put(HMT_SLOT_POINTER, percent(50) ? safe() + below(8)
            : top() - below(8));
    slot2[HMT_SLOT_DOMAIN] = (uint8_t)below(8);
    slot2[HMT_SLOT_ZERO] = 0;
    if (percent(50))            /* long segments and free runs */
        for (i = bot(); i < bot() + (top() - bot() + 8) / 16; i++) {
            ram2[i] = percent(30) ? 0xff : (uint8_t)(34 * below(7));
            ram2[i] |= (uint8_t)below(2);
        }
    /* a frame that may be right, but for where it begins */
    if (pointer() >= 5) {
        unsigned tag = percent(40) ? 255 : below(9);
        unsigned length = tag == 255 ? 3 : 5;
        unsigned site = word_of(tag < 8 ? tag : domain());
        if (percent(20))
            site = tag < 8 && percent(50) ? near(end(tag)) : below(65536);
        at = pointer() - length;
        hmt_put(ram2, at, (uint16_t)site);
        if (length == 5)
            hmt_put(ram2, at + 2, (uint16_t)(percent(30) ? near(bound())
                : percent(30) ? near(RAM) : between(bound(), RAM - 1)));
        ram2[at + length - 1] = (uint8_t)tag;
    }
    lend();
}

static void strange_run(void)
{
    unsigned left = between(4, 20), i;

    new_unit(false);
    while (left-- > 0) {
        fresh_state();
        for (i = below(6) + 1; i > 0; i--)
            if (percent(40))
                run3(RETURN, 0, 0, 0);
            else
                steered();
    }
}

static unsigned highest_end(void)
{
    unsigned d, highest = 0;

    for (d = 0; d < 8; d++)
        if (end(d) > highest)
            highest = end(d);
    return highest;
}

/* Breaks one rule of the configuration, or nearly. */
static void break_config(void)
{
    unsigned d = below(8), e = (d + between(1, 7)) % 8, any = below(65536);
    unsigned map = (top() - bot() + 8) / 16;

    switch (below(19)) {
    case 0: put(HMT_SLOT_BOT, bot() + between(1, 7)); break;
    case 1: put(HMT_SLOT_HEAP, heap() + between(1, 7)); break;
    case 2: put(HMT_SLOT_SAFE, safe() + between(1, 7)); break;
    case 3: put(HMT_SLOT_TOP, top() - between(1, 7)); break;
    case 4: put(HMT_SLOT_BOT, top()); break;
    case 5: put(HMT_SLOT_HEAP, (bot() + map - 1) / 8 * 8); break;
    case 17:                    /* the map is one byte too long */
        map = (RAM - 8 - bot()) / 128;
        if (map > 0) {
            map = between(1, map);
            put(HMT_SLOT_HEAP, bot() + 8 * map);
            put(HMT_SLOT_SAFE, bot() + 8 * between(map, 16 * map + 1));
            put(HMT_SLOT_TOP, bot() + 8 * (16 * map + 1));
        }
        break;
    case 6: put(HMT_SLOT_SAFE, heap() - 8); break;
    case 7: put(HMT_SLOT_SAFE, top() + 8); break;
    case 8: put(HMT_SLOT_TOP, RAM + 8); break;
    case 9: put(HMT_SLOT_JT, 64512 + between(1, percent(50) ? 1 : 1023)); break;
    case 10: put(HMT_SLOT_START(d), end(d) + 1); break;
    case 11: put(HMT_SLOT_END(d), jt() + between(1, 2)); break;
    case 12: put(HMT_SLOT_JT, highest_end() - below(2)); break;
    case 13:
        if (percent(50))
            e = (d + 7) % 8;    /* the one before it, in rising order */
        put(HMT_SLOT_START(d), end(e) - below(2));
        break;
    case 14:
        if (percent(50)) {
            d = TRUSTED;
            e = percent(50) ? 0 : below(7);
        }
        put(HMT_SLOT_END(d), start(e) + below(2));
        break;
    case 15:
        put(HMT_SLOT_START(d), start(e));
        put(HMT_SLOT_END(d), end(e));
        break;
    case 16:
        put(HMT_SLOT_START(d), word_of(e));
        put(HMT_SLOT_END(d), start(d) + below(2));
        break;
    default: put(2 * below(21), any); break;
    }
}

/* Breaks the state, or nearly. */
static void break_state(void)
{
    unsigned any = below(65536);

    switch (below(9)) {
    case 0: slot2[HMT_SLOT_DOMAIN] = (uint8_t)between(8, 255); break;
    case 1: slot2[HMT_SLOT_DOMAIN] = (uint8_t)near(8); break;
    case 2: put(HMT_SLOT_BOUND, near(top() - 1)); break;
    case 3: put(HMT_SLOT_BOUND, near(RAM)); break;
    case 4: put(HMT_SLOT_POINTER, near(safe())); break;
    case 5: put(HMT_SLOT_POINTER, near(top())); break;
    case 6: put(HMT_SLOT_BOUND + 2 * below(2), any); break;
    case 7: slot2[HMT_SLOT_ZERO] = (uint8_t)(1u << below(8)); break;
    default: slot2[HMT_SLOT_ZERO] = (uint8_t)between(1, 255); break;
    }
}

/* Every function once, with operands that would do in a good state, so that
   only the slot decides. */
static void every_function(void)
{
    unsigned d = domain() % 8, code = 2 * d + 1;
    unsigned any = below(65536), site = word_of(d), target = word_of(d);

    run3(STORE, percent(50) ? any % RAM : any, any / 256, 0);
    run3(CALL, jt() + below(1024), site, bound());
    run3(CALL, target, site, 0);
    run3(RETURN, 0, 0, 0);
    run3(MALLOC, between(1, 16), 0, 0);
    if (bot() < top() && top() <= RAM && heap() >= bot() && safe() <= top()
        && heap() <= safe()) {
        run3(FREE, block_with(code, code), 0, 0);
        run3(CHANGE, block_with(code, code), any % 7, 0);
    }
    run3(SET_UP, 0, 0, 0);
}

static void broken_run(void)
{
    uint8_t whole[SLOT];
    unsigned left;

    new_unit(false);
    memcpy(whole, slot2, SLOT);
    for (left = 12; left > 0; left--) {
        memcpy(slot2, whole, SLOT);
        fresh_state();
        if (percent(60))
            break_config();
        else
            break_state();
        lend();
        every_function();
    }
}

/* A slot of random bytes, or a good one with a few; random operands. */
static void random_run(void)
{
    unsigned i, f, a, b;

    new_unit(false);
    fresh_state();
    if (percent(50))
        fill_random(slot2, SLOT);
    else
        for (i = between(1, 3); i > 0; i--) {
            a = below(SLOT);
            slot2[a] = (uint8_t)below(256);
        }
    lend();
    for (i = 1; i <= FUNCTIONS; i++) {  /* set-up last: it makes a state */
        f = i % FUNCTIONS;
        a = below(65536);
        b = below(65536);
        run3((enum function)f, a, b, below(65536));
    }
}

static void wrong_length_run(void)
{
    unsigned i, a, b;

    new_unit(false);
    fresh_state();
    if (percent(30))
        break_state();
    lend();
    for (i = 0; i < FUNCTIONS; i++) {
        a = below(65536);
        b = below(65536);
        run_wrong_length((enum function)i, a, b, below(65536));
    }
}

/* ---- the count ------------------------------------------------------------ */

static int count(void)
{
    unsigned f, n, passed = 0, failed = 0;
    unsigned long done = 0;

    for (f = 0; f < FUNCTIONS; f++) {
        printf("%-7s", names[f]);
        done += came[f][0];
        for (n = 0; n <= OTHER; n++) {
            bool expected = n < OTHER && (can_come[f] & BIT(n)) != 0;
            if (came[f][n] > 0)
                printf(" %u:%lu", n, came[f][n]);
            if (expected && came[f][n] == 0)
                printf(" %u:NEVER", n);
            if (differed[f][n] > 0)
                printf("(%lu DIFFERENT)", differed[f][n]);
            if (expected && came[f][n] > 0 && differed[f][n] == 0)
                passed++;
            else if (expected || came[f][n] > 0)
                failed++;
        }
        printf("\n");
    }
    printf("%lu operations, %lu %% of them done\n", operations,
        100 * done / (operations ? operations : 1));
    printf("c-compare: %u passed, %u failed\n", passed, failed);
    return failed != 0;
}

int main(int words, char **word)
{
    unsigned long wanted = words > 1 ? strtoul(word[1], NULL, 10) : 200000;
    unsigned long seed = words > 2 ? strtoul(word[2], NULL, 10) : 1;

    chance = seed;
    printf("%s beside the second program's machine, seed %lu\n",
        subject->name, seed);
    fflush(stdout);
    make_memory();
    while (operations < wanted) {
        unsigned roll = below(100);
        if (roll < 26)
            long_run();
        else if (roll < 52)
            strange_run();
        else if (roll < 80)
            broken_run();
        else if (roll < 92)
            random_run();
        else
            wrong_length_run();
    }
    return count();
}
