/*
 * What a call of each function costs, for ./bench:
 *
 *     harness list                    the cases, one to a line
 *     harness count SUBJECT REPEATS   every case so many times, for a program
 *                                     that counts instructions from one call
 *                                     of case_done() to the next
 *     harness time ROUNDS             nanoseconds for each case and subject:
 *                                     the median of so many rounds
 *
 * A case is one operation in one state, made again and again: after each the
 * bytes that it changed are put back. The subject `nothing` has functions that
 * do nothing; what its loop costs is what the loop costs.
 */
#define _DEFAULT_SOURCE

#include "subject.h"

#include <stdio.h>
#include <stdlib.h>
#include <string.h>
#include <time.h>

enum function { SET_UP, STORE, CALL, RETURN, MALLOC, FREE, CHANGE };

static const char *const names[] = {
    "set_up", "store", "call", "return", "malloc", "free", "change"
};

/* ---- nothing --------------------------------------------------------------- */

/* One body for all: C leaves unused arguments alone in every convention. */
#define UNUSED4 (void)r, (void)rl, (void)q, (void)ql

static uint32_t no_op(uint8_t *r, size_t rl, uint8_t *q, size_t ql)
{
    UNUSED4;
    return 0;
}

static uint32_t no_word(uint8_t *r, size_t rl, uint8_t *q, size_t ql,
    uint16_t a)
{
    UNUSED4, (void)a;
    return 0;
}

static uint32_t no_byte(uint8_t *r, size_t rl, uint8_t *q, size_t ql,
    uint16_t a, uint8_t b)
{
    UNUSED4, (void)a, (void)b;
    return 0;
}

static uint32_t no_call(uint8_t *r, size_t rl, uint8_t *q, size_t ql,
    const uint8_t *t, size_t tl, uint16_t a, uint16_t b, uint16_t c)
{
    UNUSED4, (void)t, (void)tl, (void)a, (void)b, (void)c;
    return 0;
}

static const struct subject nothing = {
    "nothing", no_op, no_byte, no_call, no_op, no_word, no_word, no_byte
};

static const struct subject *const subjects[] = { &library, &plain, &nothing };
enum { SUBJECTS = 3 };

/* ---- states ------------------------------------------------------------------ */

static uint8_t ram[HMT_RAM_BYTES], slot[HMT_SLOT_BYTES], table[HMT_TABLE_BYTES];

#define UNIT ram, sizeof ram, slot, sizeof slot

/* Where the eight code ranges lie: 100 words each, or empty. */
enum layout { RISING, TRUSTED_FIRST, THREE, FALLING };

static struct hmt_config config_of(enum layout layout)
{
    struct hmt_config c = { 256, 512, 1920, 2048, 4096, { { 0, 0 } } };
    unsigned d, place;

    for (d = 0; d < HMT_DOMAINS; d++) {
        if (layout == THREE && d > 1 && d < HMT_TRUSTED)
            continue;           /* stays 0 to 0 */
        place = layout == RISING ? d : layout == FALLING ? 7 - d : (d + 1) % 8;
        c.code[d].start = (uint16_t)(100 + 100 * place);
        c.code[d].end = (uint16_t)(200 + 100 * place);
    }
    return c;
}

static unsigned site(unsigned d)
{
    return hmt_get(slot, HMT_SLOT_START(d)) + 50u;
}

static void must(uint32_t answer)
{
    if (HMT_NUMBER(answer) != 0) {
        printf("harness: a state could not be made\n");
        exit(2);
    }
}

static void call_into(unsigned from, unsigned to, unsigned pointer)
{
    must(plain.call(UNIT, table, sizeof table,
        (uint16_t)(4096 + HMT_TABLE_WORD(to, 0)), (uint16_t)site(from),
        (uint16_t)pointer));
}

static void take(unsigned bytes, unsigned times)
{
    while (times-- > 0)
        must(plain.take(UNIT, (uint16_t)bytes));
}

enum state {
    FRESH,      /* after set-up */
    MODULE,     /* domain 0 runs; the heap as below */
    LOCAL,      /* the same, one local call deep */
    FULL,       /* the same, no room for a frame */
    DAMAGED,    /* the same, the newest frame's tag is 9 */
    BYTE_47,    /* the same, byte 47 is 1 */
    OVERLAP,    /* the same, ranges 6 and 7 share a word */
    SKEW        /* fresh, heap not a multiple of 8 */
};

/* The heap of MODULE: 1 block at 512 and 8 blocks at 520 for domain 0, 3 at
   584 for domain 1, 40 blocks from 608 of which every second is free, 24 of
   domain 0 at 928, the rest free from 1120. */
static void make_state(enum state state, enum layout layout)
{
    struct hmt_config c = config_of(layout);
    unsigned i;

    memset(ram, 0, sizeof ram);
    memset(table, 0, sizeof table);
    for (i = 0; i < HMT_DOMAINS; i++)
        hmt_put_entry(table, HMT_TABLE_WORD(i, 0), c.code[i].start);
    hmt_put_entry(table, HMT_TABLE_WORD(1, 1), c.code[1].end);
    hmt_configure(slot, &c);
    must(plain.set_up(UNIT));
    if (state == SKEW)
        slot[HMT_SLOT_HEAP] = 4;
    if (state == FRESH || state == SKEW)
        return;
    call_into(HMT_TRUSTED, 0, 4000);
    take(8, 1);
    take(64, 1);
    call_into(0, 1, 3900);
    take(24, 1);
    must(plain.back(UNIT));
    take(8, 40);
    for (i = 0; i < 40; i += 2)
        must(plain.give_back(UNIT, (uint16_t)(608 + 8 * i)));
    take(192, 1);
    if (state == LOCAL)
        must(plain.call(UNIT, table, sizeof table, (uint16_t)site(0),
            (uint16_t)site(0), 0));
    while (state == FULL && hmt_get(slot, HMT_SLOT_POINTER) + 3 <= 2048)
        must(plain.call(UNIT, table, sizeof table, (uint16_t)site(0),
            (uint16_t)site(0), 0));
    if (state == DAMAGED)
        ram[hmt_get(slot, HMT_SLOT_POINTER) - 1] = 9;
    if (state == BYTE_47)
        slot[HMT_SLOT_ZERO] = 1;
    if (state == OVERLAP)
        hmt_put(slot, HMT_SLOT_START(7), (uint16_t)(c.code[6].end - 1));
}

/* ---- cases ------------------------------------------------------------------- */

struct test_case {
    enum function function;
    const char *what;
    unsigned number;            /* the answer that is expected */
    enum state state;
    enum layout layout;
    unsigned a, b, c;
    unsigned slot_length;
};

#define CASE(function, what, number, state, a, b, c) \
    { function, what, number, state, RISING, a, b, c, HMT_SLOT_BYTES }
#define SHORT_SLOT(function) \
    { function, "slot of 47 bytes", 1, MODULE, RISING, 0, 0, 0, 47 }
#define LAID_OUT(layout, what) \
    { STORE, what, 0, MODULE, layout, 512, 1, 0, HMT_SLOT_BYTES }

static const struct test_case cases[] = {
    CASE(SET_UP, "done", 0, FRESH, 0, 0, 0),
    SHORT_SLOT(SET_UP),
    CASE(SET_UP, "heap not a multiple of 8", 2, SKEW, 0, 0, 0),
    CASE(SET_UP, "last two ranges overlap", 2, OVERLAP, 0, 0, 0),
    CASE(STORE, "own block", 0, MODULE, 512, 1, 0),
    CASE(STORE, "stack", 0, MODULE, 3000, 1, 0),
    CASE(STORE, "trusted", 0, FRESH, 512, 1, 0),
    SHORT_SLOT(STORE),
    CASE(STORE, "byte 47 is 1", 3, BYTE_47, 512, 1, 0),
    CASE(STORE, "last two ranges overlap", 3, OVERLAP, 512, 1, 0),
    CASE(STORE, "address 4096", 4, MODULE, 4096, 1, 0),
    CASE(STORE, "below bot", 5, MODULE, 255, 1, 0),
    CASE(STORE, "block of another", 5, MODULE, 584, 1, 0),
    CASE(STORE, "above the bound", 6, MODULE, 4001, 1, 0),
    CASE(CALL, "local", 0, MODULE, 150, 160, 0),
    CASE(CALL, "cross-domain", 0, MODULE, 4096 + 128, 150, 3900),
    SHORT_SLOT(CALL),
    CASE(CALL, "byte 47 is 1", 3, BYTE_47, 150, 160, 0),
    CASE(CALL, "site outside", 7, MODULE, 150, 250, 0),
    CASE(CALL, "local target outside", 8, MODULE, 250, 150, 0),
    CASE(CALL, "past the tables", 9, MODULE, 4096 + 1024, 150, 3900),
    CASE(CALL, "entry outside", 10, MODULE, 4096 + 129, 150, 3900),
    CASE(CALL, "pointer above the bound", 11, MODULE, 4096 + 128, 150, 4001),
    CASE(CALL, "no room for the frame", 12, FULL, 4096 + 128, 150, 3900),
    CASE(RETURN, "local", 0, LOCAL, 0, 0, 0),
    CASE(RETURN, "cross-domain", 0, MODULE, 0, 0, 0),
    SHORT_SLOT(RETURN),
    CASE(RETURN, "byte 47 is 1", 3, BYTE_47, 0, 0, 0),
    CASE(RETURN, "no call open", 13, FRESH, 0, 0, 0),
    CASE(RETURN, "damaged tag", 14, DAMAGED, 0, 0, 0),
    CASE(MALLOC, "1 block, the 13th of the heap", 0, MODULE, 8, 0, 0),
    CASE(MALLOC, "2 blocks, after 76 others", 0, MODULE, 16, 0, 0),
    CASE(MALLOC, "24 blocks, after 76 others", 0, MODULE, 192, 0, 0),
    SHORT_SLOT(MALLOC),
    CASE(MALLOC, "byte 47 is 1", 3, BYTE_47, 8, 0, 0),
    CASE(MALLOC, "trusted", 15, FRESH, 8, 0, 0),
    CASE(MALLOC, "size 0", 16, MODULE, 0, 0, 0),
    CASE(MALLOC, "no run: 101 blocks", 17, MODULE, 808, 0, 0),
    CASE(FREE, "1 block", 0, MODULE, 512, 0, 0),
    CASE(FREE, "8 blocks", 0, MODULE, 520, 0, 0),
    CASE(FREE, "24 blocks", 0, MODULE, 928, 0, 0),
    SHORT_SLOT(FREE),
    CASE(FREE, "byte 47 is 1", 3, BYTE_47, 512, 0, 0),
    CASE(FREE, "no segment starts there", 18, MODULE, 528, 0, 0),
    CASE(FREE, "another's", 19, MODULE, 584, 0, 0),
    CASE(CHANGE, "1 block", 0, MODULE, 512, 1, 0),
    CASE(CHANGE, "8 blocks", 0, MODULE, 520, 1, 0),
    CASE(CHANGE, "24 blocks", 0, MODULE, 928, 1, 0),
    SHORT_SLOT(CHANGE),
    CASE(CHANGE, "byte 47 is 1", 3, BYTE_47, 512, 1, 0),
    CASE(CHANGE, "no segment starts there", 18, MODULE, 528, 1, 0),
    CASE(CHANGE, "another's", 19, MODULE, 584, 1, 0),
    CASE(CHANGE, "new domain 7", 20, MODULE, 512, 7, 0),
    LAID_OUT(TRUSTED_FIRST, "own block; trusted code first, then 0 to 6"),
    LAID_OUT(THREE, "own block; trusted code first, 0, 1, five empty"),
    LAID_OUT(FALLING, "own block; ranges in falling order"),
};
enum { CASES = sizeof cases / sizeof cases[0] };

/* ---- the loop ---------------------------------------------------------------- */

/* What an operation can change and a second one would meet: the end of the
   slot, and 16 bytes of the map from the first one that it changed. */
enum { SLOT_UNDO = 40, WINDOW = 16 };
static uint8_t slot_was[8], window_was[WINDOW], *window;

static inline void undo(void)
{
    memcpy(slot + SLOT_UNDO, slot_was, sizeof slot_was);
    memcpy(window, window_was, WINDOW);
}

static void __attribute__((noinline)) repeat(const struct subject *s,
    const struct test_case *t, unsigned long times)
{
    size_t ql = t->slot_length;
    uint16_t a = (uint16_t)t->a, b = (uint16_t)t->b, c = (uint16_t)t->c;

#define LOOP(call) for (; times > 0; times--) { call; undo(); } break
    switch (t->function) {
    case SET_UP: LOOP(s->set_up(ram, sizeof ram, slot, ql));
    case STORE: LOOP(s->store(ram, sizeof ram, slot, ql, a, (uint8_t)b));
    case CALL: LOOP(s->call(ram, sizeof ram, slot, ql, table, sizeof table,
        a, b, c));
    case RETURN: LOOP(s->back(ram, sizeof ram, slot, ql));
    case MALLOC: LOOP(s->take(ram, sizeof ram, slot, ql, a));
    case FREE: LOOP(s->give_back(ram, sizeof ram, slot, ql, a));
    case CHANGE: LOOP(s->change(ram, sizeof ram, slot, ql, a, (uint8_t)b));
    }
}

static uint32_t once(const struct subject *s, const struct test_case *t)
{
    size_t ql = t->slot_length;
    uint16_t a = (uint16_t)t->a, b = (uint16_t)t->b, c = (uint16_t)t->c;

    switch (t->function) {
    case SET_UP: return s->set_up(ram, sizeof ram, slot, ql);
    case STORE: return s->store(ram, sizeof ram, slot, ql, a, (uint8_t)b);
    case CALL: return s->call(ram, sizeof ram, slot, ql, table, sizeof table,
        a, b, c);
    case RETURN: return s->back(ram, sizeof ram, slot, ql);
    case MALLOC: return s->take(ram, sizeof ram, slot, ql, a);
    case FREE: return s->give_back(ram, sizeof ram, slot, ql, a);
    default: return s->change(ram, sizeof ram, slot, ql, a, (uint8_t)b);
    }
}

/* Makes the state and sees that the subject answers what is expected, also
   after the undoing: a loop that measures something else is worth nothing. */
static void prepare(const struct subject *s, const struct test_case *t)
{
    static uint8_t ram_was[HMT_RAM_BYTES];
    unsigned i, at = 256, last = 256, tries;

    make_state(t->state, t->layout);
    memcpy(ram_was, ram, sizeof ram);
    memcpy(slot_was, slot + SLOT_UNDO, sizeof slot_was);
    once(s == &nothing ? &plain : s, t);
    if (t->function >= MALLOC) {
        for (i = 512; i-- > 256; )
            if (ram[i] != ram_was[i]) {
                at = i;
                last = last == 256 ? i : last;
            }
    }
    if (last - at >= WINDOW) {
        printf("harness: %s changes too much of the map\n", t->what);
        exit(2);
    }
    window = ram + at;
    memcpy(window_was, ram_was + at, WINDOW);
    if (t->function == SET_UP)
        memcpy(window_was, ram + at, WINDOW);
    undo();
    for (tries = 0; tries < 2; tries++) {
        if (s != &nothing && HMT_NUMBER(once(s, t)) != t->number) {
            printf("harness: %s: %s, %s: not the answer %u\n", s->name,
                names[t->function], t->what, t->number);
            exit(1);
        }
        undo();
    }
}

/* The mark between two cases, where a counter can stop. */
void __attribute__((noinline)) case_done(void);
void case_done(void)
{
    __asm__ volatile ("" ::: "memory");
}

static int count(const char *name, unsigned long times)
{
    const struct subject *s = NULL;
    unsigned i;

    for (i = 0; i < SUBJECTS; i++)
        if (strcmp(name, subjects[i]->name) == 0)
            s = subjects[i];
    if (s == NULL)
        return 2;
    for (i = 0; i < CASES; i++) {
        prepare(s, &cases[i]);
        repeat(s, &cases[i], times);
        case_done();
    }
    return 0;
}

/* ---- time -------------------------------------------------------------------- */

static double seconds(void)
{
    struct timespec t;

    clock_gettime(CLOCK_THREAD_CPUTIME_ID, &t);
    return (double)t.tv_sec + (double)t.tv_nsec * 1e-9;
}

static int by_size(const void *a, const void *b)
{
    double x = *(const double *)a, y = *(const double *)b;

    return (x > y) - (x < y);
}

/* A line for each case: the nanoseconds of a call for each subject. The
   subjects take turns, so that a busy moment meets all of them. */
static int measure(unsigned rounds)
{
    enum { TIMES = 20000, MOST = 1001 };
    static double took[SUBJECTS][MOST];
    unsigned i, r, s;

    if (rounds == 0 || rounds > MOST)
        return 2;
    for (i = 0; i < CASES; i++) {
        for (r = 0; r < rounds; r++)
            for (s = 0; s < SUBJECTS; s++) {
                double before;
                prepare(subjects[s], &cases[i]);
                repeat(subjects[s], &cases[i], TIMES / 10);
                before = seconds();
                repeat(subjects[s], &cases[i], TIMES);
                took[s][r] = (seconds() - before) / TIMES * 1e9;
            }
        for (s = 0; s < SUBJECTS; s++) {
            qsort(took[s], rounds, sizeof took[s][0], by_size);
            printf("%.2f%c", took[s][rounds / 2], s + 1 < SUBJECTS ? ' ' : '\n');
        }
    }
    return 0;
}

static int list(void)
{
    unsigned i;

    for (i = 0; i < CASES; i++)
        printf("%s\t%s\t%u\n", names[cases[i].function], cases[i].what,
            cases[i].number);
    return 0;
}

int main(int words, char **word)
{
    if (words == 2 && strcmp(word[1], "list") == 0)
        return list();
    if (words == 4 && strcmp(word[1], "count") == 0)
        return count(word[2], strtoul(word[3], NULL, 10));
    if (words == 3 && strcmp(word[1], "time") == 0)
        return measure((unsigned)strtoul(word[2], NULL, 10));
    printf("usage: harness list | count SUBJECT REPEATS | time ROUNDS\n");
    return 2;
}
