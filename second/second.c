/*
 * The script program (scope document, section 7): a script on standard input,
 * its run on standard output. Over machine.c.
 *
 * The exit status is 0 whatever the script says; it is 1 only if reading or
 * writing itself failed.
 */
#include "machine.h"

#include <stdbool.h>
#include <stdio.h>

enum {
    LONGEST = 65536,                    /* bytes in a script */
    VERSION = 1
};

/* The unread part of the script. */
struct reader {
    const uint8_t *next, *end;
    bool cut;                           /* something was read past the end */
};

/* One byte, or 0 and the mark `cut` if there is none. */
static uint8_t read8(struct reader *r)
{
    if (r->next == r->end) {
        r->cut = true;
        return 0;
    }
    return *r->next++;
}

/* Sixteen bits, low byte first. */
static uint16_t read16(struct reader *r)
{
    uint8_t low = read8(r);
    return (uint16_t)(low + 256 * read8(r));
}

/* Section 7, the header. False is `bad`: wrong mark or version, cut, or a
   table index above 1023. */
static bool read_header(struct reader *r, struct machine_config *c,
    uint16_t *table)
{
    const char *mark;
    unsigned i, count;

    for (mark = "HMT"; *mark; mark++)
        if (read8(r) != (uint8_t)*mark)
            return false;
    if (read8(r) != VERSION)
        return false;
    c->bot = read16(r);
    c->heap = read16(r);
    c->safe = read16(r);
    c->top = read16(r);
    c->jt = read16(r);
    for (i = 0; i < MACHINE_DOMAINS; i++) {
        c->code[i].start = read16(r);
        c->code[i].end = read16(r);
    }
    for (i = 0; i < MACHINE_TABLE; i++)
        table[i] = 0;
    count = read16(r);
    for (i = 0; i < count && !r->cut; i++) {
        uint16_t index = read16(r), entry = read16(r);
        if (index >= MACHINE_TABLE)
            return false;
        table[index] = entry;           /* later ones win */
    }
    return !r->cut;
}

/* Section 7, one operation: reads it and, if it is whole, runs it. False is
   `cut`: an unknown number or operands that are not all there. */
static bool step(struct reader *r, struct machine_state *s, uint8_t *ram,
    const uint16_t *table, struct machine_answer *answer)
{
    uint8_t operation = read8(r), byte = 0;
    uint16_t a = 0, b = 0, c = 0;

    switch (operation) {
    case 1: case 6: a = read16(r); byte = read8(r); break;
    case 2: a = read16(r); b = read16(r); c = read16(r); break;
    case 3: break;
    case 4: case 5: a = read16(r); break;
    default: return false;
    }
    if (r->cut)
        return false;
    switch (operation) {
    case 1: *answer = machine_store(s, ram, MACHINE_RAM, a, byte); break;
    case 2: *answer = machine_call(s, ram, MACHINE_RAM, table, MACHINE_TABLE,
        a, b, c); break;
    case 3: *answer = machine_return(s, ram, MACHINE_RAM); break;
    case 4: *answer = machine_malloc(s, ram, MACHINE_RAM, a); break;
    case 5: *answer = machine_free(s, ram, MACHINE_RAM, a); break;
    default: *answer = machine_change(s, ram, MACHINE_RAM, a, byte); break;
    }
    return true;
}

/* Section 7, the run of a script that is not too long. */
static void run(const uint8_t *script, size_t length)
{
    struct reader r = { script, script + length, false };
    struct machine_config config;
    struct machine_state state;
    struct machine_answer answer;
    uint16_t table[MACHINE_TABLE];
    uint8_t ram[MACHINE_RAM] = { 0 };
    unsigned count;

    if (!read_header(&r, &config, table)) {
        puts("bad");
        return;
    }
    answer = machine_setup(&state, &config, ram, MACHINE_RAM);
    printf("HMT %d\nsetup %u\n", VERSION, (unsigned)answer.number);
    if (answer.number != 0)
        return;
    for (count = 1; r.next != r.end; count++) {
        if (!step(&r, &state, ram, table, &answer)) {
            puts("cut");
            return;
        }
        printf("%u %u %u %u %u %u\n", count, (unsigned)answer.number,
            (unsigned)answer.value, (unsigned)state.domain,
            (unsigned)state.bound, (unsigned)state.pointer);
    }
}

int main(void)
{
    uint8_t script[LONGEST + 1];        /* one more, to see `long` */
    size_t length = fread(script, 1, sizeof script, stdin);

    if (ferror(stdin)) {
        fputs("second: standard input cannot be read\n", stderr);
        return 1;
    }
    if (length > LONGEST)
        puts("long");
    else
        run(script, length);
    if (fflush(stdout) != 0 || ferror(stdout)) {
        fputs("second: standard output cannot be written\n", stderr);
        return 1;
    }
    return 0;
}
