/*
 * The step machine of the scope document, sections 2 to 6, written a second
 * time from the document alone, so that one mistake is not made twice.
 *
 * There are no globals. The caller lends RAM and jump table, each with its
 * length, and owns the state. An operation that is done alters state and RAM
 * in place; a refused one alters neither (a refused set-up zeroes the state).
 */
#ifndef MACHINE_H
#define MACHINE_H

#include <stddef.h>
#include <stdint.h>

enum {
    MACHINE_RAM = 4096,       /* bytes of RAM (section 1) */
    MACHINE_TABLE = 1024,     /* words in the jump table (section 3) */
    MACHINE_DOMAINS = 8,      /* domains 0 to 6 and the trusted one, 7 */
    MACHINE_TRUSTED = 7,
    MACHINE_FREE = 15         /* the code of a free heap block (section 2) */
};

/* Sections 2 and 3. Any numbers may stand here; set-up judges them. */
struct machine_config {
    uint16_t bot, heap, safe, top;      /* RAM byte addresses */
    uint16_t jt;                        /* flash word address */
    struct {
        uint16_t start, end;            /* flash words, end not included */
    } code[MACHINE_DOMAINS];
};

/* Section 4. */
struct machine_state {
    struct machine_config config;
    uint8_t domain;                     /* the current domain */
    uint16_t bound;                     /* the highest stack byte allowed */
    uint16_t pointer;                   /* safe pointer: next free byte */
};

/* Section 6: the answer number and the value that goes with it. */
struct machine_answer {
    uint16_t number, value;
};

/* Sections 2, 3, 4: judges the configuration, writes the map, fresh state. */
struct machine_answer machine_setup(struct machine_state *state,
    const struct machine_config *config, uint8_t *ram, size_t ram_length);

/* Section 5, one function for each operation. */
struct machine_answer machine_store(struct machine_state *state,
    uint8_t *ram, size_t ram_length, uint16_t address, uint8_t byte);

struct machine_answer machine_call(struct machine_state *state,
    uint8_t *ram, size_t ram_length,
    const uint16_t *table, size_t table_length,
    uint16_t target, uint16_t site, uint16_t stack);

struct machine_answer machine_return(struct machine_state *state,
    uint8_t *ram, size_t ram_length);

struct machine_answer machine_malloc(struct machine_state *state,
    uint8_t *ram, size_t ram_length, uint16_t size);

struct machine_answer machine_free(struct machine_state *state,
    uint8_t *ram, size_t ram_length, uint16_t address);

struct machine_answer machine_change(struct machine_state *state,
    uint8_t *ram, size_t ram_length, uint16_t address, uint8_t domain);

#endif
