/*
 * Pulvrasp from C: memory protection for a unit with 4,096 bytes of RAM.
 * C99 and C++. Link with libhmt.a (tools/libhmt makes it).
 *
 * The caller owns all memory and lends it for the length of one call:
 *
 *   ram    HMT_RAM_BYTES bytes, the unit's RAM
 *   slot   HMT_SLOT_BYTES bytes, configuration and state (layout below)
 *   table  HMT_TABLE_BYTES bytes, the jump table: 1,024 numbers
 *
 * To start: fill a slot with hmt_configure(), then call hmt_set_up(). After
 * that each store, call, return, malloc, free and change of owner that the
 * running module makes is one call of a function below, always with the same
 * RAM and slot.
 *
 * An answer is one 32-bit number: answer number times 65536 plus value.
 * HMT_NUMBER() and HMT_VALUE() take it apart. A refusal has value 0 and
 * leaves slot and RAM as they were. Of several refusals that apply the first
 * in the table of its function is given: the list behind "Refusals" below.
 *
 * What C can't check and the caller must see to:
 *   - each pointer points to as many bytes as its length says, and is not
 *     NULL, not even with length 0;
 *   - RAM, slot and table do not overlap;
 *   - no second call on the same RAM or slot begins before the first has
 *     ended, so an interrupt routine makes none;
 *   - between calls nothing but these functions writes the slot or RAM: a
 *     byte that C stores to RAM by itself was never checked, and what is
 *     promised of the calls after it no longer holds;
 *   - the trusted domain stores neither into the map (from bot on) nor into
 *     the safe stack area (safe up to top): hmt_store lets it, but what is
 *     promised of the calls after it no longer holds.
 */
#ifndef HMT_H
#define HMT_H

#include <stddef.h>
#include <stdint.h>

#ifdef __cplusplus
extern "C" {
#endif

/* ---- sizes ------------------------------------------------------------ */

#define HMT_RAM_BYTES     4096  /* RAM */
#define HMT_SLOT_BYTES      48  /* the slot */
#define HMT_TABLE_BYTES   2048  /* the jump table */
#define HMT_TABLE_WORDS   1024  /* its numbers, two bytes each */
#define HMT_DOMAIN_WORDS   128  /* those of one domain */
#define HMT_BLOCK_BYTES      8  /* a block: what malloc gives at least */
#define HMT_DOMAINS          8  /* modules are domains 0 to 6 .. */
#define HMT_TRUSTED          7  /* .. and this is the trusted one */
#define HMT_HIGHEST_JT  64512u  /* the jump table base is at most this */

/* ---- the answer ------------------------------------------------------- */

#define HMT_NUMBER(answer) ((uint16_t)((uint32_t)(answer) >> 16))
#define HMT_VALUE(answer)  ((uint16_t)((uint32_t)(answer) & 0xffffu))

/* Every answer number. Each function says below which ones it gives. */
enum hmt_number {
    HMT_DONE              = 0,
    HMT_WRONG_LENGTH      = 1,  /* RAM, slot or table of another length */
    HMT_BAD_CONFIG        = 2,  /* a configuration rule is broken */
    HMT_BAD_STATE         = 3,  /* the slot holds no good state */
    HMT_NOT_RAM           = 4,  /* address above 4095 */
    HMT_NOT_YOURS         = 5,  /* below bot, or a block of another owner */
    HMT_ABOVE_BOUND       = 6,  /* stack byte of a caller */
    HMT_SITE_OUTSIDE      = 7,  /* return site not in the current code range */
    HMT_TARGET_OUTSIDE    = 8,  /* local target not in the current code range */
    HMT_PAST_TABLES       = 9,  /* target at or above jt + 1024 */
    HMT_BAD_ENTRY         = 10, /* table entry 0 or not in its domain's code */
    HMT_BAD_POINTER       = 11, /* stack pointer not from top - 1 to bound */
    HMT_SAFE_STACK_FULL   = 12, /* the frame would pass top */
    HMT_SAFE_STACK_EMPTY  = 13, /* no call is open */
    HMT_DAMAGED_FRAME     = 14, /* the newest frame can't be one */
    HMT_TRUSTED_MALLOC    = 15, /* malloc by the trusted domain */
    HMT_SIZE_ZERO         = 16, /* malloc of 0 bytes */
    HMT_NO_ROOM           = 17, /* no run of free blocks is long enough */
    HMT_NO_SEGMENT        = 18, /* no heap segment starts at the address */
    HMT_NOT_OWNER         = 19, /* the segment is another domain's */
    HMT_BAD_DOMAIN        = 20  /* new domain above 6 */
};

/* ---- the slot --------------------------------------------------------- */

/*
 * All numbers are two bytes, low byte first, but for the last two.
 *
 *   byte      number
 *   0         bot    first byte of the protected range, where the map lies
 *   2         heap   first byte of the heap
 *   4         safe   first byte of the safe stack area
 *   6         top    first byte after the protected range
 *   8         jt     jump table base, a flash word address
 *   10 + 4d   start  of domain d's code range, a flash word address
 *   12 + 4d   end    of it, the first word after it
 *   42        bound  highest stack byte that the current domain may write
 *   44        safe pointer: where the next frame goes
 *   46        current domain, one byte
 *   47        one byte 0
 *
 * Bytes 0 to 41 are the configuration. Its rules: bot, heap, safe and top are
 * multiples of 8; bot < top; bot + m <= heap <= safe <= top <= 4096, with m
 * half of (top - bot) / 8, rounded up; jt <= 64512; start <= end <= jt for
 * each domain; ranges that are not empty do not overlap.
 *
 * A state is good if its configuration is, the current domain is 0 to 7, the
 * bound top - 1 to 4095, the safe pointer safe to top, and byte 47 is 0.
 */
#define HMT_SLOT_BOT      0
#define HMT_SLOT_HEAP     2
#define HMT_SLOT_SAFE     4
#define HMT_SLOT_TOP      6
#define HMT_SLOT_JT       8
#define HMT_SLOT_START(d) (10 + 4 * (d))
#define HMT_SLOT_END(d)   (12 + 4 * (d))
#define HMT_SLOT_BOUND   42
#define HMT_SLOT_POINTER 44
#define HMT_SLOT_DOMAIN  46
#define HMT_SLOT_ZERO    47

/* A configuration as numbers, to be written into a slot. */
struct hmt_range {
    uint16_t start, end;        /* flash words, end not included */
};

struct hmt_config {
    uint16_t bot, heap, safe, top;      /* RAM byte addresses */
    uint16_t jt;                        /* flash word address */
    struct hmt_range code[HMT_DOMAINS]; /* 0 to 0 for a domain not in use */
};

/* The number at a byte of slot or table, and writing one there. */
static inline uint16_t hmt_get(const uint8_t *bytes, unsigned at)
{
    return (uint16_t)(bytes[at] | (unsigned)bytes[at + 1] << 8);
}

static inline void hmt_put(uint8_t *bytes, unsigned at, uint16_t number)
{
    bytes[at] = (uint8_t)(number & 0xff);
    bytes[at + 1] = (uint8_t)(number >> 8);
}

/*
 * Writes a configuration into a slot, ready for hmt_set_up(), which judges it.
 * The state's bytes become 0. That is no good state: until set-up is done
 * every operation on this slot is refused.
 */
static inline void hmt_configure(uint8_t *slot, const struct hmt_config *config)
{
    unsigned d, at;

    hmt_put(slot, HMT_SLOT_BOT, config->bot);
    hmt_put(slot, HMT_SLOT_HEAP, config->heap);
    hmt_put(slot, HMT_SLOT_SAFE, config->safe);
    hmt_put(slot, HMT_SLOT_TOP, config->top);
    hmt_put(slot, HMT_SLOT_JT, config->jt);
    for (d = 0; d < HMT_DOMAINS; d++) {
        hmt_put(slot, HMT_SLOT_START(d), config->code[d].start);
        hmt_put(slot, HMT_SLOT_END(d), config->code[d].end);
    }
    for (at = HMT_SLOT_BOUND; at < HMT_SLOT_BYTES; at++)
        slot[at] = 0;
}

/*
 * The jump table has 128 words for each domain in order 0 to 7, low byte
 * first; 0 is no entry. Entry i of domain d is word 128d + i, and the target
 * that calls it is jt + 128d + i.
 */
#define HMT_TABLE_WORD(domain, i) (HMT_DOMAIN_WORDS * (domain) + (i))

static inline void hmt_put_entry(uint8_t *table, unsigned word, uint16_t entry)
{
    hmt_put(table, 2 * word, entry);
}

/* ---- set-up and the operations ---------------------------------------- */

/*
 * Judges the configuration in the slot (the state's bytes are not looked at),
 * writes the map and the fresh state: trusted domain, bound 4095, safe
 * pointer safe, byte 47 is 0. Value 0.
 *
 * Refusals: 1 ram_len or slot_len is another; 2 a configuration rule is
 * broken.
 */
uint32_t hmt_set_up(uint8_t *ram, size_t ram_len,
    uint8_t *slot, size_t slot_len);

/*
 * Stores one byte. The trusted domain may store anywhere in RAM, a module
 * only in its own blocks and in the stack from top up to the bound. Value 0.
 *
 * Refusals: 1 ram_len or slot_len is another; 3 the state is not good;
 * 4 address above 4095; and for a module 5 below bot or a block of another
 * owner, 6 above the bound.
 */
uint32_t hmt_store(uint8_t *ram, size_t ram_len,
    uint8_t *slot, size_t slot_len, uint16_t address, uint8_t byte);

/*
 * Calls: target and return site are flash words, pointer is the stack pointer
 * at the call. A target below jt is a local call and ignores the pointer. A
 * target from jt on goes through the jump table into a domain, which
 * becomes current and may use the stack up to the pointer. Value: the word to
 * go on at (the target, or its table entry).
 *
 * Refusals: 1 ram_len, slot_len or table_len is another; 3 the state is not
 * good; 7 the site is outside the current code range; 8 so is a local target;
 * 9 target at or above jt + 1024; 10 the entry is 0 or outside the code range
 * of its domain; 11 not top - 1 <= pointer <= bound; 12 the frame (3 bytes,
 * or 5 across domains) would pass top.
 */
uint32_t hmt_call(uint8_t *ram, size_t ram_len,
    uint8_t *slot, size_t slot_len,
    const uint8_t *table, size_t table_len,
    uint16_t target, uint16_t site, uint16_t pointer);

/*
 * Returns from the newest open call. If it came from another domain, that
 * domain and its bound are current again. Value: the word to go on at.
 *
 * Refusals: 1 ram_len or slot_len is another; 3 the state is not good; 13 no
 * call is open; 14 the frame is damaged.
 */
uint32_t hmt_return(uint8_t *ram, size_t ram_len,
    uint8_t *slot, size_t slot_len);

/*
 * Takes size / 8 blocks, rounded up, for the current domain: the lowest run of
 * free heap blocks that is long enough. Nothing clears them. Value: the
 * address.
 *
 * Refusals: 1 ram_len or slot_len is another; 3 the state is not good; 15 the
 * trusted domain asks; 16 size 0; 17 no run is long enough.
 */
uint32_t hmt_malloc(uint8_t *ram, size_t ram_len,
    uint8_t *slot, size_t slot_len, uint16_t size);

/*
 * Gives a segment back. Value: the number of its blocks.
 *
 * Refusals: 1 ram_len or slot_len is another; 3 the state is not good; 18 no
 * heap segment starts at the address; 19 it is another domain's.
 */
uint32_t hmt_free(uint8_t *ram, size_t ram_len,
    uint8_t *slot, size_t slot_len, uint16_t address);

/*
 * Gives a segment to another domain. Value: the number of its blocks.
 *
 * Refusals: 1 ram_len or slot_len is another; 3 the state is not good; 18 no
 * heap segment starts at the address; 19 it is another domain's; 20 the new
 * domain is above 6.
 */
uint32_t hmt_change(uint8_t *ram, size_t ram_len,
    uint8_t *slot, size_t slot_len, uint16_t address, uint8_t domain);

#ifdef __cplusplus
}
#endif

#endif
