/*
 * The sample of document 01, section 7, through the functions of
 * include/hmt.h, and the slot's bytes as document 02 lists them. All that is
 * expected is written out here by hand: nothing is taken from another program.
 */
#include "hmt.h"

#include <stdio.h>
#include <string.h>

static uint8_t ram[HMT_RAM_BYTES], slot[HMT_SLOT_BYTES], table[HMT_TABLE_BYTES];
static unsigned passed, failed;

static void expect(const char *what, int holds)
{
    if (holds)
        passed++;
    else {
        failed++;
        printf("FAILED: %s\n", what);
    }
}

/* A line of the sample: count, number, value, domain, bound, safe pointer. */
static void line(uint32_t answer, const char *wanted)
{
    static unsigned count;
    char got[64];

    sprintf(got, "%u %u %u %u %u %u", ++count, (unsigned)HMT_NUMBER(answer),
        (unsigned)HMT_VALUE(answer), (unsigned)slot[HMT_SLOT_DOMAIN],
        (unsigned)hmt_get(slot, HMT_SLOT_BOUND),
        (unsigned)hmt_get(slot, HMT_SLOT_POINTER));
    expect(wanted, strcmp(got, wanted) == 0);
    if (strcmp(got, wanted) != 0)
        printf("  got %s\n", got);
}

#define RAM ram, sizeof ram
#define BOTH RAM, slot, sizeof slot
#define CALL(target, site, pointer) \
    hmt_call(BOTH, table, sizeof table, target, site, pointer)

static const struct hmt_config sample = {
    256, 320, 448, 512, 4096,
    { { 100, 200 }, { 200, 300 }, { 0, 0 }, { 0, 0 }, { 0, 0 }, { 0, 0 },
      { 0, 0 }, { 10, 100 } }
};

static void lines(void)
{
    hmt_put_entry(table, HMT_TABLE_WORD(0, 0), 100);
    hmt_put_entry(table, HMT_TABLE_WORD(1, 0), 200);
    hmt_configure(slot, &sample);
    expect("setup 0", hmt_set_up(BOTH) == 0);
    line(CALL(4096, 50, 4000), "1 0 100 0 4000 453");
    line(hmt_malloc(BOTH, 20), "2 0 320 0 4000 453");
    line(hmt_store(BOTH, 343, 9), "3 0 0 0 4000 453");
    line(hmt_store(BOTH, 344, 9), "4 5 0 0 4000 453");
    line(CALL(4224, 150, 3990), "5 0 200 1 3990 458");
    line(hmt_store(BOTH, 320, 1), "6 5 0 1 3990 458");
    line(hmt_store(BOTH, 3991, 1), "7 6 0 1 3990 458");
    line(hmt_store(BOTH, 3990, 1), "8 0 0 1 3990 458");
    line(hmt_malloc(BOTH, 8), "9 0 344 1 3990 458");
    line(hmt_change(BOTH, 344, 0), "10 0 1 1 3990 458");
    line(hmt_free(BOTH, 344), "11 19 0 1 3990 458");
    line(hmt_return(BOTH), "12 0 150 0 4000 453");
    line(hmt_free(BOTH, 344), "13 0 1 0 4000 453");
    line(CALL(120, 130, 0), "14 0 120 0 4000 456");
    line(hmt_return(BOTH), "15 0 130 0 4000 453");
    line(hmt_return(BOTH), "16 0 50 7 4095 448");
    line(hmt_return(BOTH), "17 13 0 7 4095 448");
}

/* After set-up, two calls deep and after a refused set-up: every byte. */
static void bytes(void)
{
    static const uint8_t fresh[HMT_SLOT_BYTES] = {
        0, 1,  64, 1,  192, 1,  0, 2,  0, 16,           /* bot to jt */
        100, 0, 200, 0,  200, 0, 44, 1,                 /* domains 0, 1 */
        0, 0, 0, 0,  0, 0, 0, 0,  0, 0, 0, 0,           /* 2, 3, 4 */
        0, 0, 0, 0,  0, 0, 0, 0,  10, 0, 100, 0,        /* 5, 6, 7 */
        255, 15,  192, 1,  7,  0                        /* the state */
    };
    static const uint8_t deep[6] = { 150, 15, 202, 1, 1, 0 };
    static const uint8_t frames[10] = {
        50, 0, 255, 15, 7,  150, 0, 160, 15, 0
    };
    static const uint8_t map[16] = {
        239, 238, 238, 238, 255, 255, 255, 255, 255, 255, 255, 255,
        239, 238, 238, 238
    };
    uint8_t before[HMT_SLOT_BYTES], ram_before[HMT_RAM_BYTES];

    memset(ram, 0, sizeof ram);
    hmt_configure(slot, &sample);
    expect("no operation before set-up",
        hmt_store(BOTH, 0, 1) == (uint32_t)HMT_BAD_STATE << 16);
    slot[47] = 1;
    expect("set-up reads only the configuration", hmt_set_up(BOTH) == 0);
    expect("the fresh slot", memcmp(slot, fresh, sizeof fresh) == 0);
    expect("the map", memcmp(ram + 256, map, sizeof map) == 0);
    CALL(4096, 50, 4000);
    CALL(4224, 150, 3990);
    expect("the configuration stays", memcmp(slot, fresh, 42) == 0);
    expect("the state two calls deep", memcmp(slot + 42, deep, 6) == 0);
    expect("its frames", memcmp(ram + 448, frames, sizeof frames) == 0);
    slot[47] = 1;
    memcpy(before, slot, sizeof slot);
    memcpy(ram_before, ram, sizeof ram);
    expect("byte 47 is not 0", hmt_return(BOTH) == 3ul * 65536);
    expect("a slot of 47 bytes", hmt_return(RAM, slot, 47) == 1ul * 65536);
    before[6] = slot[6] = 4;
    expect("a refused set-up", hmt_set_up(BOTH) == 2ul * 65536);
    expect("leaves the slot", memcmp(slot, before, sizeof slot) == 0);
    expect("leaves RAM", memcmp(ram, ram_before, sizeof ram) == 0);
}

int main(void)
{
    lines();
    bytes();
    printf("c-sample: %u passed, %u failed\n", passed, failed);
    return failed != 0;
}
