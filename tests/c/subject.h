/* The seven functions of include/hmt.h as one record, so that a test or a
   measurement can run over any maker of them. */
#ifndef SUBJECT_H
#define SUBJECT_H

#include "hmt.h"

struct subject {
    const char *name;
    uint32_t (*set_up)(uint8_t *, size_t, uint8_t *, size_t);
    uint32_t (*store)(uint8_t *, size_t, uint8_t *, size_t, uint16_t, uint8_t);
    uint32_t (*call)(uint8_t *, size_t, uint8_t *, size_t,
        const uint8_t *, size_t, uint16_t, uint16_t, uint16_t);
    uint32_t (*back)(uint8_t *, size_t, uint8_t *, size_t);
    uint32_t (*take)(uint8_t *, size_t, uint8_t *, size_t, uint16_t);
    uint32_t (*give_back)(uint8_t *, size_t, uint8_t *, size_t, uint16_t);
    uint32_t (*change)(uint8_t *, size_t, uint8_t *, size_t, uint16_t, uint8_t);
};

extern const struct subject library;    /* libhmt.a, the proved one */
extern const struct subject plain;      /* benchmark/plain.c, written by hand */
extern const struct subject partner;    /* the second program's machine */

#endif
