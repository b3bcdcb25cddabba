/* The functions of libhmt.a as a subject. */
#include "subject.h"

const struct subject library = {
    "library", hmt_set_up, hmt_store, hmt_call, hmt_return, hmt_malloc,
    hmt_free, hmt_change
};
