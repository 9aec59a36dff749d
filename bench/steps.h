/* What the files that write anew share: steps one after the other up to the first refusal, and a plain refusal as the C interface answers one. */
#pragma once
#include "plain_rules.h"
#include <chaloenpik.h>

#define INLINE static inline __attribute__((always_inline))
#define TRY(step) \
    do { \
        uint64_t answer = (step); \
        if (chaloenpik_refusal(answer) != 0) return answer; \
    } while (0)

static inline uint64_t packed(plain_refusal no) { return no.number + ((uint64_t)no.place << 8); }
