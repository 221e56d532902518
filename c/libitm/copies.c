// memcpy, memmove and memset of instrumented code. The names say how each side is used: n not in the transaction, t in it, and as for loads and
// stores whether it was accessed before. Only what is written has to be kept.
#include "transaction.h"

#define COPY_NOTED(NAME, HOW) \
    void _ITM_##HOW##NAME(void *to, const void *from, size_t size) \
    { \
        logtm_save(to, size); \
        __builtin_##HOW(to, from, size); \
    }

#define COPY_UNNOTED(NAME, HOW) \
    void _ITM_##HOW##NAME(void *to, const void *from, size_t size) \
    { \
        __builtin_##HOW(to, from, size); \
    }

#define COPIES(HOW) \
    COPY_NOTED(RnWt, HOW) \
    COPY_NOTED(RnWtaR, HOW) \
    COPY_NOTED(RnWtaW, HOW) \
    COPY_UNNOTED(RtWn, HOW) \
    COPY_NOTED(RtWt, HOW) \
    COPY_NOTED(RtWtaR, HOW) \
    COPY_NOTED(RtWtaW, HOW) \
    COPY_UNNOTED(RtaRWn, HOW) \
    COPY_NOTED(RtaRWt, HOW) \
    COPY_NOTED(RtaRWtaR, HOW) \
    COPY_NOTED(RtaRWtaW, HOW) \
    COPY_UNNOTED(RtaWWn, HOW) \
    COPY_NOTED(RtaWWt, HOW) \
    COPY_NOTED(RtaWWtaR, HOW) \
    COPY_NOTED(RtaWWtaW, HOW)

COPIES(memcpy)
COPIES(memmove)

#define SET(NAME) \
    void _ITM_memset##NAME(void *to, int byte, size_t size) \
    { \
        logtm_save(to, size); \
        __builtin_memset(to, byte, size); \
    }

SET(W)
SET(WaR)
SET(WaW)
