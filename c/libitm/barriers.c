// Loads and stores of instrumented code, for each type: loads, stores that keep the old value in the journal, and the journal alone (L). What the
// compiler knows of earlier accesses (aR: after a read, aW: after a write, fW: before a write) helps a store alone: what this transaction has written
// before is in its journal already, but that may be an outer scope's, so it is kept again.
#include "transaction.h"

#define LOAD(NAME, TYPE) \
    TYPE _ITM_##NAME(const TYPE *at) \
    { \
        return *at; \
    }

#define STORE(NAME, TYPE) \
    void _ITM_##NAME(TYPE *at, TYPE value) \
    { \
        logtm_save(at, sizeof *at); \
        *at = value; \
    }

#define LOG(NAME, TYPE) \
    void _ITM_L##NAME(const TYPE *at) \
    { \
        logtm_save(at, sizeof *at); \
    }

#define BARRIERS(NAME, TYPE) \
    LOAD(R##NAME, TYPE) \
    LOAD(RaR##NAME, TYPE) \
    LOAD(RaW##NAME, TYPE) \
    LOAD(RfW##NAME, TYPE) \
    STORE(W##NAME, TYPE) \
    STORE(WaR##NAME, TYPE) \
    STORE(WaW##NAME, TYPE) \
    LOG(NAME, TYPE)

BARRIERS(U1, uint8_t)
BARRIERS(U2, uint16_t)
BARRIERS(U4, uint32_t)
BARRIERS(U8, uint64_t)
BARRIERS(F, float)
BARRIERS(D, double)
BARRIERS(E, long double)
BARRIERS(CF, float _Complex)
BARRIERS(CD, double _Complex)
BARRIERS(CE, long double _Complex)

void _ITM_LB(const void *start, size_t size)
{
    logtm_save(start, size);
}
