// The calls that compilers make for atomic operations without a word of their own: on bytes, halves and double words, and on words too where the
// program is compiled for RV32IM; compare-and-exchange is among them. Each is a transaction, so it can be used in transactions.
#include <logtm.h>
#include <stdbool.h>
#include <stdint.h>

static void begin(void)
{
    for (unsigned aborts = 1; tx_begin() != TX_STARTED; aborts++)
        tx_wait(aborts);
}

#define LOAD(TYPE, SIZE) \
    TYPE load_##SIZE(const TYPE *at, int order) __asm__("__atomic_load_" #SIZE); \
    TYPE load_##SIZE(const TYPE *at, int order) \
    { \
        (void)order; \
        begin(); \
        TYPE value = *at; \
        tx_commit(); \
        return value; \
    }

#define STORE(TYPE, SIZE) \
    void store_##SIZE(TYPE *at, TYPE value, int order) __asm__("__atomic_store_" #SIZE); \
    void store_##SIZE(TYPE *at, TYPE value, int order) \
    { \
        (void)order; \
        begin(); \
        *at = value; \
        tx_commit(); \
    }

#define COMPARE_EXCHANGE(TYPE, SIZE) \
    bool compare_exchange_##SIZE(TYPE *at, TYPE *expected, TYPE value, int order, int failed) __asm__("__atomic_compare_exchange_" #SIZE); \
    bool compare_exchange_##SIZE(TYPE *at, TYPE *expected, TYPE value, int order, int failed) \
    { \
        (void)order, (void)failed; \
        begin(); \
        TYPE old = *at; \
        bool is_expected = old == *expected; \
        if (is_expected) \
            *at = value; \
        tx_commit(); \
        *expected = old; \
        return is_expected; \
    }

// An operation that answers the old value, and stores a new one.
#define FETCH(TYPE, SIZE, NAME, NEW) \
    TYPE NAME##_##SIZE(TYPE *at, TYPE value, int order) __asm__("__atomic_" #NAME "_" #SIZE); \
    TYPE NAME##_##SIZE(TYPE *at, TYPE value, int order) \
    { \
        (void)order; \
        begin(); \
        TYPE old = *at; \
        *at = NEW; \
        tx_commit(); \
        return old; \
    }

#define OPERATIONS(TYPE, SIZE) \
    LOAD(TYPE, SIZE) \
    STORE(TYPE, SIZE) \
    COMPARE_EXCHANGE(TYPE, SIZE) \
    FETCH(TYPE, SIZE, exchange, value) \
    FETCH(TYPE, SIZE, fetch_add, old + value) \
    FETCH(TYPE, SIZE, fetch_sub, old - value) \
    FETCH(TYPE, SIZE, fetch_and, old & value) \
    FETCH(TYPE, SIZE, fetch_or, old | value) \
    FETCH(TYPE, SIZE, fetch_xor, old ^ value) \
    FETCH(TYPE, SIZE, fetch_nand, ~(old & value))

OPERATIONS(uint8_t, 1)
OPERATIONS(uint16_t, 2)
OPERATIONS(uint32_t, 4)
OPERATIONS(uint64_t, 8)
