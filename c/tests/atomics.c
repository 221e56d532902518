// Atomic operations on bytes, halves, words and double words, and compare-and-exchange. For RV32IMA they are AMOs, or loops of LR and SC, or calls; for
// RV32IM all are calls.
#include "check.h"

enum { ROUNDS = 20 };

static struct {
    unsigned char byte;
    unsigned short half;
    unsigned word;
    unsigned long long wide;
} __attribute__((aligned(32))) shared;
static struct barrier barrier;

static void add_by_compare(unsigned amount)
{
    unsigned old = __atomic_load_n(&shared.word, __ATOMIC_RELAXED);
    while (!__atomic_compare_exchange_n(&shared.word, &old, old + amount, 0, __ATOMIC_SEQ_CST, __ATOMIC_RELAXED))
        ;
}

int main(void)
{
    for (unsigned round = 0; round < ROUNDS; round++) {
        __atomic_fetch_add(&shared.byte, 1, __ATOMIC_SEQ_CST);
        __atomic_sub_fetch(&shared.half, 3, __ATOMIC_SEQ_CST);
        __atomic_add_fetch(&shared.wide, 0x100000001ull, __ATOMIC_SEQ_CST);
        add_by_compare(round);
        __atomic_fetch_add(&shared.word, round, __ATOMIC_SEQ_CST);
    }
    barrier_wait(&barrier);
    CHECK(shared.byte == ROUNDS * hart_count());
    CHECK(shared.half == (unsigned short)(-3 * ROUNDS * hart_count()));
    CHECK(shared.word == hart_count() * ROUNDS * (ROUNDS - 1));
    CHECK(shared.wide == hart_count() * ROUNDS * 0x100000001ull);
    barrier_wait(&barrier);
    unsigned char expected = 0;
    if (hart_id() == 0) {
        CHECK(__atomic_exchange_n(&shared.byte, 7, __ATOMIC_SEQ_CST) == (unsigned char)(ROUNDS * hart_count()));
        CHECK(!__atomic_compare_exchange_n(&shared.byte, &expected, 9, 0, __ATOMIC_SEQ_CST, __ATOMIC_SEQ_CST) && expected == 7);
        CHECK(__atomic_compare_exchange_n(&shared.byte, &expected, 9, 0, __ATOMIC_SEQ_CST, __ATOMIC_SEQ_CST) && shared.byte == 9);
        CHECK(__atomic_fetch_nand(&shared.half, 0xff, __ATOMIC_SEQ_CST) == (unsigned short)(-3 * ROUNDS * hart_count()));
        CHECK(shared.half == (unsigned short)~((-3 * ROUNDS * hart_count()) & 0xff));
    }
    return status();
}
