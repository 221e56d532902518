// Atomic operations as GCC makes them for RV32IMA: harts add to shared numbers, some under a lock, and wait for each other; then hart 0 puts the sums out.
//
//     riscv64-unknown-elf-gcc -march=rv32ima -mabi=ilp32 -O2 -nostdlib -static -s -Wl,-Ttext=0x1000,-Tdata=0x3000,--no-relax,-z,max-page-size=4 -o shared.elf shared.c
//
//     ./logtm run examples/compiled/shared.elf --harts 4
#include "hart.h"

enum { ROUNDS = 50 };

unsigned sum, next, taken, arrived, lock, turns, last[8];
unsigned parity = 0x1234, seen, missing = 0xff;
unsigned product = 1;

static void under_the_lock(unsigned hart)
{
    while (__atomic_exchange_n(&lock, 1, __ATOMIC_ACQUIRE))
        ;
    product *= 2 * hart + 3;
    last[hart] = ++turns;
    __atomic_store_n(&lock, 0, __ATOMIC_RELEASE);
}

static void wait_for_all(unsigned harts)
{
    __atomic_fetch_add(&arrived, 1, __ATOMIC_SEQ_CST);
    while (__atomic_load_n(&arrived, __ATOMIC_SEQ_CST) != harts)
        ;
}

static void put_number(const char *name, unsigned n)
{
    put_text(name);
    put(' ');
    put_decimal(n);
    put('\n');
}

int run(unsigned hart, unsigned harts)
{
    for (unsigned round = 0; round < ROUNDS; round++) {
        __atomic_fetch_add(&sum, hart + round, __ATOMIC_RELAXED);
        __atomic_fetch_add(&taken, __atomic_fetch_add(&next, 1, __ATOMIC_SEQ_CST), __ATOMIC_SEQ_CST);
        __atomic_fetch_xor(&parity, round << hart, __ATOMIC_ACQ_REL);
        under_the_lock(hart);
    }
    unsigned before = __atomic_fetch_or(&seen, 1 << hart, __ATOMIC_SEQ_CST);
    __atomic_fetch_and(&missing, ~(1 << hart), __ATOMIC_SEQ_CST);
    wait_for_all(harts);
    if (hart == 0) {
        unsigned latest = 0;
        for (unsigned i = 0; i < harts; i++)
            latest = last[i] > latest ? last[i] : latest;
        put_number("sum", sum);
        put_number("taken", taken);
        put_number("parity", parity);
        put_number("seen", seen);
        put_number("missing", missing);
        put_number("product", product);
        put_number("turns", turns);
        put_number("latest", latest);
    }
    return before >> hart & 1;
}
