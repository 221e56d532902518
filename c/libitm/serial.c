// Serial mode: a transaction runs alone, without hardware. Each hart has a door, which its hardware transactions load at their begin. Whoever is to
// run alone closes the doors of the others: such a store is refused as long as that hart's transaction runs, and then the hart begins none. One word
// for all harts wouldn't do, since a store to it is refused as long as any of them runs a transaction, which may be always.
#include "transaction.h"

struct door logtm_doors[HARTS];

// Whose turn it is to run alone. Only AMOSWAP is used on it: a load would make its hart a sharer of the block, and a transaction that has spilled
// refuses stores to such blocks.
static struct {
    unsigned is_taken;
} __attribute__((aligned(32))) turn;

static void set_doors(unsigned is_closed)
{
    for (unsigned hart = 0; hart < hart_count(); hart++)
        if (hart != hart_id())
            __atomic_store_n(&logtm_doors[hart].is_closed, is_closed, __ATOMIC_SEQ_CST);
}

void logtm_enter_serial(void)
{
    while (__atomic_exchange_n(&turn.is_taken, 1, __ATOMIC_ACQUIRE))
        tx_wait(2);
    set_doors(1);
}

void logtm_leave_serial(void)
{
    set_doors(0);
    __atomic_exchange_n(&turn.is_taken, 0, __ATOMIC_RELEASE);
}
