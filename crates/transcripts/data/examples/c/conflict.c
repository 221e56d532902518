// Two functions that are in each other's way: hart 0 moves 50 from one account to the other, and hart 1 adds both up, in the other order. Each has
// loaded or stored what the other wants next, so one of them is aborted and tries again.
//
//     scripts/logtm-cc conflict.c -Os -o conflict.elf
//
//     ./logtm run examples/c/conflict.elf --harts 2
#include <logtm.h>

struct account {
    unsigned money;
} __attribute__((aligned(32)));

static struct account checking = {100}, savings = {200};

static __attribute__((noinline)) void move(unsigned amount)
{
    for (unsigned aborts = 1; tx_begin() != TX_STARTED; aborts++)
        tx_wait(aborts);
    checking.money -= amount;
    savings.money += amount;
    tx_commit();
}

static __attribute__((noinline)) unsigned total(void)
{
    unsigned sum;
    for (unsigned aborts = 1; tx_begin() != TX_STARTED; aborts++)
        tx_wait(aborts);
    sum = savings.money;
    sum += checking.money;
    tx_commit();
    return sum;
}

int main(void)
{
    if (hart_id() != 0)
        return total() != 300;
    move(50);
    return 0;
}
