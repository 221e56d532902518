// A bank of eight accounts with 100 in each. Each hart moves money from one account to another, as far as there is enough, and now and then adds up
// all accounts. Whoever adds up, when it may be, finds 800.
//
//     scripts/logtm-cc bank.c -DLOCK -Os -o bank-lock.elf
//     scripts/logtm-cc bank.c -DINTRINSICS -Os -o bank-intrinsics.elf
//     scripts/logtm-cc bank.c -fgnu-tm -Os -o bank-atomic.elf
//
//     ./logtm run examples/c/bank-atomic.elf --harts 4
#include "versions.h"

#ifndef SEED
#define SEED 1
#endif

enum { HARTS = 8, ACCOUNTS = 8, START = 100, ROUNDS = 12 };

struct account {
    unsigned money;
} __attribute__((aligned(32)));

static struct account accounts[ACCOUNTS];
static struct barrier barrier;
static unsigned wrong[HARTS];

static void move(struct account *from, struct account *to, unsigned amount)
{
    WHOLE(
        if (from->money >= amount) {
            from->money -= amount;
            to->money += amount;
        }
    );
}

static unsigned total(void)
{
    unsigned sum;
    WHOLE(
        sum = 0;
        for (unsigned i = 0; i < ACCOUNTS; i++)
            sum += accounts[i].money;
    );
    return sum;
}

static unsigned next(unsigned *seed)
{
    *seed = *seed * 1103515245 + 12345;
    return *seed >> 16;
}

int main(void)
{
    unsigned seed = SEED * HARTS + hart_id();
    for (unsigned i = hart_id(); i < ACCOUNTS; i += hart_count())
        accounts[i].money = START;
    barrier_wait(&barrier);
    for (unsigned round = 0; round < ROUNDS; round++) {
        unsigned from = next(&seed), to = next(&seed);
        move(&accounts[from % ACCOUNTS], &accounts[to % ACCOUNTS], next(&seed) % START);
        if (round % 4 == 3 && total() != ACCOUNTS * START)
            wrong[hart_id()]++;
    }
    barrier_wait(&barrier);
    if (hart_id() == 0)
        put_line("total", total());
    return wrong[hart_id()] != 0;
}
