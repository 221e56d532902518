// Transactions of intrinsics that go on under a lock when they were aborted too often, since some of them are too large for the undo log.
#include "check.h"

enum { LINES = 130, ROUNDS = 4, MOST_ABORTS = 4 };

static struct line {
    unsigned value;
} __attribute__((aligned(32))) lines[LINES];
static struct spin_lock alone;
static struct barrier barrier;

static void add(unsigned count)
{
    for (unsigned i = 0; i < count; i++)
        lines[i].value++;
}

static void add_whole(unsigned count)
{
    for (unsigned aborts = 1; aborts <= MOST_ABORTS; aborts++) {
        if (tx_begin() == TX_STARTED) {
            if (alone.is_held)
                tx_abort();
            add(count);
            tx_commit();
            return;
        }
        tx_wait(aborts);
    }
    spin_lock(&alone);
    add(count);
    spin_unlock(&alone);
}

int main(void)
{
    for (unsigned round = 0; round < ROUNDS; round++)
        add_whole(round % 2 == 0 ? 3 : LINES);
    barrier_wait(&barrier);
    for (unsigned i = 0; i < LINES; i++)
        CHECK(lines[i].value == hart_count() * (i < 3 ? ROUNDS : ROUNDS / 2));
    return status();
}
