// Blocks that store to more memory than the undo log holds: they end alone, whether they can be cancelled or not. A transaction of intrinsics is
// aborted as often as it is tried.
#include "check.h"

enum { LINES = 150 };

struct line {
    unsigned value;
} __attribute__((aligned(32)));

static struct line lines[LINES];
static unsigned irrevocable[HARTS], revocable[HARTS];
static struct barrier barrier;

static int cancelled(int is_cancelled)
{
    int done = 0;
    __transaction_atomic {
        for (unsigned i = 0; i < LINES; i++)
            lines[i].value += 1000;
        revocable[hart_id()] += _ITM_inTransaction() == inRetryableTransaction;
        done = 1;
        if (is_cancelled)
            __transaction_cancel;
    }
    return done;
}

int main(void)
{
    __transaction_atomic {
        for (unsigned i = 0; i < LINES; i++)
            lines[i].value++;
        irrevocable[hart_id()] += _ITM_inTransaction() == inIrrevocableTransaction;
    }
    CHECK(!cancelled(1));
    CHECK(cancelled(0));
    CHECK(irrevocable[hart_id()] == 1);
    CHECK(revocable[hart_id()] == 1);
    barrier_wait(&barrier);
    if (hart_id() == 0) {
        for (unsigned i = 0; i < LINES; i++)
            CHECK(lines[i].value == 1001 * hart_count());
        volatile unsigned tries = 0;
        while (tries < 3) {
            if (tx_begin() == TX_STARTED) {
                for (unsigned i = 0; i < LINES; i++)
                    lines[i].value = 0;
                tx_commit();
                CHECK(0);
            }
            tries++;
        }
        for (unsigned i = 0; i < LINES; i++)
            CHECK(lines[i].value == 1001 * hart_count());
    }
    return status();
}
