// A block that has to run alone gets its turn, though the other harts begin one block after the other until it has run.
#include "check.h"

static unsigned is_done __attribute__((aligned(32))), alone __attribute__((aligned(32)));
static struct {
    unsigned begun;
} __attribute__((aligned(32))) each[HARTS];

static __attribute__((noipa, transaction_pure)) void pass_time(void)
{
    for (volatile unsigned turns = 200 + 50 * hart_id(); turns > 0;)
        turns--;
}

static void run_alone(void)
{
    __transaction_relaxed {
        alone++;
        put_text("");
        CHECK(_ITM_inTransaction() == inIrrevocableTransaction);
        alone++;
        is_done = 1;
    }
}

static void wait_for_the_others(void)
{
    for (unsigned hart = 1; hart < hart_count(); hart++)
        while (__atomic_load_n(&each[hart].begun, __ATOMIC_ACQUIRE) < 2)
            ;
}

int main(void)
{
    if (hart_id() == 0) {
        wait_for_the_others();
        run_alone();
    }
    while (!__atomic_load_n(&is_done, __ATOMIC_ACQUIRE))
        __transaction_atomic {
            each[hart_id()].begun++;
            pass_time();
        }
    CHECK(alone == 2);
    return status();
}
