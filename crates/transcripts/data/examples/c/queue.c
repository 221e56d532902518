// A queue with room for four items. Each hart puts an item and takes one, in turn; who finds the queue full or empty waits and looks again. All that is
// put is taken once: with n harts that put 10 items each, 10 n items, whose sum is that of the numbers below 10 n.
//
//     scripts/logtm-cc queue.c -DLOCK -Os -o queue-lock.elf
//     scripts/logtm-cc queue.c -DINTRINSICS -Os -o queue-intrinsics.elf
//     scripts/logtm-cc queue.c -fgnu-tm -Os -o queue-atomic.elf
//
//     ./logtm run examples/c/queue-atomic.elf --harts 4
#include "versions.h"

enum { HARTS = 8, ROOM = 4, ROUNDS = 10 };

static struct {
    unsigned first, count, items[ROOM];
} __attribute__((aligned(32))) queue;

static struct {
    unsigned taken, sum;
} __attribute__((aligned(32))) results[HARTS];

static struct barrier barrier;

static int is_put(unsigned item)
{
    int done;
    WHOLE(
        done = queue.count < ROOM;
        if (done) {
            queue.items[(queue.first + queue.count) % ROOM] = item;
            queue.count++;
        }
    );
    return done;
}

static int is_taken(unsigned *item)
{
    int done;
    unsigned first = 0;
    WHOLE(
        done = queue.count > 0;
        if (done) {
            first = queue.items[queue.first];
            queue.first = (queue.first + 1) % ROOM;
            queue.count--;
        }
    );
    *item = first;
    return done;
}

int main(void)
{
    for (unsigned round = 0; round < ROUNDS; round++) {
        unsigned item;
        for (unsigned tries = 1; !is_put(hart_id() * ROUNDS + round); tries++)
            tx_wait(tries);
        for (unsigned tries = 1; !is_taken(&item); tries++)
            tx_wait(tries);
        results[hart_id()].taken++;
        results[hart_id()].sum += item;
    }
    barrier_wait(&barrier);
    if (hart_id() == 0) {
        unsigned taken = 0, sum = 0;
        for (unsigned hart = 0; hart < hart_count(); hart++) {
            taken += results[hart].taken;
            sum += results[hart].sum;
        }
        put_line("taken", taken);
        put_line("sum", sum);
    }
    return queue.count != 0;
}
