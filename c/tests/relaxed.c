// Relaxed blocks that put out bytes, beside atomic ones of other harts: each runs alone, and its bytes are put out once.
#include "check.h"

enum { ROUNDS = 6 };

static unsigned left __attribute__((aligned(32))) = 1000, right __attribute__((aligned(32))) = 1000;
static unsigned torn[HARTS];
static struct barrier barrier;

static void always(void)
{
    __transaction_relaxed {
        left++;
        put_byte('a');
        right++;
    }
}

static void sometimes(unsigned round)
{
    __transaction_relaxed {
        left++;
        if (round % 2 == 0)
            put_byte('s');
        right++;
    }
}

// The block can be cancelled before its byte is put out.
static void or_cancelled(unsigned round)
{
    unsigned *it = &left, *other = &right;
    __transaction_atomic {
        *it += 1;
        if (round % 3 == 0)
            __transaction_cancel;
        *other += 1;
    }
}

static void look(void)
{
    unsigned difference;
    __transaction_atomic {
        difference = left - right;
    }
    torn[hart_id()] += difference != 0;
}

int main(void)
{
    for (unsigned round = 0; round < ROUNDS; round++) {
        always();
        look();
        sometimes(round);
        look();
        or_cancelled(round);
        look();
    }
    put_byte('\n');
    barrier_wait(&barrier);
    CHECK(left == 1000 + hart_count() * (6 + 6 + 4));
    CHECK(right == left);
    CHECK(torn[hart_id()] == 0);
    return status();
}
