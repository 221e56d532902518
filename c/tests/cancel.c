// Cancelling: an inner block takes back its own stores alone, an outer block those of the inner ones that were committed too.
#include "check.h"

static struct {
    int first, second, third;
} __attribute__((aligned(32))) each[HARTS];

static void outermost(void)
{
    int *it = &each[hart_id()].first, before = 5, within = 0;
    *it = 1;
    __transaction_atomic {
        *it = 2;
        within = 7;
        before = 6;
        if (*it == 2)
            __transaction_cancel;
        *it = 3;
    }
    CHECK(*it == 1);
    CHECK(before == 5 && within == 0);
}

static void inner_alone(void)
{
    int *first = &each[hart_id()].first, *second = &each[hart_id()].second, *third = &each[hart_id()].third;
    *first = *second = *third = 0;
    __transaction_atomic {
        *first = 1;
        __transaction_atomic {
            *first = 2;
            *second = 2;
            if (*second == 2)
                __transaction_cancel;
        }
        *third = *first + 10;
    }
    CHECK(*first == 1);
    CHECK(*second == 0);
    CHECK(*third == 11);
}

static __attribute__((noipa)) void committed_inner(int is_inner_cancelled, int is_outer_cancelled)
{
    int *first = &each[hart_id()].first, *second = &each[hart_id()].second;
    *first = *second = 4;
    __transaction_atomic {
        __transaction_atomic {
            *first = 5;
        }
        __transaction_atomic {
            *second = 6;
            if (is_inner_cancelled)
                __transaction_cancel;
        }
        if (is_outer_cancelled && (is_inner_cancelled || *second == 6))
            __transaction_cancel;
    }
    CHECK(*first == (is_outer_cancelled ? 4 : 5));
    CHECK(*second == (is_inner_cancelled || is_outer_cancelled ? 4 : 6));
}

static void inner_and_outer(void)
{
    int *first = &each[hart_id()].first, *second = &each[hart_id()].second, *third = &each[hart_id()].third, reached = 0;
    *first = *second = *third = 0;
    __transaction_atomic {
        *first = 1;
        __transaction_atomic {
            *second = 1;
            if (*first == 1)
                __transaction_cancel;
        }
        *third = 1;
        if (*second == 0 && *third == 1)
            __transaction_cancel;
        reached = 1;
    }
    CHECK(!reached);
    CHECK(*first == 0 && *second == 0 && *third == 0);
}

// Its block can't be cancelled, so what calls it may run plain code; this runs instrumented code within.
static __attribute__((noinline, transaction_safe)) int try_to_store(int *to, int value, int is_kept)
{
    int stored = 0;
    __transaction_atomic {
        *to = value;
        stored = 1;
        if (!is_kept)
            __transaction_cancel;
    }
    return stored;
}

static void within_plain_code(void)
{
    int *first = &each[hart_id()].first, *second = &each[hart_id()].second, kept = 0;
    *first = *second = 0;
    __transaction_atomic {
        kept += try_to_store(first, 1, 0);
        kept += try_to_store(second, 2, 1);
        kept += try_to_store(second, 3, 0);
    }
    CHECK(kept == 1);
    CHECK(*first == 0 && *second == 2);
}

static __attribute__((noinline, transaction_may_cancel_outer)) void give_up(int *it, int depth)
{
    *it = depth;
    __transaction_atomic {
        *it = -depth;
        if (depth == 0)
            __transaction_cancel [[outer]];
    }
    if (depth > 0)
        give_up(it, depth - 1);
}

static void outer_from_within(void)
{
    int *it = &each[hart_id()].first, reached = 0;
    *it = 9;
    __transaction_atomic [[outer]] {
        *it = 8;
        give_up(it, 3);
        reached = 1;
    }
    CHECK(*it == 9);
    CHECK(!reached);
}

// Deeper than the hardware nests.
static __attribute__((noinline, transaction_safe)) int sum_below(unsigned depth, int *sum)
{
    __transaction_atomic {
        *sum += depth;
        if (depth > 0)
            sum_below(depth - 1, sum);
    }
    return *sum;
}

static void deep(void)
{
    int *sum = &each[hart_id()].first;
    *sum = 0;
    __transaction_atomic {
        for (unsigned i = 0; i < 10; i++)
            sum_below(12, sum);
    }
    CHECK(*sum == 780);
    __transaction_atomic {
        sum_below(12, sum);
        if (*sum == 858)
            __transaction_cancel;
    }
    CHECK(*sum == 780);
}

// Stores to an array of a call that is over are not put back: another call's frame may lie there.
static __attribute__((noipa, transaction_safe)) int fill(int *array, int with)
{
    for (int i = 0; i < 8; i++)
        array[i] = with;
    return array[with];
}

static __attribute__((noipa, transaction_safe)) int use_the_stack(int with)
{
    int array[8];
    return fill(array, with);
}

static void dead_frames(void)
{
    int *it = &each[hart_id()].first;
    *it = 0;
    for (int i = 0; i < 4; i++)
        __transaction_atomic {
            *it = use_the_stack(i) + 1;
            if (i % 2 == 1)
                __transaction_cancel;
        }
    CHECK(*it == 3);
}

int main(void)
{
    outermost();
    inner_alone();
    committed_inner(0, 0);
    committed_inner(0, 1);
    committed_inner(1, 0);
    committed_inner(1, 1);
    inner_and_outer();
    within_plain_code();
    outer_from_within();
    deep();
    dead_frames();
    CHECK(_ITM_inTransaction() == outsideTransaction);
    return status();
}
