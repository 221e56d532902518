// Calls by pointer: of functions with a clone, and, where the block may run alone, of one without.
#include "check.h"

typedef unsigned safe_function(unsigned) __attribute__((transaction_safe));

static __attribute__((noinline, transaction_safe)) unsigned twice(unsigned n) { return 2 * n; }
static __attribute__((noinline, transaction_safe)) unsigned square(unsigned n) { return n * n; }
static __attribute__((noinline, noipa)) unsigned without_clone(unsigned n) { return n + 1; }
static __attribute__((noinline, noipa, transaction_callable)) unsigned callable(unsigned n) { return n + 2; }

static safe_function *const functions[] = {twice, square};

static unsigned sums[HARTS];

static unsigned sum_of(int is_cancelled)
{
    unsigned sum = 0;
    __transaction_atomic {
        for (unsigned i = 0; i < 10; i++)
            sum += functions[i % 2](i);
        sums[hart_id()] = sum;
        if (is_cancelled)
            __transaction_cancel;
    }
    return sum;
}

static unsigned by_any(unsigned (*function)(unsigned))
{
    unsigned result = 0;
    __transaction_relaxed {
        sums[hart_id()]++;
        result = function(5);
        sums[hart_id()]++;
    }
    return result;
}

static void *table[2][2] = {{(void *)0x10, (void *)0x20}, {(void *)0x30, (void *)0x40}};

static void registered(void)
{
    _ITM_registerTMCloneTable(table, 2);
    CHECK(_ITM_getTMCloneSafe((void *)0x10) == (void *)0x20);
    CHECK(_ITM_getTMCloneOrIrrevocable((void *)0x30) == (void *)0x40);
    _ITM_deregisterTMCloneTable(table);
    CHECK(_ITM_getTMCloneSafe((void *)twice) != NULL);
}

int main(void)
{
    CHECK(sum_of(1) == 0);
    CHECK(sums[hart_id()] == 0);
    CHECK(sum_of(0) == 2 * (0 + 2 + 4 + 6 + 8) + 1 + 9 + 25 + 49 + 81);
    CHECK(sums[hart_id()] == 205);
    unsigned (*volatile any)(unsigned) = without_clone;
    CHECK(by_any(any) == 6);
    any = callable;
    CHECK(by_any(any) == 7);
    any = (unsigned (*)(unsigned))twice;
    CHECK(by_any(any) == 10);
    CHECK(sums[hart_id()] == 211);
    if (hart_id() == 0)
        registered();
    return status();
}
