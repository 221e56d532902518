// A sorted list. Each hart puts in 8 numbers of its own, and takes out every other one. The numbers that are left are in order, 4 of each hart.
//
//     scripts/logtm-cc list.c -DLOCK -Os -o list-lock.elf
//     scripts/logtm-cc list.c -DINTRINSICS -Os -o list-intrinsics.elf
//     scripts/logtm-cc list.c -fgnu-tm -Os -o list-atomic.elf
//
//     ./logtm run examples/c/list-atomic.elf --harts 4
#include "versions.h"

enum { HARTS = 8, ROUNDS = 8 };

struct item {
    struct item *next;
    unsigned number;
} __attribute__((aligned(32)));

static struct item *first __attribute__((aligned(32)));
static struct item items[HARTS][ROUNDS];
static struct barrier barrier;

// The place in the list of the first number that isn't below this one.
static struct item **place_of(unsigned number)
{
    struct item **place = &first;
    while (*place && (*place)->number < number)
        place = &(*place)->next;
    return place;
}

static void put_in(struct item *item)
{
    WHOLE(
        struct item **place = place_of(item->number);
        item->next = *place;
        *place = item;
    );
}

static void take_out(unsigned number)
{
    WHOLE(
        struct item **place = place_of(number);
        if (*place && (*place)->number == number)
            *place = (*place)->next;
    );
}

int main(void)
{
    struct item *own = items[hart_id()];
    for (unsigned round = 0; round < ROUNDS; round++) {
        own[round].number = round * HARTS + hart_id();
        put_in(&own[round]);
        if (round % 2 == 1)
            take_out(own[round - 1].number);
    }
    barrier_wait(&barrier);
    if (hart_id() != 0)
        return 0;
    unsigned length = 0, sum = 0, is_unsorted = 0;
    for (struct item *item = first; item; item = item->next) {
        length++;
        sum += item->number;
        is_unsorted |= item->next && item->next->number <= item->number;
    }
    put_line("length", length);
    put_line("sum", sum);
    return is_unsorted;
}
