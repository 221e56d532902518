// malloc, calloc and free in blocks: a cancelled one gives back what it took, and keeps what it gave back. So the heap isn't used up in many rounds.
#include "check.h"

enum { ROUNDS = 60, SIZE = 16000 };

struct piece {
    struct piece *next;
    unsigned value;
};

static struct piece *first __attribute__((aligned(32)));
static unsigned taken __attribute__((aligned(32)));
static struct barrier barrier;

static void push(unsigned value)
{
    __transaction_atomic {
        struct piece *piece = malloc(sizeof *piece);
        piece->value = value;
        piece->next = first;
        first = piece;
    }
}

static unsigned pop(void)
{
    unsigned value = 0;
    __transaction_atomic {
        struct piece *piece = first;
        if (piece) {
            first = piece->next;
            value = piece->value;
            free(piece);
        }
    }
    return value;
}

// Whether there was no memory.
static __attribute__((noipa)) int cancelled(char *kept, int is_cancelled)
{
    int has_none = 0;
    __transaction_atomic {
        char *large = malloc(SIZE);
        unsigned *zeros = calloc(10, sizeof *zeros);
        free(kept);
        if (!large || !zeros || zeros[9] != 0)
            has_none = 1;
        else {
            large[SIZE - 1] = 'x';
            if (is_cancelled)
                __transaction_cancel;
        }
    }
    return has_none;
}

// Gives memory back for other, in a block that could be cancelled.
static __attribute__((noipa)) char *replaced(char *old, int is_cancelled)
{
    char *other = old;
    __transaction_atomic {
        other = malloc(SIZE);
        free(old);
        if (is_cancelled)
            __transaction_cancel;
    }
    return other;
}

int main(void)
{
    char *large = NULL;
    char *kept = malloc(100);
    for (unsigned i = 0; i < 100; i++)
        kept[i] = i;
    unsigned sum = 0;
    for (unsigned round = 0; round < ROUNDS; round++) {
        push(round + 1);
        CHECK(!cancelled(kept, 1));
        sum += pop();
        large = replaced(large, 0);
        CHECK(large != NULL);
    }
    free(large);
    for (unsigned i = 0; i < 100; i++)
        CHECK(kept[i] == (char)i);
    __transaction_atomic {
        taken += sum;
    }
    barrier_wait(&barrier);
    CHECK(taken == hart_count() * ROUNDS * (ROUNDS + 1) / 2);
    CHECK(!first);
    volatile unsigned huge = 0x10001;
    CHECK(!malloc(huge << 14) && !calloc(huge, huge));
    kept = realloc(kept, 200);
    CHECK(kept && kept[99] == 99);
    free(kept);
    return status();
}
