// Loads, stores and copies of each type in a block that is cancelled, and in one that is not.
#include "check.h"

struct mixed {
    unsigned char byte;
    unsigned short half;
    unsigned word;
    unsigned long long wide;
    float single;
    double both;
    long double quad;
    float _Complex complex_single;
    double _Complex complex_both;
    long double _Complex complex_quad;
    char text[37];
};

static struct mixed values[HARTS] __attribute__((aligned(32))), copies[HARTS] __attribute__((aligned(32)));
static const struct mixed zeros;

static int is_same(const void *one, const void *other, unsigned size)
{
    const char *left = one, *right = other;
    for (unsigned i = 0; i < size; i++)
        if (left[i] != right[i])
            return 0;
    return 1;
}

// Not inlined, so that what is cancelled below is a call of the clone.
static __attribute__((noinline, transaction_safe)) void set(struct mixed *it)
{
    it->byte += 1;
    it->half += 2;
    it->word += 3;
    it->wide += 0x100000004ull;
    it->single += 1.5f;
    it->both += 2.5;
    it->quad += 3.5L;
    it->complex_single += 1.0f + 2.0if;
    it->complex_both += 3.0 + 4.0i;
    it->complex_quad += 5.0L + 6.0iL;
    for (unsigned i = 0; i < sizeof it->text; i++)
        it->text[i] += i;
}

static __attribute__((noinline, transaction_safe)) void copy(struct mixed *to, const struct mixed *from)
{
    *to = *from;
    __builtin_memmove(to->text + 1, to->text, 30);
    __builtin_memset(to->text + 31, 'z', 5);
}

static void check_set(const struct mixed *it)
{
    CHECK(it->byte == 1 && it->half == 2 && it->word == 3 && it->wide == 0x100000004ull);
    CHECK(it->single == 1.5f && it->both == 2.5 && it->quad == 3.5L);
    CHECK(it->complex_single == 1.0f + 2.0if && it->complex_both == 3.0 + 4.0i && it->complex_quad == 5.0L + 6.0iL);
    CHECK(it->text[0] == 0 && it->text[36] == 36);
}

int main(void)
{
    struct mixed *it = &values[hart_id()], *other = &copies[hart_id()];
    __transaction_atomic {
        set(it);
        copy(other, it);
        if (it->word == 3)
            __transaction_cancel;
    }
    CHECK(is_same(it, &zeros, sizeof zeros));
    CHECK(is_same(other, &zeros, sizeof zeros));
    __transaction_atomic {
        set(it);
        copy(other, it);
        if (it->word != 3)
            __transaction_cancel;
    }
    check_set(it);
    CHECK(is_same(it, other, __builtin_offsetof(struct mixed, text)));
    CHECK(other->text[0] == 0 && other->text[1] == 0 && other->text[30] == 29 && other->text[31] == 'z' && other->text[36] == 36);
    return status();
}
