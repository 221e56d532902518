// Products, quotients and remainders as GCC makes them for RV32IM: for each operation a checksum over what it gives for each two of the samples.
// Then the samples by rising size, and how many primes there are below 1000.
//
//     riscv64-unknown-elf-gcc -march=rv32im -mabi=ilp32 -O2 -nostdlib -static -s -Wl,-Ttext=0x1000,-Tdata=0x3000,--no-relax,-z,max-page-size=4 -o numbers.elf numbers.c
//
//     ./logtm run examples/compiled/numbers.elf
#include "hart.h"

int samples[] = {0, 46341, -1, 7, 0x7fffffff, -10, 1, -0x7fffffff - 1, 1000003, -65536};
enum { SAMPLES = sizeof samples / sizeof samples[0], PRIMES_BELOW = 1000 };

static int low_product(int a, int b) { return (unsigned)a * (unsigned)b; }
static int high_product(int a, int b) { return (long long)a * b >> 32; }
static int mixed_product(int a, int b) { return (long long)a * (unsigned)b >> 32; }
static int unsigned_product(int a, int b) { return (unsigned long long)(unsigned)a * (unsigned)b >> 32; }
static int quotient(int a, int b) { return a / b; }
static int unsigned_quotient(int a, int b) { return (unsigned)a / (unsigned)b; }
static int remainder_of(int a, int b) { return a % b; }
static int unsigned_remainder(int a, int b) { return (unsigned)a % (unsigned)b; }

static const struct {
    const char *name;
    int (*of)(int, int);
    char divides;
} operations[] = {
    {"mul", low_product, 0},
    {"mulh", high_product, 0},
    {"mulhsu", mixed_product, 0},
    {"mulhu", unsigned_product, 0},
    {"div", quotient, 1},
    {"divu", unsigned_quotient, 1},
    {"rem", remainder_of, 1},
    {"remu", unsigned_remainder, 1},
};

// In C a quotient by 0 has no meaning, nor has one that is out of range.
static int is_divided(int a, int b)
{
    return b != 0 && !(a == -0x7fffffff - 1 && b == -1);
}

static unsigned checksum(int which)
{
    unsigned sum = 0;
    for (int i = 0; i < SAMPLES; i++)
        for (int j = 0; j < SAMPLES; j++)
            if (!operations[which].divides || is_divided(samples[i], samples[j]))
                sum = sum * 31 + operations[which].of(samples[i], samples[j]);
    return sum;
}

static void sort(int *low, int *high)
{
    if (low >= high)
        return;
    int *end = low;
    for (int *at = low; at < high; at++)
        if (*at < *high) {
            int smaller = *at;
            *at = *end;
            *end++ = smaller;
        }
    int middle = *high;
    *high = *end;
    *end = middle;
    sort(low, end - 1);
    sort(end + 1, high);
}

static unsigned primes(void)
{
    static unsigned char is_composite[PRIMES_BELOW];
    unsigned count = 0;
    for (unsigned n = 2; n < PRIMES_BELOW; n++) {
        if (is_composite[n])
            continue;
        count++;
        for (unsigned multiple = n * n; multiple < PRIMES_BELOW; multiple += n)
            is_composite[multiple] = 1;
    }
    return count;
}

static void put_signed(int n)
{
    if (n < 0)
        put('-');
    put_decimal(n < 0 ? -(unsigned)n : (unsigned)n);
}

int run(unsigned hart, unsigned harts)
{
    for (int which = 0; which < (int)(sizeof operations / sizeof operations[0]); which++) {
        put_text(operations[which].name);
        put(' ');
        put_decimal(checksum(which));
        put('\n');
    }
    sort(samples, samples + SAMPLES - 1);
    for (int i = 0; i < SAMPLES; i++) {
        put_signed(samples[i]);
        put(i < SAMPLES - 1 ? ' ' : '\n');
    }
    put_decimal(primes());
    put_text(" primes\n");
    return 0;
}
