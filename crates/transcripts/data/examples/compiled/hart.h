// What a C program needs of the machine: where each hart begins, a call that puts out a byte, and the exit. Where the program is built for a
// computer of one's own, its harts are threads, and what they put out is the same.

// What each hart does, and the status that it exits with.
int run(unsigned hart, unsigned harts);

#ifdef __riscv

static void call(long number, long argument)
{
    register long a0 __asm__("a0") = argument;
    register long a7 __asm__("a7") = number;
    __asm__ volatile("ecall" : "+r"(a0) : "r"(a7) : "memory");
}

static void put(char byte)
{
    call(1, byte);
}

void _start(unsigned hart, unsigned harts)
{
    call(93, run(hart, harts));
    __builtin_unreachable();
}

#else

#include <pthread.h>
#include <stdio.h>
#include <stdlib.h>

static unsigned harts_started;

static void put(char byte)
{
    putchar(byte);
}

static void *thread(void *hart)
{
    return (void *)(long)run((long)hart, harts_started);
}

// The harts are as many as the first word says.
int main(int count, char **words)
{
    pthread_t threads[8];
    harts_started = count > 1 ? atoi(words[1]) : 1;
    for (long hart = 0; hart < harts_started; hart++)
        pthread_create(&threads[hart], 0, thread, (void *)hart);
    void *status = 0;
    for (unsigned hart = 0; hart < harts_started && status == 0; hart++)
        pthread_join(threads[hart], &status);
    return (long)status;
}

#endif

static void put_text(const char *text)
{
    while (*text)
        put(*text++);
}

static void put_decimal(unsigned n)
{
    if (n >= 10)
        put_decimal(n / 10);
    put('0' + n % 10);
}
