// From the start of a hart to its exit, and its output.
#include <logtm.h>

__thread struct logtm_hart logtm_hart __attribute__((aligned(32)));

int main(int count, char **words);
extern void (*const __init_array_start[])(void), (*const __init_array_end[])(void);
_Noreturn void exit(int status);
// libitm's: ends the transaction that runs alone, so that the other harts go on. Without libitm it is the next one.
void logtm_give_up(void);

void logtm_no_transaction(void)
{
}

enum { PUT_BYTE = 1, EXIT = 93, ABORTED = 134 };

// A call of the environment. It is a trap in a transaction, so one of libitm's is given up first, to be tried again until it runs alone.
static int call(int number, int argument)
{
    if (logtm_hart.is_retried)
        tx_abort();
    register int a0 __asm__("a0") = argument;
    register int a7 __asm__("a7") = number;
    __asm__ volatile("ecall" : "+r"(a0) : "r"(a7) : "memory");
    return a0;
}

void put_byte(char byte)
{
    call(PUT_BYTE, byte);
}

void put_text(const char *text)
{
    while (*text)
        put_byte(*text++);
}

void put_decimal(unsigned number)
{
    if (number >= 10)
        put_decimal(number / 10);
    put_byte('0' + number % 10);
}

_Noreturn void logtm_exit(int status)
{
    if (logtm_hart.is_retried)
        tx_abort();
    logtm_give_up();
    call(EXIT, status);
    __builtin_unreachable();
}

_Noreturn void _exit(int status)
{
    logtm_exit(status);
}

_Noreturn void abort(void)
{
    logtm_exit(ABORTED);
}

// Hart 0 calls the constructors, and the other harts wait for that.
static void construct(void)
{
    static unsigned is_constructed __attribute__((aligned(32)));
    if (hart_id() == 0) {
        for (void (*const *it)(void) = __init_array_start; it < __init_array_end; it++)
            (*it)();
        __atomic_store_n(&is_constructed, 1, __ATOMIC_RELEASE);
    } else
        while (!__atomic_load_n(&is_constructed, __ATOMIC_ACQUIRE))
            ;
}

// Whether the program's data and the harts' stacks lie apart.
static int has_room(void)
{
    extern char __heap_start[];
    return __heap_start <= logtm_hart.heap_end && logtm_hart.heap_end <= (char *)&logtm_hart;
}

_Noreturn void logtm_start(void)
{
    static char *words[] = {0};
    if (!has_room()) {
        put_text("no room for the stacks\n");
        abort();
    }
    construct();
    exit(main(0, words));
}
