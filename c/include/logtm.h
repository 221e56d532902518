// What a C program needs of logtm: which hart it runs on, output, exit, transactions, and what harts need to wait for each other. Every hart
// enters `main`; what `main` answers is the status that the hart exits with. scripts/logtm-cc compiles and links; docs/COMPILERS.md tells more.
#ifndef LOGTM_H
#define LOGTM_H

#include <stddef.h>

// What each hart has of its own: it lies in thread-local storage, at the top of the hart's stack.
struct logtm_hart {
    unsigned id;               // the hart's number: what a0 is at the start
    unsigned count;            // how many harts there are: what a1 is at the start
    char *heap_end;            // where the heap ends and the stacks begin; the same for all harts
    char *stack;               // the lowest address of the hart's stack
    unsigned is_retried;       // whether a hardware transaction of libitm runs, so that an abort of it is tried again
};

extern __thread struct logtm_hart logtm_hart;

// The number of the hart that asks, from 0.
static inline unsigned hart_id(void)
{
    return logtm_hart.id;
}

// How many harts run the program, 1 to 8. The machine gives the number to each hart at the start, so it is there before any other hart has run.
static inline unsigned hart_count(void)
{
    return logtm_hart.count;
}

// Puts out a byte: the environment call 1. Each hart has an output of its own. In a transaction of intrinsics the call is a trap
// (CallInTransaction), which takes the transaction back and stops the hart. In an atomic block it aborts the transaction, which is tried again
// until it runs alone (serial mode), and then the byte is put out.
void put_byte(char byte);

// Puts out a text, up to its 0.
void put_text(const char *text);

// Puts out a number in decimal.
void put_decimal(unsigned number);

// Ends this hart with a status: the environment call 93. The other harts go on. In a transaction it is a trap or an abort, as put_byte is.
_Noreturn void logtm_exit(int status);

// Memory from the heap, which all harts share, up to the stacks. These can be called in transactions: an abort takes them back.
void *malloc(size_t size);
void *calloc(size_t count, size_t size);
void *realloc(void *start, size_t size);
void free(void *start);

// What tx_begin answers.
enum { TX_ABORTED = 0, TX_STARTED = 1 };

#ifdef __riscv

// Begins a transaction (TBEGIN), or goes one deeper in the one that runs, 255 deep at most. It answers TX_STARTED, and what follows is done in the
// transaction. If that aborts, at any time and by whatever cause, the outermost tx_begin answers again, now TX_ABORTED, outside any transaction:
// all registers and all memory, the stack too, are as they were at that begin. The machine doesn't tell the cause: a conflict with another hart,
// tx_abort, or a full log (a transaction may store to some 113 blocks of 32 bytes). So whoever tries again has to stop at some time and do the
// work under a lock that the transactions read, if it may be too large. A trap in a transaction takes it back and stops the hart.
static inline __attribute__((always_inline)) int tx_begin(void)
{
    int answer;
    __asm__ volatile(".option push\n\t"
                     ".option norvc\n\t"
                     "li %0, 0\n\t"
                     ".word 0x0000000b | 8 << 7\n\t" // tbegin: an abort goes on behind the next instruction
                     "li %0, 1\n\t"
                     ".option pop"
                     : "=r"(answer)
                     :
                     : "memory");
    return answer;
}

// Ends the innermost transaction (TCOMMIT). The outermost one makes all its stores visible at once. Outside a transaction it is a trap.
static inline __attribute__((always_inline)) void tx_commit(void)
{
    __asm__ volatile(".word 0x0000100b" ::: "memory");
}

// Aborts the whole transaction, however deep (TABORT): the outermost tx_begin answers TX_ABORTED. Outside a transaction it is a trap.
static inline __attribute__((always_inline, noreturn)) void tx_abort(void)
{
    __asm__ volatile(".word 0x0000200b" ::: "memory");
    __builtin_unreachable();
}

#else

// On a computer of one's own (c/host): a transaction waits until no other one runs, and is never aborted.
int tx_begin(void);
void tx_commit(void);

#endif

// Waits after the n-th abort in a row, outside transactions: twice as long after each, and each hart for a time of its own. Harts that try again
// at once can abort each other for ever.
static inline void tx_wait(unsigned aborts)
{
    unsigned turns = (hart_id() + 1) << (aborts < 8 ? aborts : 8);
    for (; turns > 0; turns--)
        __asm__ volatile("");
}

// Where all harts wait for each other. It begins as {0}. It has a block of memory to itself.
struct barrier {
    unsigned arrived, round;
} __attribute__((aligned(32)));

// Waits until each of the program's harts has come here; the barrier can be used again at once. The last to come (by AMOADD) lets the others go
// on. Not in a transaction, in which nobody would see this hart come.
static inline void barrier_wait(struct barrier *barrier)
{
    unsigned round = __atomic_load_n(&barrier->round, __ATOMIC_ACQUIRE);
    if (__atomic_add_fetch(&barrier->arrived, 1, __ATOMIC_ACQ_REL) == hart_count()) {
        barrier->arrived = 0;
        __atomic_store_n(&barrier->round, round + 1, __ATOMIC_RELEASE);
    } else
        while (__atomic_load_n(&barrier->round, __ATOMIC_ACQUIRE) == round)
            ;
}

// A lock, which begins as {0}. It has a block of memory to itself.
struct spin_lock {
    unsigned is_held;
} __attribute__((aligned(32)));

// Takes a lock (AMOSWAP), and waits as long as another hart has it, looking by loads, which disturb nobody. Not in a transaction: an abort gives
// the lock back, but a hart that waits for it in a transaction keeps the one that has it from letting go.
static inline void spin_lock(struct spin_lock *lock)
{
    while (__atomic_exchange_n(&lock->is_held, 1, __ATOMIC_ACQUIRE))
        while (__atomic_load_n(&lock->is_held, __ATOMIC_RELAXED))
            ;
}

// Lets a lock go.
static inline void spin_unlock(struct spin_lock *lock)
{
    __atomic_store_n(&lock->is_held, 0, __ATOMIC_RELEASE);
}

#endif
