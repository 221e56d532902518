// What pthread.h and sys/mman.h here declare. The program's main has to be called program_main (-Dmain=program_main), but in this file.
#undef main
#include <logtm.h>
#include <pthread.h>
#include <sys/mman.h>

enum { HARTS = 8, THREADS = 32, KEYS = 8, PASSES = 4, AGAIN = 11, PAGE = 4096 };

enum state { FREE, WAITING, RUNNING, ENDED };

struct thread {
    unsigned state;
    void *(*start)(void *);
    void *argument, *result;
} __attribute__((aligned(32)));

static struct thread threads[THREADS];
static unsigned is_over __attribute__((aligned(32)));
static unsigned key_count;
static void (*destructors[KEYS])(void *);
static __thread const void *values[KEYS];

int program_main();

int pthread_create(pthread_t *thread, const pthread_attr_t *attributes, void *(*start)(void *), void *argument)
{
    (void)attributes;
    for (unsigned i = 0; i < THREADS; i++)
        if (threads[i].state == FREE) {
            threads[i].start = start;
            threads[i].argument = argument;
            *thread = i;
            __atomic_store_n(&threads[i].state, WAITING, __ATOMIC_RELEASE);
            return 0;
        }
    return AGAIN;
}

int pthread_join(pthread_t thread, void **result)
{
    while (__atomic_load_n(&threads[thread].state, __ATOMIC_ACQUIRE) != ENDED)
        ;
    if (result)
        *result = threads[thread].result;
    threads[thread].state = FREE;
    return 0;
}

int pthread_key_create(pthread_key_t *key, void (*destructor)(void *))
{
    unsigned number = __atomic_fetch_add(&key_count, 1, __ATOMIC_ACQ_REL);
    if (number >= KEYS)
        return AGAIN;
    destructors[number] = destructor;
    *key = number;
    return 0;
}

int pthread_setspecific(pthread_key_t key, const void *value)
{
    values[key] = value;
    return 0;
}

void *pthread_getspecific(pthread_key_t key)
{
    return (void *)values[key];
}

// Calls the destructors of a thread that ends, again where one of them has set a value.
static void destroy_values(void)
{
    for (unsigned pass = 0; pass < PASSES; pass++)
        for (unsigned key = 0; key < KEYS; key++) {
            void *value = (void *)values[key];
            values[key] = NULL;
            if (value && destructors[key])
                destructors[key](value);
        }
}

// Takes a thread that waits, in a transaction, since there is no compare-and-exchange.
static struct thread *taken(void)
{
    struct thread *found = NULL;
    for (unsigned i = 0; i < THREADS && !found; i++)
        if (__atomic_load_n(&threads[i].state, __ATOMIC_ACQUIRE) == WAITING && tx_begin() == TX_STARTED) {
            if (threads[i].state == WAITING) {
                threads[i].state = RUNNING;
                found = &threads[i];
            }
            tx_commit();
        }
    return found;
}

static void run_threads(void)
{
    while (!__atomic_load_n(&is_over, __ATOMIC_ACQUIRE)) {
        struct thread *thread = taken();
        if (!thread)
            continue;
        thread->result = thread->start(thread->argument);
        destroy_values();
        __atomic_store_n(&thread->state, ENDED, __ATOMIC_RELEASE);
    }
}

int main(void)
{
    if (hart_id() != 0) {
        run_threads();
        return 0;
    }
    int status = program_main();
    __atomic_store_n(&is_over, 1, __ATOMIC_RELEASE);
    return status;
}

int getpagesize(void)
{
    return PAGE;
}

void *mmap(void *address, size_t size, int protection, int flags, int file, long offset)
{
    (void)address, (void)protection, (void)flags, (void)file, (void)offset;
    void *start = calloc(1, size);
    return start ? start : MAP_FAILED;
}

int mprotect(void *address, size_t size, int protection)
{
    (void)address, (void)size, (void)protection;
    return 0;
}
