// A section that is executed as a whole, in three versions: under one lock for all sections (LOCK), in a transaction of intrinsics (INTRINSICS), and
// as an atomic block of the language, which -fgnu-tm compiles.
#include <logtm.h>

#if defined LOCK
static struct spin_lock lock_of_all;
#define WHOLE(...)               \
    do {                         \
        spin_lock(&lock_of_all); \
        __VA_ARGS__              \
        spin_unlock(&lock_of_all); \
    } while (0)
#elif defined INTRINSICS
#define WHOLE(...)                                                      \
    do {                                                                \
        for (unsigned aborts = 1; tx_begin() != TX_STARTED; aborts++)   \
            tx_wait(aborts);                                            \
        __VA_ARGS__                                                     \
        tx_commit();                                                    \
    } while (0)
#else
#define WHOLE(...) __transaction_atomic { __VA_ARGS__ }
#endif

// Puts out a name, a number and the end of the line.
static inline void put_line(const char *name, unsigned number)
{
    put_text(name);
    put_byte(' ');
    put_decimal(number);
    put_byte('\n');
}
