// The interface called by hand: every form of load, store, note and copy in a transaction that is cancelled, a retry, and a change to serial mode,
// which GCC's code reaches by few ways.
#include "check.h"

#define FOR_TYPES(DO) \
    DO(U1, unsigned char) \
    DO(U2, unsigned short) \
    DO(U4, unsigned) \
    DO(U8, unsigned long long) \
    DO(F, float) \
    DO(D, double) \
    DO(E, long double) \
    DO(CF, float _Complex) \
    DO(CD, double _Complex) \
    DO(CE, long double _Complex)

#define FOR_COPIES(DO) \
    DO(RnWt) DO(RnWtaR) DO(RnWtaW) DO(RtWt) DO(RtWtaR) DO(RtWtaW) DO(RtaRWt) DO(RtaRWtaR) DO(RtaRWtaW) DO(RtaWWt) DO(RtaWWtaR) DO(RtaWWtaW)

#define DECLARE_TYPE(NAME, TYPE) \
    TYPE _ITM_R##NAME(const TYPE *), _ITM_RaR##NAME(const TYPE *), _ITM_RaW##NAME(const TYPE *), _ITM_RfW##NAME(const TYPE *); \
    void _ITM_W##NAME(TYPE *, TYPE), _ITM_WaR##NAME(TYPE *, TYPE), _ITM_WaW##NAME(TYPE *, TYPE), _ITM_L##NAME(const TYPE *);
#define DECLARE_COPY(NAME) void _ITM_memcpy##NAME(void *, const void *, size_t), _ITM_memmove##NAME(void *, const void *, size_t);

FOR_TYPES(DECLARE_TYPE)
FOR_COPIES(DECLARE_COPY)
DECLARE_COPY(RtWn)
DECLARE_COPY(RtaRWn)
DECLARE_COPY(RtaWWn)
void _ITM_memsetW(void *, int, size_t), _ITM_memsetWaR(void *, int, size_t), _ITM_memsetWaW(void *, int, size_t);
void _ITM_LB(const void *, size_t);

enum { CANCELLED = pr_instrumentedCode, KEPT = pr_instrumentedCode | pr_hasNoAbort };

static char from[HARTS][40], to[HARTS][40];
static unsigned counts[HARTS], sums[HARTS], shared __attribute__((aligned(32)));
static struct barrier barrier;

// Each store is seen by each load, and taken back; that of an inner transaction by itself, though the outer one has written there before.
#define CHECK_TYPE(NAME, TYPE) \
    static void check_##NAME(void) \
    { \
        static TYPE each[HARTS]; \
        TYPE *it = &each[hart_id()]; \
        *it = 1; \
        if (_ITM_beginTransaction(CANCELLED) & a_abortTransaction) { \
            CHECK(*it == 1); \
            return; \
        } \
        CHECK(_ITM_R##NAME(it) == 1); \
        _ITM_W##NAME(it, 2); \
        CHECK(_ITM_RaW##NAME(it) == 2); \
        if (_ITM_beginTransaction(CANCELLED) & a_abortTransaction) \
            CHECK(*it == 2); \
        else { \
            _ITM_WaW##NAME(it, 6); \
            _ITM_abortTransaction(userAbort); \
        } \
        _ITM_WaR##NAME(it, 3); \
        CHECK(_ITM_RfW##NAME(it) == 3); \
        _ITM_WaW##NAME(it, 4); \
        CHECK(_ITM_RaR##NAME(it) == 4); \
        _ITM_L##NAME(it); \
        *it = 5; \
        _ITM_abortTransaction(userAbort); \
    }
FOR_TYPES(CHECK_TYPE)

static int is_all(const char *text, char byte)
{
    for (unsigned i = 0; i < sizeof *to; i++)
        if (text[i] != byte)
            return 0;
    return 1;
}

#define CHECK_CALL(CALL, AFTER) \
    __builtin_memset(to[hart_id()], 't', sizeof *to); \
    __builtin_memset(from[hart_id()], 'f', sizeof *from); \
    if (_ITM_beginTransaction(CANCELLED) & a_abortTransaction) \
        CHECK(is_all(to[hart_id()], AFTER)); \
    else { \
        CALL; \
        CHECK(!is_all(to[hart_id()], 't')); \
        _ITM_abortTransaction(userAbort); \
    }

#define CHECK_COPY(NAME) \
    static __attribute__((noinline)) void check_##NAME(void) \
    { \
        CHECK_CALL(_ITM_memcpy##NAME(to[hart_id()], from[hart_id()], sizeof *to), 't') \
        CHECK_CALL(_ITM_memmove##NAME(to[hart_id()] + 3, from[hart_id()], 21), 't') \
    }
FOR_COPIES(CHECK_COPY)

// What isn't stored to in the transaction isn't taken back.
#define CHECK_OUTSIDE(NAME) \
    static __attribute__((noinline)) void check_##NAME(void) \
    { \
        CHECK_CALL(_ITM_memcpy##NAME(to[hart_id()], from[hart_id()], sizeof *to), 'f') \
        CHECK_CALL(_ITM_memmove##NAME(to[hart_id()], from[hart_id()], sizeof *to), 'f') \
    }
CHECK_OUTSIDE(RtWn)
CHECK_OUTSIDE(RtaRWn)
CHECK_OUTSIDE(RtaWWn)

static __attribute__((noinline)) void check_sets(void)
{
    CHECK_CALL(_ITM_memsetW(to[hart_id()], 'f', 5), 't')
    CHECK_CALL(_ITM_memsetWaR(to[hart_id()], 'f', 6), 't')
    CHECK_CALL(_ITM_memsetWaW(to[hart_id()] + 1, 'f', 7), 't')
    CHECK_CALL((_ITM_LB(to[hart_id()], 8), __builtin_memset(to[hart_id()], 'f', 8)), 't')
}

// A retry takes back what was stored by calls. The count, which isn't, says when it was tried often enough.
static __attribute__((noinline)) void check_retry(void)
{
    unsigned *sum = &sums[hart_id()];
    _ITM_beginTransaction(KEPT);
    counts[hart_id()]++;
    _ITM_WU4(sum, _ITM_RU4(sum) + 1);
    if (counts[hart_id()] < 4)
        _ITM_abortTransaction(userRetry);
    _ITM_commitTransaction();
    CHECK(counts[hart_id()] == 4);
    CHECK(*sum == 1);
}

// An inner transaction that has to run alone begins the outermost one again.
static __attribute__((noinline)) void check_change(void)
{
    unsigned *sum = &sums[hart_id()];
    _ITM_beginTransaction(KEPT);
    _ITM_WU4(&shared, _ITM_RU4(&shared) + 1);
    _ITM_beginTransaction(KEPT);
    _ITM_WU4(sum, _ITM_RU4(sum) + 1);
    _ITM_changeTransactionMode(modeSerialIrrevocable);
    CHECK(_ITM_inTransaction() == inIrrevocableTransaction);
    _ITM_WU4(sum, _ITM_RU4(sum) + 1);
    _ITM_commitTransaction();
    CHECK(_ITM_inTransaction() == inIrrevocableTransaction);
    _ITM_commitTransaction();
    CHECK(_ITM_inTransaction() == outsideTransaction);
    CHECK(*sum == 3);
    _ITM_beginTransaction(CANCELLED);
    _ITM_WU4(sum, 4);
    _ITM_changeTransactionMode(modeSerialIrrevocable);
    CHECK(_ITM_inTransaction() == inIrrevocableTransaction);
    _ITM_commitTransaction();
    CHECK(*sum == 4);
}

// Which code a transaction is to run: after one that was cancelled or committed it is what the outer one runs again.
static __attribute__((noinline)) void check_codes(void)
{
    volatile uint32_t actions;
    CHECK(_ITM_beginTransaction(pr_multiwayCode | pr_hasNoAbort) == a_runUninstrumentedCode);
    actions = _ITM_beginTransaction(pr_multiwayCode);
    if (!(actions & a_abortTransaction)) {
        CHECK(actions & a_runInstrumentedCode && !(actions & a_runUninstrumentedCode));
        CHECK(_ITM_beginTransaction(pr_multiwayCode | pr_hasNoAbort) & a_runInstrumentedCode);
        _ITM_commitTransaction();
        _ITM_abortTransaction(userAbort);
    }
    CHECK(_ITM_beginTransaction(pr_multiwayCode | pr_hasNoAbort) == a_runUninstrumentedCode);
    _ITM_commitTransaction();
    CHECK(_ITM_beginTransaction(pr_multiwayCode) & a_runInstrumentedCode);
    _ITM_commitTransaction();
    CHECK(_ITM_beginTransaction(pr_multiwayCode | pr_hasNoAbort) == a_runUninstrumentedCode);
    _ITM_commitTransaction();
    _ITM_commitTransaction();
    CHECK(_ITM_beginTransaction(pr_uninstrumentedCode | pr_hasNoAbort | pr_doesGoIrrevocable) == a_runUninstrumentedCode);
    CHECK(_ITM_inTransaction() == inIrrevocableTransaction);
    _ITM_commitTransaction();
}

static __attribute__((noinline)) void cancel_with_other_registers(void)
{
    __asm__ volatile("li s1, -1; li s2, -1; li s3, -1; li s4, -1; li s5, -1; li s6, -1; li s7, -1; li s8, -1; li s9, -1; li s10, -1; li s11, -1"
                     :
                     :
                     : "s1", "s2", "s3", "s4", "s5", "s6", "s7", "s8", "s9", "s10", "s11");
    _ITM_abortTransaction(userAbort);
}

static __attribute__((noinline)) void begin_and_cancel(void)
{
    if (!(_ITM_beginTransaction(CANCELLED) & a_abortTransaction))
        cancel_with_other_registers();
}

// A caller's registers are as they were when a transaction that was begun in a call is cancelled.
static __attribute__((noinline)) void check_registers(void)
{
    register unsigned s1 __asm__("s1") = 1, s2 __asm__("s2") = 2, s3 __asm__("s3") = 3, s4 __asm__("s4") = 4, s5 __asm__("s5") = 5;
    register unsigned s6 __asm__("s6") = 6, s7 __asm__("s7") = 7, s8 __asm__("s8") = 8, s9 __asm__("s9") = 9, s10 __asm__("s10") = 10;
    register unsigned s11 __asm__("s11") = 11;
    __asm__ volatile("" : "+r"(s1), "+r"(s2), "+r"(s3), "+r"(s4), "+r"(s5), "+r"(s6), "+r"(s7), "+r"(s8), "+r"(s9), "+r"(s10), "+r"(s11));
    begin_and_cancel();
    __asm__ volatile("" : "+r"(s1), "+r"(s2), "+r"(s3), "+r"(s4), "+r"(s5), "+r"(s6), "+r"(s7), "+r"(s8), "+r"(s9), "+r"(s10), "+r"(s11));
    unsigned kept = (s1 == 1) + (s2 == 2) + (s3 == 3) + (s4 == 4) + (s5 == 5) + (s6 == 6) + (s7 == 7) + (s8 == 8) + (s9 == 9) + (s10 == 10) + (s11 == 11);
    CHECK(kept == 11);
}

int main(void)
{
#define CALL_TYPE(NAME, TYPE) check_##NAME();
#define CALL_COPY(NAME) check_##NAME();
    FOR_TYPES(CALL_TYPE)
    FOR_COPIES(CALL_COPY)
    check_RtWn();
    check_RtaRWn();
    check_RtaWWn();
    check_sets();
    check_retry();
    check_change();
    check_codes();
    check_registers();
    barrier_wait(&barrier);
    CHECK(shared == hart_count());
    return status();
}
