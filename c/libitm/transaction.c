// The begin, the end and the cancelling of transactions.
#include "transaction.h"

// After so many aborts in a row a transaction runs alone: it may be too large for the undo log, or call the environment.
enum { MOST_ABORTS = 8 };

__thread struct transaction logtm_transaction;

static bool is_cancelled_here(uint32_t properties)
{
    return !(properties & pr_hasNoAbort);
}

// Begins a hardware transaction, unless the hart's door is closed. Answers whether that runs now. An abort undoes all that was done since, in the
// library too, and the answer is then false.
static inline bool start_hardware(struct transaction *it)
{
    if (tx_begin() != TX_STARTED) {
        it->aborts++;
        return false;
    }
    if (!logtm_doors[hart_id()].is_closed)
        return true;
    tx_commit();
    return false;
}

// Begins a transaction that couldn't be begun at once: after a wait, or alone after too many aborts. Answers whether it is in hardware.
static __attribute__((noinline)) bool start_later(struct transaction *it)
{
    while (it->aborts < MOST_ABORTS) {
        tx_wait(it->aborts);
        while (__atomic_load_n(&logtm_doors[hart_id()].is_closed, __ATOMIC_ACQUIRE))
            ;
        if (start_hardware(it))
            return true;
    }
    logtm_enter_serial();
    return false;
}

// Keeps where a transaction has begun, so that it can be rolled back.
static void open_scope(struct transaction *it, uint32_t properties, const struct checkpoint *begin)
{
    struct chunk *chunk = it->chunk;
    unsigned used = chunk ? chunk->used : 0;
    struct scope *scope = logtm_add_record(SCOPE, sizeof *scope);
    scope->outer = it->scope;
    scope->chunk = chunk;
    scope->used = used;
    scope->depth = it->depth;
    scope->is_outer_instrumented = it->is_instrumented;
    scope->properties = properties;
    scope->begin = *begin;
    it->scope = scope;
}

// Which code a transaction runs, and that it can be rolled back if that is the instrumented one.
static uint32_t choose_code(struct transaction *it, uint32_t properties, const struct checkpoint *begin)
{
    bool needs_journal = it->is_instrumented || is_cancelled_here(properties);
    if (!needs_journal && properties & pr_uninstrumentedCode)
        return a_runUninstrumentedCode;
    if (!(properties & pr_instrumentedCode))
        logtm_refuse("an atomic block without instrumented code in one that can be cancelled");
    if (it->depth == 1 || is_cancelled_here(properties))
        open_scope(it, properties, begin);
    it->is_instrumented = true;
    return a_runInstrumentedCode | a_saveLiveVariables;
}

// Begins an outermost transaction, which was perhaps aborted before.
static uint32_t begin_outer(struct transaction *it, uint32_t properties, const struct checkpoint *begin)
{
    if (properties & pr_doesGoIrrevocable && properties & pr_uninstrumentedCode)
        it->aborts = MOST_ABORTS;
    bool is_hardware = (it->aborts < MOST_ABORTS && start_hardware(it)) || start_later(it);
    logtm_hart.is_retried = is_hardware;
    it->mode = is_hardware ? HARDWARE : SERIAL;
    it->depth = 1;
    it->is_instrumented = false;
    it->is_irrevocable = !is_hardware && !is_cancelled_here(properties);
    it->id += hart_count();
    return choose_code(it, properties, begin);
}

// What _ITM_beginTransaction does, once it has kept the registers.
uint32_t logtm_begin(uint32_t properties, const struct checkpoint *begin)
{
    struct transaction *it = &logtm_transaction;
    if (it->depth > 0) {
        it->depth++;
        return choose_code(it, properties, begin);
    }
    it->aborts = 0;
    if (it->id == 0)
        it->id = _ITM_noTransactionId + 1 + hart_id();
    return begin_outer(it, properties, begin);
}

// Ends the outermost transaction, with what memory holds now. The journal is kept.
void logtm_end(void)
{
    struct transaction *it = &logtm_transaction;
    it->depth = 0;
    it->scope = NULL;
    if (it->mode == HARDWARE) {
        logtm_hart.is_retried = false;
        tx_commit();
    } else
        logtm_leave_serial();
}

void _ITM_commitTransaction(void)
{
    struct transaction *it = &logtm_transaction;
    if (it->depth > 1) {
        if (it->scope && it->scope->depth == it->depth) {
            it->is_instrumented = it->scope->is_outer_instrumented;
            it->scope = it->scope->outer;
        }
        it->depth--;
        return;
    }
    struct record *newest = it->newest;
    struct chunk *last = it->chunk;
    bool has_put_off = it->has_put_off;
    it->newest = NULL;
    it->chunk = NULL;
    it->has_put_off = false;
    logtm_end();
    if (newest)
        logtm_finish(newest, last, has_put_off);
}

static struct scope *outermost(const struct transaction *it)
{
    struct scope *scope = it->scope;
    while (scope && scope->outer)
        scope = scope->outer;
    return scope && scope->depth == 1 ? scope : NULL;
}

// Rolls the whole transaction back and begins it again: alone, or else as before, after a wait. Where it can't be rolled back the hardware
// aborts it, which ends in the same way after some aborts.
static _Noreturn void restart(bool is_alone)
{
    struct transaction *it = &logtm_transaction;
    struct scope *scope = outermost(it);
    if (!scope) {
        if (it->mode == HARDWARE)
            tx_abort();
        logtm_refuse("a retry of an irrevocable transaction");
    }
    struct checkpoint begin = scope->begin;
    uint32_t properties = scope->properties;
    logtm_roll_back(scope);
    logtm_end();
    if (is_alone)
        it->aborts = MOST_ABORTS;
    else
        tx_wait(++it->aborts);
    uint32_t actions = begin_outer(it, properties, &begin);
    logtm_resume(&begin, actions | a_restoreLiveVariables);
}

void _ITM_abortTransaction(_ITM_abortReason reason)
{
    struct transaction *it = &logtm_transaction;
    if (reason & userRetry)
        restart(false);
    if (!(reason & userAbort))
        logtm_refuse("_ITM_abortTransaction for another reason than cancel and retry");
    struct scope *scope = reason & outerAbort ? outermost(it) : it->scope;
    if (!scope)
        logtm_refuse("_ITM_abortTransaction of a transaction that has no begin to go back to");
    struct checkpoint begin = scope->begin;
    unsigned depth = scope->depth;
    it->is_instrumented = scope->is_outer_instrumented;
    logtm_roll_back(scope);
    it->depth = depth - 1;
    if (it->depth == 0)
        logtm_end();
    logtm_resume(&begin, a_abortTransaction | a_restoreLiveVariables);
}

void _ITM_changeTransactionMode(_ITM_transactionState state)
{
    (void)state;
    struct transaction *it = &logtm_transaction;
    if (it->mode == HARDWARE)
        restart(true);
    it->is_irrevocable = true;
}

_ITM_howExecuting _ITM_inTransaction(void)
{
    struct transaction *it = &logtm_transaction;
    if (it->depth == 0)
        return outsideTransaction;
    return it->is_irrevocable ? inIrrevocableTransaction : inRetryableTransaction;
}

_ITM_transactionId_t _ITM_getTransactionId(void)
{
    struct transaction *it = &logtm_transaction;
    return it->depth == 0 ? _ITM_noTransactionId : it->id;
}

int _ITM_getThreadnum(void)
{
    return hart_id();
}
