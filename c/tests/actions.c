// Actions on commit and on cancelling: their order, and which of them are called. One on commit may put out bytes and begin a transaction.
#include "check.h"

static struct log {
    unsigned count, numbers[12], blocks;
} __attribute__((aligned(32))) logs[HARTS];
static unsigned shared __attribute__((aligned(32)));
static struct barrier barrier;

static void note(void *number)
{
    struct log *log = &logs[hart_id()];
    log->numbers[log->count++] = (uintptr_t)number;
}

static void begin_another(void *unused)
{
    (void)unused;
    CHECK(_ITM_inTransaction() == outsideTransaction);
    __transaction_atomic {
        shared++;
        _ITM_addUserCommitAction(note, _ITM_noTransactionId, (void *)9);
    }
    note((void *)10);
}

static void check_log(unsigned count, const unsigned *numbers)
{
    struct log *log = &logs[hart_id()];
    CHECK(log->count == count);
    for (unsigned i = 0; i < count; i++)
        CHECK(log->numbers[i] == numbers[i]);
    log->count = 0;
}

// Each block changes something, since GCC drops those that don't.
static void committed(int is_cancelled)
{
    __transaction_atomic {
        logs[hart_id()].blocks++;
        _ITM_addUserCommitAction(note, _ITM_noTransactionId, (void *)1);
        __transaction_atomic {
            logs[hart_id()].blocks++;
            _ITM_addUserCommitAction(note, _ITM_noTransactionId, (void *)2);
            _ITM_addUserUndoAction(note, (void *)3);
            if (is_cancelled)
                __transaction_cancel;
        }
        _ITM_addUserCommitAction(begin_another, _ITM_noTransactionId, NULL);
        _ITM_addUserCommitAction(note, _ITM_noTransactionId, (void *)4);
    }
}

static void cancelled(void)
{
    __transaction_atomic {
        logs[hart_id()].blocks++;
        _ITM_addUserUndoAction(note, (void *)5);
        _ITM_addUserCommitAction(note, _ITM_noTransactionId, (void *)6);
        __transaction_atomic {
            logs[hart_id()].blocks++;
            _ITM_addUserUndoAction(note, (void *)7);
        }
        _ITM_addUserUndoAction(note, (void *)8);
        if (logs[hart_id()].blocks > 0)
            __transaction_cancel;
    }
}

int main(void)
{
    committed(0);
    check_log(5, (const unsigned[]){1, 2, 9, 10, 4});
    committed(1);
    check_log(5, (const unsigned[]){3, 1, 9, 10, 4});
    cancelled();
    check_log(3, (const unsigned[]){8, 7, 5});
    CHECK(_ITM_getTransactionId() == _ITM_noTransactionId);
    CHECK(_ITM_versionCompatible(_ITM_VERSION_NO) && !_ITM_versionCompatible(1));
    CHECK(_ITM_getThreadnum() == (int)hart_id());
    barrier_wait(&barrier);
    CHECK(logs[hart_id()].blocks == 3);
    CHECK(shared == 2 * hart_count());
    return status();
}
