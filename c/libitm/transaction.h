// What the files of this library share. An atomic block runs in a hardware transaction. The library adds what hardware doesn't have: that an inner
// block can be cancelled by itself (journal.c), and that a transaction runs alone where it has to (serial.c).
#ifndef TRANSACTION_H
#define TRANSACTION_H

#include <libitm.h>
#include <logtm.h>
#include <stdbool.h>
#include <stdint.h>

// Where a begin answers again: what a call keeps (s0 to s11), where it returns to, and the stack.
struct checkpoint {
    uintptr_t saved[12], ra, sp;
};

// A record of a journal, the newest first. Where a scope is rolled back each of its records is undone; those that are left when the outermost
// transaction is committed are finished, the oldest first.
struct record {
    struct record *before;
    enum kind { SCOPE, BYTES, ALLOCATED, FREED, COMMIT_ACTION, UNDO_ACTION } kind;
};

// A journal lies in chunks. A place in it is a chunk, and how many bytes of that are used.
struct chunk {
    struct chunk *before;
    unsigned used;
    char room[480];
};

// The begin of a transaction that can be rolled back by itself: whatever is newer in the journal belongs to it.
struct scope {
    struct record record;
    struct scope *outer;
    struct chunk *chunk;       // where the journal ended before this record
    unsigned used;
    unsigned depth;            // how deep this transaction is, 1 for the outermost
    bool is_outer_instrumented;
    uint32_t properties;
    struct checkpoint begin;
};

// A hart's transaction.
struct transaction {
    unsigned depth;            // how many begins have no commit yet
    enum { HARDWARE, SERIAL } mode;
    bool is_instrumented;      // which code runs
    bool is_irrevocable;
    bool has_put_off;          // whether the journal may have something to do after the commit
    unsigned aborts;           // how often this one was aborted
    _ITM_transactionId_t id;
    struct record *newest;     // the journal
    struct scope *scope;       // the innermost
    struct chunk *chunk;       // the last one
} __attribute__((aligned(32)));

extern __thread struct transaction logtm_transaction;

// begin.S
_Noreturn void logtm_resume(const struct checkpoint *begin, uint32_t actions);

// journal.c
void *logtm_add_record(enum kind kind, unsigned size);
void logtm_save(const void *start, size_t size);
void logtm_roll_back(struct scope *scope);
void logtm_finish(struct record *newest, struct chunk *last, bool has_put_off);

// put_off.c
void logtm_undo_put_off(struct record *record);
void logtm_finish_put_off(struct record *record);

// serial.c
enum { HARTS = 8 };
extern struct door {
    unsigned is_closed;
} __attribute__((aligned(32))) logtm_doors[HARTS];
void logtm_enter_serial(void);
void logtm_leave_serial(void);

// refuse.c
_Noreturn void logtm_refuse(const char *what);

// transaction.c
void logtm_end(void);

#endif
