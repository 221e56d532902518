// The interface between compilers and a library for transactions, as far as c/libitm has it: the names and numbers of Intel's "Transactional Memory
// Compiler and Runtime Application Binary Interface" 1.1, which GCC's -fgnu-tm calls. docs/COMPILERS.md says what each part does here.
#ifndef LIBITM_H
#define LIBITM_H

#include <stddef.h>
#include <stdint.h>

#define ITM_REGPARM
#define ITM_NORETURN __attribute__((noreturn))
#ifdef __cplusplus
extern "C" {
#endif
#if defined __GNUC__ && !defined __clang__
#define _ITM_TRANSACTION_PURE __attribute__((transaction_pure))
#else
#define _ITM_TRANSACTION_PURE
#endif

#define _ITM_VERSION "0.90 (July 7 2008)"
#define _ITM_VERSION_NO 90

// What the compiler says of a transaction where it begins.
typedef enum {
    pr_instrumentedCode = 0x0001,
    pr_uninstrumentedCode = 0x0002,
    pr_multiwayCode = pr_instrumentedCode | pr_uninstrumentedCode,
    pr_hasNoVectorUpdate = 0x0004,
    pr_hasNoAbort = 0x0008,
    pr_hasNoFloatUpdate = 0x0010,
    pr_hasNoIrrevocable = 0x0020,
    pr_doesGoIrrevocable = 0x0040,
} _ITM_codeProperties;

// What a begin answers: which code to run, what to do with the variables that live across it, or that the transaction was cancelled.
typedef enum {
    a_runInstrumentedCode = 0x01,
    a_runUninstrumentedCode = 0x02,
    a_saveLiveVariables = 0x04,
    a_restoreLiveVariables = 0x08,
    a_abortTransaction = 0x10,
} _ITM_actions;

typedef enum {
    outsideTransaction = 0,
    inRetryableTransaction,
    inIrrevocableTransaction,
} _ITM_howExecuting;

typedef enum {
    userAbort = 1,
    userRetry = 2,
    TMConflict = 4,
    exceptionBlockAbort = 8,
    outerAbort = 16,
} _ITM_abortReason;

typedef enum { modeSerialIrrevocable } _ITM_transactionState;

typedef uint32_t _ITM_transactionId_t;
#define _ITM_noTransactionId 1

typedef void (*_ITM_userUndoFunction)(void *);
typedef void (*_ITM_userCommitFunction)(void *);

// A place in a source that _ITM_error is told of.
typedef struct {
    int32_t reserved_1, flags, reserved_2, reserved_3;
    const char *psource;
} _ITM_srcLocation;

const char *_ITM_libraryVersion(void) _ITM_TRANSACTION_PURE;
int _ITM_versionCompatible(int version) _ITM_TRANSACTION_PURE;
void _ITM_error(const _ITM_srcLocation *location, int code) ITM_NORETURN;

// How the code that asks is executed, and the number of its transaction, _ITM_noTransactionId outside.
_ITM_howExecuting _ITM_inTransaction(void) _ITM_TRANSACTION_PURE;
_ITM_transactionId_t _ITM_getTransactionId(void) _ITM_TRANSACTION_PURE;
int _ITM_getThreadnum(void) _ITM_TRANSACTION_PURE;

uint32_t _ITM_beginTransaction(uint32_t properties, ...) __attribute__((returns_twice));
void _ITM_commitTransaction(void);
void _ITM_abortTransaction(_ITM_abortReason reason) ITM_NORETURN;
void _ITM_changeTransactionMode(_ITM_transactionState state);

// Has a function called once the outermost transaction is committed, in the order in which they were added; or when the transaction that runs is
// cancelled, the last one first. The first is run outside transactions.
void _ITM_addUserCommitAction(_ITM_userCommitFunction function, _ITM_transactionId_t resumed, void *argument) _ITM_TRANSACTION_PURE;
void _ITM_addUserUndoAction(_ITM_userUndoFunction function, void *argument) _ITM_TRANSACTION_PURE;
void _ITM_dropReferences(void *start, size_t size) _ITM_TRANSACTION_PURE;

void _ITM_registerTMCloneTable(void *table, size_t size);
void _ITM_deregisterTMCloneTable(void *table);
void *_ITM_getTMCloneOrIrrevocable(void *function);
void *_ITM_getTMCloneSafe(void *function);

void *_ITM_malloc(size_t size) __attribute__((malloc)) _ITM_TRANSACTION_PURE;
void *_ITM_calloc(size_t count, size_t size) __attribute__((malloc)) _ITM_TRANSACTION_PURE;
void _ITM_free(void *start) _ITM_TRANSACTION_PURE;

#ifdef __cplusplus
}
#endif
#endif
