// What a transaction puts off until it is committed or cancelled: calls of the user's functions, and memory that is given back. An abort of the
// hardware takes all of that back by itself.
#include "transaction.h"

struct action {
    struct record record;
    void (*function)(void *);
    void *argument;
};

struct piece {
    struct record record;
    void *start;
};

void logtm_undo_put_off(struct record *record)
{
    if (record->kind == ALLOCATED)
        free(((struct piece *)record)->start);
    else if (record->kind == UNDO_ACTION)
        ((struct action *)record)->function(((struct action *)record)->argument);
}

void logtm_finish_put_off(struct record *record)
{
    if (record->kind == FREED)
        free(((struct piece *)record)->start);
    else if (record->kind == COMMIT_ACTION)
        ((struct action *)record)->function(((struct action *)record)->argument);
}

static void add_action(enum kind kind, void (*function)(void *), void *argument)
{
    struct action *action = logtm_add_record(kind, sizeof *action);
    action->function = function;
    action->argument = argument;
    logtm_transaction.has_put_off = true;
}

void _ITM_addUserCommitAction(_ITM_userCommitFunction function, _ITM_transactionId_t resumed, void *argument)
{
    if (resumed != _ITM_noTransactionId)
        logtm_refuse("_ITM_addUserCommitAction for an inner transaction");
    if (logtm_transaction.depth == 0)
        function(argument);
    else
        add_action(COMMIT_ACTION, function, argument);
}

void _ITM_addUserUndoAction(_ITM_userUndoFunction function, void *argument)
{
    if (logtm_transaction.depth > 0)
        add_action(UNDO_ACTION, function, argument);
}

static void add_piece(enum kind kind, void *start)
{
    struct piece *piece = logtm_add_record(kind, sizeof *piece);
    piece->start = start;
    logtm_transaction.has_put_off = true;
}

// Memory that is given back if the transaction is cancelled, where it can be.
static void *taken(void *start)
{
    if (start && logtm_transaction.scope)
        add_piece(ALLOCATED, start);
    return start;
}

void *_ITM_malloc(size_t size)
{
    return taken(malloc(size));
}

void *_ITM_calloc(size_t count, size_t size)
{
    return taken(calloc(count, size));
}

void _ITM_free(void *start)
{
    if (start && logtm_transaction.scope)
        add_piece(FREED, start);
    else
        free(start);
}
