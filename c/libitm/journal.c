// A transaction's journal: what has to be put back if it is cancelled, and what has to be done once it is committed. It is written in the
// transaction, so if the hardware aborts that, the journal is as it was before, too.
#include "transaction.h"

struct bytes {
    struct record record;
    char *start;
    size_t size;
    uint32_t old[];
};

// The first chunk of each hart. Others come from the heap.
static struct first_chunk {
    struct chunk chunk;
    bool is_used;
} __attribute__((aligned(32))) first_chunks[HARTS];

static void add_chunk(struct transaction *it, unsigned size)
{
    struct first_chunk *first = &first_chunks[hart_id()];
    struct chunk *chunk = &first->chunk;
    if (first->is_used || size > sizeof chunk->room)
        chunk = malloc(sizeof *chunk + size);
    else
        first->is_used = true;
    if (!chunk)
        logtm_refuse("no memory for a journal");
    chunk->before = it->chunk;
    chunk->used = 0;
    it->chunk = chunk;
}

// Frees chunks, the last one first, up to one that is kept.
static void free_chunks(struct chunk *last, const struct chunk *kept)
{
    struct first_chunk *first = &first_chunks[hart_id()];
    while (last != kept) {
        struct chunk *before = last->before;
        if (last == &first->chunk)
            first->is_used = false;
        else
            free(last);
        last = before;
    }
}

// A new record, at the end of the journal.
void *logtm_add_record(enum kind kind, unsigned size)
{
    struct transaction *it = &logtm_transaction;
    size = (size + 3) & ~3u;
    if (!it->chunk || it->chunk->used + size > sizeof it->chunk->room)
        add_chunk(it, size);
    struct record *record = (struct record *)(it->chunk->room + it->chunk->used);
    it->chunk->used += size;
    record->before = it->newest;
    record->kind = kind;
    return it->newest = record;
}

static inline bool is_word(const void *start, size_t size)
{
    return size == 4 && (uintptr_t)start % 4 == 0;
}

// Keeps bytes as they are, if there is a scope whose cancelling would put them back.
void logtm_save(const void *start, size_t size)
{
    if (!logtm_transaction.scope)
        return;
    struct bytes *bytes = logtm_add_record(BYTES, sizeof *bytes + size);
    bytes->start = (char *)start;
    bytes->size = size;
    if (is_word(start, size))
        bytes->old[0] = *(const uint32_t *)start;
    else
        __builtin_memcpy(bytes->old, start, size);
}

static void put_back(const struct bytes *bytes)
{
    if (is_word(bytes->start, bytes->size))
        *(uint32_t *)bytes->start = bytes->old[0];
    else
        __builtin_memcpy(bytes->start, bytes->old, bytes->size);
}

// Whether what is at an address was part of a call that is over once the scope is rolled back.
static bool is_dead(const struct scope *scope, const char *at)
{
    return at >= logtm_hart.stack && (uintptr_t)at < scope->begin.sp;
}

static void undo(struct record *record, const struct scope *scope)
{
    const struct bytes *bytes = (struct bytes *)record;
    if (record->kind != BYTES)
        logtm_undo_put_off(record);
    else if (!is_dead(scope, bytes->start))
        put_back(bytes);
}

// Undoes all that is newer than the begin of a scope, the newest first, and closes it.
void logtm_roll_back(struct scope *scope)
{
    struct transaction *it = &logtm_transaction;
    struct record *end = scope->record.before;
    struct chunk *chunk = scope->chunk;
    unsigned used = scope->used;
    for (struct record *record = it->newest; record != end; record = record->before)
        undo(record, scope);
    it->newest = end;
    it->scope = scope->outer;
    struct chunk *last = it->chunk;
    it->chunk = chunk;
    if (chunk)
        chunk->used = used;
    free_chunks(last, chunk);
}

static struct record *reversed(struct record *newest)
{
    struct record *oldest = NULL;
    while (newest) {
        struct record *before = newest->before;
        newest->before = oldest;
        oldest = newest;
        newest = before;
    }
    return oldest;
}

// Does what a committed transaction has put off, in its order, and frees its journal. An action may begin a transaction, with a journal of its own.
void logtm_finish(struct record *newest, struct chunk *last, bool has_put_off)
{
    struct record *record = has_put_off ? reversed(newest) : NULL;
    for (; record; record = record->before)
        logtm_finish_put_off(record);
    free_chunks(last, NULL);
}
