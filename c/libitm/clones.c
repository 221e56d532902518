// Which function is the transactional clone of which: what an indirect call in a transaction calls. The linker has the table of this program.
#include "transaction.h"

struct clone {
    void *function, *clone;
};

struct table {
    const struct clone *clones;
    size_t size;
};

enum { MOST_TABLES = 8 };

extern const struct clone __tm_clone_table_start[], __tm_clone_table_end[];
static struct table tables[MOST_TABLES];

static void *found(const struct clone *it, const struct clone *end, const void *function)
{
    for (; it < end; it++)
        if (it->function == function)
            return it->clone;
    return NULL;
}

static void *find(const void *function)
{
    void *clone = found(__tm_clone_table_start, __tm_clone_table_end, function);
    for (unsigned i = 0; !clone && i < MOST_TABLES; i++)
        clone = found(tables[i].clones, tables[i].clones + tables[i].size, function);
    return clone;
}

void *_ITM_getTMCloneSafe(void *function)
{
    void *clone = find(function);
    if (!clone)
        logtm_refuse("_ITM_getTMCloneSafe of a function that has no clone");
    return clone;
}

// A function without a clone can be called by a transaction that runs alone.
void *_ITM_getTMCloneOrIrrevocable(void *function)
{
    void *clone = find(function);
    if (clone)
        return clone;
    _ITM_changeTransactionMode(modeSerialIrrevocable);
    return function;
}

// A table of its own, with so many clones.
void _ITM_registerTMCloneTable(void *start, size_t size)
{
    for (unsigned i = 0; i < MOST_TABLES; i++)
        if (!tables[i].clones) {
            tables[i] = (struct table){start, size};
            return;
        }
    logtm_refuse("_ITM_registerTMCloneTable of a ninth table");
}

void _ITM_deregisterTMCloneTable(void *start)
{
    for (unsigned i = 0; i < MOST_TABLES; i++)
        if (tables[i].clones == start)
            tables[i] = (struct table){0};
}
