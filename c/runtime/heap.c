// malloc and its kin, for all harts. Each piece has a size of 2^k bytes, its header among them, and begins a block of memory, so that no two pieces
// share one. A hart has lists of free pieces, and a chunk of the heap to cut new ones from; if both are used up it takes a piece from another
// hart's list. All of that is done in a transaction, so the heap needs no lock, and can be used in transactions: an abort takes it back.
#include <logtm.h>
#include <stdint.h>

enum { HARTS = 8, SMALLEST = 5, LARGEST = 22, CHUNK = 2048 };

// What stands before what a program gets: the power of the piece's size. The program's part is aligned for any type.
union header {
    unsigned power;
    long double alignment;
};

struct piece {
    union header header;
    struct piece *next;
};

struct pool {
    struct piece *free[LARGEST + 1];
    char *chunk, *chunk_end;
} __attribute__((aligned(32)));

extern char __heap_start[];
static struct pool pools[HARTS];
// The heap from here on is in no chunk.
static struct {
    char *end;
} __attribute__((aligned(32))) heap;

// Begins the transaction that the heap is used in.
static void begin(void)
{
    for (unsigned aborts = 1; tx_begin() != TX_STARTED; aborts++)
        tx_wait(aborts);
}

// Bytes that no piece has had, or none if the heap is used up.
static char *extend(size_t size)
{
    char *start = heap.end ? heap.end : __heap_start;
    if (start > logtm_hart.heap_end || size > (size_t)(logtm_hart.heap_end - start))
        return NULL;
    heap.end = start + size;
    return start;
}

// A new piece, cut from the hart's chunk if it fits one.
static struct piece *cut(struct pool *pool, size_t size)
{
    if (size > CHUNK)
        return (struct piece *)extend(size);
    if (size > (size_t)(pool->chunk_end - pool->chunk)) {
        char *chunk = extend(CHUNK);
        if (!chunk)
            return (struct piece *)extend(size);
        pool->chunk = chunk;
        pool->chunk_end = chunk + CHUNK;
    }
    char *start = pool->chunk;
    pool->chunk = start + size;
    return (struct piece *)start;
}

static struct piece *pop(struct pool *pool, unsigned power)
{
    struct piece *piece = pool->free[power];
    if (piece)
        pool->free[power] = piece->next;
    return piece;
}

static struct piece *find(unsigned power)
{
    struct pool *own = &pools[hart_id()];
    struct piece *piece = pop(own, power);
    if (!piece)
        piece = cut(own, (size_t)1 << power);
    for (unsigned hart = 0; !piece && hart < hart_count(); hart++)
        piece = pop(&pools[hart], power);
    return piece;
}

void *malloc(size_t size)
{
    unsigned power = SMALLEST;
    while (power <= LARGEST && ((size_t)1 << power) - sizeof(union header) < size)
        power++;
    if (power > LARGEST)
        return NULL;
    begin();
    struct piece *piece = find(power);
    if (piece)
        piece->header.power = power;
    tx_commit();
    return piece ? &piece->header + 1 : NULL;
}

void free(void *start)
{
    if (!start)
        return;
    struct piece *piece = (struct piece *)((union header *)start - 1);
    begin();
    struct pool *pool = &pools[hart_id()];
    piece->next = pool->free[piece->header.power];
    pool->free[piece->header.power] = piece;
    tx_commit();
}

void *calloc(size_t count, size_t size)
{
    if (size != 0 && count > SIZE_MAX / size)
        return NULL;
    void *start = malloc(count * size);
    return start ? __builtin_memset(start, 0, count * size) : NULL;
}

void *realloc(void *start, size_t size)
{
    void *other = malloc(size);
    if (!start || !other)
        return other;
    size_t had = ((size_t)1 << ((union header *)start - 1)->power) - sizeof(union header);
    __builtin_memcpy(other, start, had < size ? had : size);
    free(start);
    return other;
}
