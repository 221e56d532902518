// A hash table that counts words, which are numbers here. Each hart counts 16 words, some of which the other harts count too; a word that is new gets
// an entry. All are counted: with n harts the counts have the sum 16 n.
//
//     scripts/logtm-cc table.c -DLOCK -Os -o table-lock.elf
//     scripts/logtm-cc table.c -DINTRINSICS -Os -o table-intrinsics.elf
//     scripts/logtm-cc table.c -fgnu-tm -Os -o table-atomic.elf
//
//     ./logtm run examples/c/table-atomic.elf --harts 4
#include "versions.h"

enum { HARTS = 8, BUCKETS = 8, ROUNDS = 16 };

struct entry {
    struct entry *next;
    unsigned word, count;
} __attribute__((aligned(32)));

static struct {
    struct entry *first;
} __attribute__((aligned(32))) buckets[BUCKETS];

// Each hart takes new entries from its own ones.
static struct entry entries[HARTS][ROUNDS];
static struct barrier barrier;

static struct entry *find(unsigned word)
{
    struct entry *entry = buckets[word % BUCKETS].first;
    while (entry && entry->word != word)
        entry = entry->next;
    return entry;
}

// Counts a word. Whether that took the spare entry.
static int is_new(unsigned word, struct entry *spare)
{
    int taken;
    WHOLE(
        struct entry *entry = find(word);
        taken = !entry;
        if (taken) {
            spare->word = word;
            spare->count = 1;
            spare->next = buckets[word % BUCKETS].first;
            buckets[word % BUCKETS].first = spare;
        } else
            entry->count++;
    );
    return taken;
}

int main(void)
{
    struct entry *spare = entries[hart_id()];
    for (unsigned round = 0; round < ROUNDS; round++)
        if (is_new(round * (hart_id() + 1) % 29, spare))
            spare++;
    barrier_wait(&barrier);
    if (hart_id() == 0) {
        unsigned words = 0, sum = 0;
        for (unsigned bucket = 0; bucket < BUCKETS; bucket++)
            for (struct entry *entry = buckets[bucket].first; entry; entry = entry->next) {
                words++;
                sum += entry->count;
            }
        put_line("words", words);
        put_line("sum", sum);
    }
    return 0;
}
