/* The pool: a bounded queue of cluster numbers for many threads, with a stamp for each cell. */
#include "design.h"

#include <stdatomic.h>
#include <stdlib.h>

static struct {
    _Atomic uint64_t stamp;
    uint16_t cluster;
} cells[CLUSTERS] APART;
static _Atomic uint64_t given APART, taken APART;
static uint8_t *memory;

/* A cell is free for the number of its lap, and full for the taker of that number where its stamp is one more. */
void fill_pool(void)
{
    memory = malloc((size_t)CLUSTERS * CLUSTER_BYTES);
    if (memory == NULL)
        fail("memory");
    for (unsigned cluster = 0; cluster < CLUSTERS; cluster++) {
        atomic_store(&cells[cluster].stamp, cluster);
        give_cluster((uint16_t)cluster);
    }
}

uint8_t *cluster_bytes(uint16_t cluster)
{
    return memory + (size_t)cluster * CLUSTER_BYTES;
}

bool take_cluster(uint16_t *cluster)
{
    uint64_t at = atomic_load(&taken);
    for (;;) {
        uint64_t stamp = atomic_load(&cells[at % CLUSTERS].stamp);
        if (stamp < at + 1)
            return false;
        if (stamp > at + 1) {
            at = atomic_load(&taken);
        } else if (atomic_compare_exchange_strong(&taken, &at, at + 1)) {
            *cluster = cells[at % CLUSTERS].cluster;
            atomic_store(&cells[at % CLUSTERS].stamp, at + CLUSTERS);
            return true;
        }
    }
}

void give_cluster(uint16_t cluster)
{
    uint64_t at = atomic_load(&given);
    for (;;) {
        uint64_t stamp = atomic_load(&cells[at % CLUSTERS].stamp);
        if (stamp != at) {
            at = atomic_load(&given);
        } else if (atomic_compare_exchange_strong(&given, &at, at + 1)) {
            cells[at % CLUSTERS].cluster = cluster;
            atomic_store(&cells[at % CLUSTERS].stamp, at + 1);
            return;
        }
    }
}
