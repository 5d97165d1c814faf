/* The ring: places for packets, and one word of 64 bits that says what is reserved, published and released and who
 * consumes. The thread that publishes into a ring without a consumer becomes it. */
#include "design.h"

#include <sched.h>
#include <stdatomic.h>
#include <string.h>

enum { IDLE, BUSY, STALLED, ABDICATED };

/* How often a thread looks and yields, before it reserves, while others have reserved and not published. */
enum { LOOKS = 64 };

/* How many packets a consumer releases by one exchange at most. */
enum { RELEASE_AT = 64 };

struct word {
    uint16_t head, tail, cidx, flag;
};

static _Atomic uint64_t state APART;
static struct packet places[RING_SIZE];

static struct word unpack(uint64_t word)
{
    return (struct word){(uint16_t)word, (uint16_t)(word >> 16), (uint16_t)(word >> 32), (uint16_t)(word >> 48)};
}

static uint64_t pack(struct word word)
{
    return (uint64_t)word.head | (uint64_t)word.tail << 16 | (uint64_t)word.cidx << 32 | (uint64_t)word.flag << 48;
}

static unsigned space(struct word word)
{
    return (unsigned)(word.cidx - word.head - 1) % RING_SIZE;
}

static uint16_t advanced(uint16_t place, unsigned count)
{
    return (uint16_t)((place + count) % RING_SIZE);
}

static unsigned distance(uint16_t from, uint16_t to)
{
    return (unsigned)(to - from) % RING_SIZE;
}

/* Posts packets to the adapter, and answers how many were taken: fewer where there is too little room. */
static unsigned drain_batch(uint16_t cidx, unsigned count)
{
    unsigned done;
    reclaim_clusters();
    for (done = 0; done < count; done++) {
        const struct packet *packet = &places[advanced(cidx, done)];
        if (packet->kick)
            continue;
        if (!has_room_for_packet())
            break;
        note_accepted(packet->ticket);
        post_packet(packet);
    }
    ring_doorbell();
    return done;
}

/* How the consumer leaves its word, when its budget is spent or not. */
static uint16_t flag_after(struct word word, bool spent)
{
    if (word.cidx == word.tail)
        return IDLE;
    return spent && word.tail != word.head ? ABDICATED : BUSY;
}

/* Releases the places before cidx. The adapter being full, the consumer goes as stalled. */
static struct word release(uint16_t cidx, bool full, bool spent)
{
    uint64_t seen = atomic_load(&state);
    struct word word;
    do {
        word = unpack(seen);
        word.cidx = cidx;
        word.flag = full ? STALLED : flag_after(word, spent);
    } while (!atomic_compare_exchange_strong(&state, &seen, pack(word)));
    return word;
}

/* Consumes as the ring's consumer, from the word that made this thread the consumer. */
static void drain(struct word word, uint64_t budget)
{
    uint16_t cidx = word.cidx;
    uint64_t total = 0;
    unsigned unreleased = 0;
    while (cidx != word.tail) {
        unsigned left = distance(cidx, word.tail);
        unsigned done = drain_batch(cidx, left < BATCH ? left : BATCH);
        cidx = advanced(cidx, done);
        total += done;
        unreleased += done;
        if (done != 0 && cidx != word.tail && unreleased < RELEASE_AT && total < budget)
            continue;
        word = release(cidx, done == 0, total >= budget);
        if (word.flag != BUSY)
            return;
        unreleased = 0;
    }
}

/* Consumes what a stalled consumer or one that abdicated has left. */
static void take_over(uint64_t budget)
{
    uint64_t seen = atomic_load(&state);
    struct word word = unpack(seen);
    if ((word.flag != STALLED && word.flag != ABDICATED) || word.head != word.tail)
        return;
    word.flag = BUSY;
    if (atomic_compare_exchange_strong(&state, &seen, pack(word)))
        drain(word, budget);
}

void check_drainage(void)
{
    take_over(BUDGET);
}

/* The word, once nobody is about to publish or it was looked at often enough. */
static uint64_t look(void)
{
    uint64_t seen = atomic_load(&state);
    for (unsigned looks = 0; looks < LOOKS && unpack(seen).head != unpack(seen).tail; looks++) {
        sched_yield();
        seen = atomic_load(&state);
    }
    return seen;
}

/* Reserves a place. Where there is none, what a stalled consumer left is offered to the adapter once more. */
static bool reserve(uint16_t *place)
{
    uint64_t seen = look();
    struct word word;
    do {
        word = unpack(seen);
        if (space(word) <= 1) {
            if (word.flag == STALLED)
                take_over(0);
            return false;
        }
        *place = word.head;
        word.head = advanced(word.head, 1);
    } while (!atomic_compare_exchange_strong(&state, &seen, pack(word)));
    return true;
}

/* Waits until all that was reserved before is published, and answers the word. */
static uint64_t wait_for_turn(uint16_t place)
{
    uint64_t seen;
    while (unpack(seen = atomic_load(&state)).tail != place)
        sched_yield();
    return seen;
}

bool enqueue(const struct packet *packet)
{
    uint16_t place;
    if (!reserve(&place))
        return false;
    memcpy(&places[place], packet, offsetof(struct packet, clusters) + packet->segments * sizeof *packet->clusters);
    uint64_t seen = wait_for_turn(place);
    struct word before, word;
    do {
        before = word = unpack(seen);
        word.tail = advanced(place, 1);
        word.flag = BUSY;
    } while (!atomic_compare_exchange_strong(&state, &seen, pack(word)));
    if (before.flag != BUSY)
        drain(word, BUDGET);
    return true;
}

bool is_ring_idle(void)
{
    return unpack(atomic_load(&state)).flag == IDLE;
}
