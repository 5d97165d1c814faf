/* The program's design in C, with nothing proved, as a peer for whole runs.
 *
 * Build:  gcc -O2 -march=x86-64-v2 -flto -pthread -Wall -Wextra -o same_design bench/same_design/[a-z]*.c
 * Run:    same_design WIRE ORDER FILE...     (one to sixteen captures)
 *
 * It has a sender thread for each capture and one task worker; clusters of 2,048 bytes from a pool of 4,096; one ring
 * of 2,048 places with one word of 64 bits, whose consumer drains it into 1,024 descriptors, with a doorbell for each
 * four packets; and an adapter behind a turnstile, which writes frames onto a wire in memory and its head back. It
 * writes the wire as a capture and the order text, and prints the number of frames. Where there is no room a sender
 * tries again; frames of fewer than 14 bytes and of more than 65,536 are turned away. Every step on a shared word is
 * sequentially consistent. Captures are read in one form alone: the lowest byte first, with microseconds. */
#include "design.h"

#include <pthread.h>
#include <sched.h>
#include <stdatomic.h>
#include <stdio.h>
#include <stdlib.h>
#include <string.h>

static struct capture captures[MAX_SENDERS];
static uint32_t senders;
static _Atomic uint32_t ended;

static void offer_kick(void)
{
    static const struct packet kick = {.kick = true};
    enqueue(&kick);
}

/* What a thread does that waits: it serves the adapter, and makes whoever has to consume do so. */
static bool tend(void)
{
    bool found = serve_adapter();
    check_drainage();
    offer_kick();
    return found;
}

/* Lays a frame into clusters of the pool. Where it has too few, those that were taken go back. */
static bool lay_frame(const struct frame *frame, struct packet *packet)
{
    const uint8_t *bytes = frame->record + RECORD_BYTES;
    for (unsigned segment = 0; segment < packet->segments; segment++) {
        uint16_t cluster;
        if (!take_cluster(&cluster)) {
            while (segment > 0)
                give_cluster(packet->clusters[--segment]);
            return false;
        }
        uint32_t rest = frame->length - segment * CLUSTER_BYTES;
        memcpy(cluster_bytes(cluster), bytes + segment * CLUSTER_BYTES, rest < CLUSTER_BYTES ? rest : CLUSTER_BYTES);
        packet->clusters[segment] = cluster;
    }
    return true;
}

static void send_frame(struct ticket ticket, const struct frame *frame)
{
    struct packet packet;
    packet.ticket = ticket;
    packet.stamp = stamp_of(frame);
    packet.length = frame->length;
    packet.segments = (uint16_t)((frame->length + CLUSTER_BYTES - 1) / CLUSTER_BYTES);
    packet.kick = false;
    while (!lay_frame(frame, &packet))
        if (!tend())
            sched_yield();
    while (!enqueue(&packet)) {
        check_drainage();
        if (!serve_adapter())
            sched_yield();
    }
}

static void *send_capture(void *argument)
{
    uint32_t sender = (uint32_t)(uintptr_t)argument;
    for (uint32_t index = 0; index < captures[sender].count; index++) {
        const struct frame *frame = &captures[sender].frames[index];
        struct ticket ticket = {sender, index};
        if (frame->length < RUNT_BELOW)
            turn_away(ticket, "runt");
        else if (frame->length > MAX_FRAME)
            turn_away(ticket, "oversize");
        else
            send_frame(ticket, frame);
    }
    atomic_fetch_add(&ended, 1);
    return NULL;
}

/* The task worker. */
static void *work(void *unused)
{
    while (atomic_load(&ended) < senders)
        if (!tend())
            sched_yield();
    return unused;
}

static void start_thread(pthread_t *thread, void *(*body)(void *), uint32_t number)
{
    if (pthread_create(thread, NULL, body, (void *)(uintptr_t)number) != 0)
        fail("thread");
}

/* Runs the senders and the task worker, and then brings ring and adapter to rest. */
static void run_threads(void)
{
    pthread_t threads[MAX_SENDERS + 1];
    for (uint32_t sender = 0; sender < senders; sender++)
        start_thread(&threads[sender], send_capture, sender);
    start_thread(&threads[senders], work, 0);
    for (uint32_t thread = 0; thread <= senders; thread++)
        pthread_join(threads[thread], NULL);
    while (!is_ring_idle() || !is_adapter_idle()) {
        serve_adapter();
        check_drainage();
    }
    reclaim_clusters();
}

int main(int count, char **words)
{
    if (count < 4 || count > MAX_SENDERS + 3) {
        fprintf(stderr, "usage: same_design WIRE ORDER FILE...\n");
        return 2;
    }
    size_t room = HEADER_BYTES;
    uint64_t frames = 0;
    senders = (uint32_t)count - 3;
    for (uint32_t sender = 0; sender < senders; sender++) {
        captures[sender] = read_capture(words[sender + 3]);
        room += captures[sender].bytes;
        frames += captures[sender].count;
    }
    uint8_t *wire = malloc(room);
    if (wire == NULL)
        fail("memory");
    write_header(wire);
    take_order(captures, senders);
    fill_pool();
    start_adapter(wire);
    run_threads();
    if (!is_all_reclaimed()) {
        fprintf(stderr, "clusters were lost\n");
        return 4;
    }
    write_file(words[1], wire, wire_bytes());
    write_order(words[2]);
    printf("frames %llu\n", (unsigned long long)frames);
    return 0;
}
