/* The adapter: a ring of descriptors with a doorbell and a head that the device writes back. The driver's end belongs to
 * the consumer of the ring of packets, the device's end to the thread that took the turn. */
#include "design.h"

#include <stdatomic.h>
#include <string.h>

struct descriptor {
    struct stamp stamp;
    uint16_t cluster, length;
    bool last;
};

static struct descriptor descriptors[DESCRIPTORS];
static _Atomic uint64_t doorbell APART, head APART, turn APART;
static struct {
    uint64_t posted, reclaimed, returned;
    unsigned packets_unrung;
} driver APART;
static struct {
    uint64_t fetched, rung;
    uint8_t *wire;
    size_t bytes;
} device APART;

void start_adapter(uint8_t *wire)
{
    device.wire = wire;
    device.bytes = HEADER_BYTES;
}

size_t wire_bytes(void)
{
    return device.bytes;
}

/* Gives back the clusters of what the device has returned. */
void reclaim_clusters(void)
{
    uint64_t seen = atomic_load(&head);
    driver.returned += (seen - driver.returned) % DESCRIPTORS;
    while (driver.reclaimed < driver.returned)
        give_cluster(descriptors[driver.reclaimed++ % DESCRIPTORS].cluster);
}

bool has_room_for_packet(void)
{
    return DESCRIPTORS - 1 - (driver.posted - driver.reclaimed) > MAX_SEGMENTS + 2;
}

void ring_doorbell(void)
{
    if (driver.packets_unrung == 0)
        return;
    driver.packets_unrung = 0;
    atomic_store(&doorbell, driver.posted % DESCRIPTORS);
}

void post_packet(const struct packet *packet)
{
    for (unsigned segment = 0; segment < packet->segments; segment++) {
        bool last = segment + 1u == packet->segments;
        descriptors[driver.posted++ % DESCRIPTORS] = (struct descriptor){
            .stamp = packet->stamp,
            .cluster = packet->clusters[segment],
            .length = (uint16_t)(last ? packet->length - segment * CLUSTER_BYTES : CLUSTER_BYTES),
            .last = last,
        };
    }
    if (++driver.packets_unrung == DOORBELL_EVERY)
        ring_doorbell();
}

/* Writes the next frame onto the wire as a record of a capture, and writes the head back. */
static void emit_frame(void)
{
    uint8_t *record = device.wire + device.bytes;
    const struct descriptor *descriptor;
    uint32_t length = 0;
    do {
        descriptor = &descriptors[device.fetched++ % DESCRIPTORS];
        memcpy(record + RECORD_BYTES + length, cluster_bytes(descriptor->cluster), descriptor->length);
        length += descriptor->length;
    } while (!descriptor->last);
    uint32_t fields[4] = {descriptor->stamp.seconds, descriptor->stamp.micros, length, descriptor->stamp.original};
    memcpy(record, fields, RECORD_BYTES);
    device.bytes += RECORD_BYTES + length;
    atomic_store(&head, device.fetched % DESCRIPTORS);
}

/* Gives the device one turn, unless another thread has it. The answer is whether a frame was there. */
bool serve_adapter(void)
{
    uint64_t expected = 0;
    if (!atomic_compare_exchange_strong(&turn, &expected, 1))
        return false;
    uint64_t seen = atomic_load(&doorbell);
    device.rung += (seen - device.rung) % DESCRIPTORS;
    bool found = device.fetched < device.rung;
    for (unsigned frames = 0; frames < TURN_FRAMES && device.fetched < device.rung; frames++)
        emit_frame();
    atomic_store(&turn, 0);
    return found;
}

/* When all threads have ended. */
bool is_adapter_idle(void)
{
    return device.fetched == driver.posted;
}

bool is_all_reclaimed(void)
{
    return driver.reclaimed == driver.posted;
}
