/* What the parts of the program share: sizes, frames, packets, and the calls of each part. */
#ifndef DESIGN_H
#define DESIGN_H

#include <stdbool.h>
#include <stddef.h>
#include <stdint.h>

enum {
    RING_SIZE = 2048,
    BUDGET = 32,
    BATCH = 32,
    DESCRIPTORS = 1024,
    MAX_SEGMENTS = 32,
    DOORBELL_EVERY = 4,
    TURN_FRAMES = 64,
    CLUSTERS = 4096,
    CLUSTER_BYTES = 2048,
    RUNT_BELOW = 14,
    MAX_FRAME = 65536,
    MAX_SENDERS = 16,
    HEADER_BYTES = 24,
    RECORD_BYTES = 16,
    MAX_CAPTURED = 262144,
};

/* On cache lines of its own. */
#define APART __attribute__((aligned(128)))

/* A frame where it lies in its capture: its record, and the number of its bytes. */
struct frame {
    const uint8_t *record;
    uint32_t length;
};

/* The frames of one FILE, and how many bytes the FILE has. */
struct capture {
    struct frame *frames;
    uint32_t count;
    size_t bytes;
};

/* The number of a frame's capture, and of its record in it. */
struct ticket {
    uint32_t sender, index;
};

/* When a frame was captured, and how long it was before. */
struct stamp {
    uint32_t seconds, micros, original;
};

/* What lies in a place of the ring: a frame in clusters, all full but the last, or a kick. */
struct packet {
    struct ticket ticket;
    struct stamp stamp;
    uint32_t length;
    uint16_t segments;
    bool kick;
    uint16_t clusters[MAX_SEGMENTS];
};

/* files.c: captures, and the files that a run writes. */
_Noreturn void fail(const char *name);
struct capture read_capture(const char *name);
struct stamp stamp_of(const struct frame *frame);
void write_header(uint8_t *wire);
void write_file(const char *name, const uint8_t *bytes, size_t count);

/* order.c: the order text. */
void take_order(const struct capture *captures, uint32_t senders);
void note_accepted(struct ticket ticket);
void turn_away(struct ticket ticket, const char *why);
uint64_t accepted_frames(void);
void write_order(const char *name);

/* pool.c: the clusters that no frame lies in, by their numbers. */
void fill_pool(void);
bool take_cluster(uint16_t *cluster);
void give_cluster(uint16_t cluster);
uint8_t *cluster_bytes(uint16_t cluster);

/* adapter.c: the descriptor ring, its driver and its device. */
void start_adapter(uint8_t *wire);
bool has_room_for_packet(void);
void post_packet(const struct packet *packet);
void ring_doorbell(void);
void reclaim_clusters(void);
bool serve_adapter(void);
bool is_adapter_idle(void);
bool is_all_reclaimed(void);
size_t wire_bytes(void);

/* ring.c: the ring of packets, whose consumer drains them into the adapter. */
bool enqueue(const struct packet *packet);
void check_drainage(void);
bool is_ring_idle(void);

#endif
