/* Files: captures in one form, the lowest byte first and with microseconds, and what a run writes. */
#include "design.h"

#include <fcntl.h>
#include <stdio.h>
#include <stdlib.h>
#include <string.h>
#include <sys/stat.h>
#include <unistd.h>

#define MAGIC 0xa1b2c3d4u

_Noreturn void fail(const char *name)
{
    perror(name);
    exit(1);
}

static _Noreturn void refuse(const char *name)
{
    fprintf(stderr, "%s: not a capture of the one form that is read\n", name);
    exit(3);
}

static uint32_t number_at(const uint8_t *bytes)
{
    uint32_t number;
    memcpy(&number, bytes, sizeof number);
    return number;
}

/* All bytes of a file. */
static uint8_t *read_file(const char *name, size_t *count)
{
    struct stat about;
    int file = open(name, O_RDONLY);
    if (file < 0 || fstat(file, &about) != 0)
        fail(name);
    *count = (size_t)about.st_size;
    uint8_t *bytes = malloc(*count + 1);
    if (bytes == NULL)
        fail(name);
    for (size_t at = 0; at < *count;) {
        ssize_t got = read(file, bytes + at, *count - at);
        if (got <= 0)
            fail(name);
        at += (size_t)got;
    }
    close(file);
    return bytes;
}

static void add_frame(struct capture *capture, uint32_t *room, struct frame frame)
{
    if (capture->count == *room) {
        *room = *room == 0 ? 1024 : *room * 2;
        capture->frames = realloc(capture->frames, *room * sizeof *capture->frames);
        if (capture->frames == NULL)
            fail("memory");
    }
    capture->frames[capture->count++] = frame;
}

struct capture read_capture(const char *name)
{
    struct capture capture = {NULL, 0, 0};
    const uint8_t *bytes = read_file(name, &capture.bytes);
    uint32_t room = 0;
    if (capture.bytes < HEADER_BYTES || number_at(bytes) != MAGIC)
        refuse(name);
    for (size_t at = HEADER_BYTES; at < capture.bytes;) {
        if (capture.bytes - at < RECORD_BYTES)
            refuse(name);
        struct frame frame = {bytes + at, number_at(bytes + at + 8)};
        at += RECORD_BYTES;
        if (frame.length > MAX_CAPTURED || capture.bytes - at < frame.length)
            refuse(name);
        add_frame(&capture, &room, frame);
        at += frame.length;
    }
    return capture;
}

struct stamp stamp_of(const struct frame *frame)
{
    return (struct stamp){number_at(frame->record), number_at(frame->record + 4), number_at(frame->record + 12)};
}

void write_header(uint8_t *wire)
{
    static const uint32_t fields[6] = {MAGIC, 2 | 4 << 16, 0, 0, MAX_CAPTURED, 1};
    memcpy(wire, fields, HEADER_BYTES);
}

void write_file(const char *name, const uint8_t *bytes, size_t count)
{
    int file = open(name, O_WRONLY | O_CREAT | O_TRUNC, 0644);
    if (file < 0)
        fail(name);
    for (size_t at = 0; at < count;) {
        ssize_t put = write(file, bytes + at, count - at);
        if (put <= 0)
            fail(name);
        at += (size_t)put;
    }
    close(file);
}
