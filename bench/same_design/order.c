/* The order text: a line for each accepted frame, as they were accepted, and one for each other frame. */
#include "design.h"

#include <stdio.h>
#include <stdlib.h>
#include <string.h>

/* No line is longer: two numbers of ten digits, two spaces, a word of eight letters, a line feed. */
enum { MAX_LINE = 31 };

struct away {
    uint32_t index;
    const char *why;
};

static struct ticket *accepted; /* written by the ring's consumer */
static uint64_t accepted_count;
static struct away *away[MAX_SENDERS]; /* each written by its sender */
static uint32_t away_counts[MAX_SENDERS];
static uint32_t sender_count;

/* Takes the room for all lines. */
void take_order(const struct capture *captures, uint32_t senders)
{
    uint64_t all = 0;
    for (uint32_t sender = 0; sender < senders; sender++) {
        all += captures[sender].count;
        away[sender] = malloc((captures[sender].count + 1) * sizeof *away[sender]);
        if (away[sender] == NULL)
            fail("memory");
    }
    accepted = malloc((all + 1) * sizeof *accepted);
    if (accepted == NULL)
        fail("memory");
    sender_count = senders;
}

void note_accepted(struct ticket ticket)
{
    accepted[accepted_count++] = ticket;
}

void turn_away(struct ticket ticket, const char *why)
{
    away[ticket.sender][away_counts[ticket.sender]++] = (struct away){ticket.index, why};
}

uint64_t accepted_frames(void)
{
    return accepted_count;
}

static uint64_t away_frames(void)
{
    uint64_t all = 0;
    for (uint32_t sender = 0; sender < sender_count; sender++)
        all += away_counts[sender];
    return all;
}

static char *put_text(char *at, const char *text)
{
    size_t length = strlen(text);
    memcpy(at, text, length);
    return at + length;
}

static char *put_number(char *at, uint64_t number)
{
    char digits[20];
    int count = 0;
    do
        digits[count++] = (char)('0' + number % 10);
    while (number /= 10);
    while (count > 0)
        *at++ = digits[--count];
    return at;
}

static char *put_line(char *at, struct ticket ticket, const char *says)
{
    at = put_number(at, ticket.sender);
    *at++ = ' ';
    at = put_number(at, ticket.index);
    *at++ = ' ';
    at = put_text(at, says);
    *at++ = '\n';
    return at;
}

static char *put_count(char *at, const char *what, uint64_t count)
{
    at = put_text(at, what);
    at = put_number(at, count);
    *at++ = '\n';
    return at;
}

void write_order(const char *name)
{
    char *text = malloc((accepted_count + away_frames() + 2) * MAX_LINE);
    if (text == NULL)
        fail("memory");
    char *end = put_count(text, "accepted ", accepted_count);
    for (uint64_t at = 0; at < accepted_count; at++)
        end = put_line(end, accepted[at], "wire");
    end = put_count(end, "away ", away_frames());
    for (uint32_t sender = 0; sender < sender_count; sender++)
        for (uint32_t at = 0; at < away_counts[sender]; at++)
            end = put_line(end, (struct ticket){sender, away[sender][at].index}, away[sender][at].why);
    write_file(name, (const uint8_t *)text, (size_t)(end - text));
    free(text);
}
