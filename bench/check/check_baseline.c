/* The command `check` as one writes it in C: a book from standard input, record by record over stdio, in fixed memory.
 * It prints the line that m17 prints, with the same status; docs/protocol.md has the layout and the lines, docs/floor.md
 * the rule. With -DCRC_SLICES the CRC takes eight bytes a step. */
#define _GNU_SOURCE
#include <stdint.h>
#include <stdio.h>
#include <stdlib.h>
#include <string.h>

#include "packets.h"

enum { MOST_BYTES = 67108872, HEADER = 17, JOIN = 1, LEAVE = 2, PACKET = 3 };

static const unsigned record_bytes[] = { 0, 37, 31, 97 };

static uint64_t bytes_read;

/* ---- the first thing that is wrong: with the form of the bytes, and with a record */

struct wrong { uint64_t place; const char *reason; unsigned byte; };
static struct wrong form, breach;

static void is_wrong(struct wrong *which, uint64_t place, const char *reason)
{
    if (!which->reason) {
        which->place = place;
        which->reason = reason;
    }
}

static size_t take(uint8_t *into, size_t count)
{
    size_t got = fread_unlocked(into, 1, count, stdin);
    bytes_read += got;
    return got;
}

/* ---- who is in, and who has the floor */

struct member { uint64_t generation, own_at, own_opened; uint16_t own_sid, own_number; uint8_t is_in, listens, has_own, own_ended; };
static struct member members[256];
static struct { uint64_t at, opened; unsigned place; uint16_t sid; uint8_t is_held; } the_floor;
static uint64_t limit, moment, records, streams, admitted;

/* The verdict on a packet, as a record has it: the code and 12 bytes of value. */
static void judge(const uint8_t *r, uint8_t *verdict)
{
    unsigned place = r[21], sid = get16(r + 47), field = get16(r + 77), number = field & 0x7FFF;
    struct member *m = &members[place];
    int is_held = the_floor.is_held && moment - the_floor.at < FLOOR_MS && (!limit || moment - the_floor.opened < limit);
    memset(verdict, 0, 13);
    if (!m->is_in || m->generation != get64(r + 22)) {
        verdict[0] = NOT_MEMBER;
        return;
    }
    if (m->listens) {
        verdict[0] = LISTEN_ONLY;
        return;
    }
    if (is_held && (the_floor.place != place || the_floor.sid != sid)) {
        verdict[0] = BUSY;
        put64(verdict + 5, members[the_floor.place].generation);
        verdict[4] = (uint8_t)the_floor.place;
        return;
    }
    if (m->has_own && m->own_sid == sid && moment - m->own_at < MEMORY_MS) {
        unsigned step = (number - m->own_number) & 0x7FFF;
        if (m->own_ended || step == 0) {
            verdict[0] = m->own_ended ? AFTER_END : REPEAT;
            return;
        }
        if (step >= 0x4000) {
            verdict[0] = LATE;
            put16(verdict + 11, m->own_number);
            return;
        }
        if (limit && moment - m->own_opened >= limit) {
            verdict[0] = TIMED_OUT;
            return;
        }
    }
    verdict[0] = is_held ? CONTINUED : OPENED;
    m->has_own = 1;
    m->own_at = the_floor.at = moment;
    if (!is_held)
        the_floor.opened = moment;
    m->own_opened = the_floor.opened;
    m->own_sid = the_floor.sid = (uint16_t)sid;
    m->own_number = (uint16_t)number;
    m->own_ended = field >> 15;
    the_floor.place = place;
    the_floor.is_held = !m->own_ended;
}

static void join(const uint8_t *r)
{
    struct member *m = &members[r[21]];
    if (m->is_in) {
        is_wrong(&breach, records, "member");
        return;
    }
    memset(m, 0, sizeof *m);
    m->is_in = 1;
    m->listens = r[30];
    m->generation = get64(r + 22);
}

static void leave(const uint8_t *r)
{
    struct member *m = &members[r[21]];
    if (!m->is_in || m->generation != get64(r + 22)) {
        is_wrong(&breach, records, "member");
        return;
    }
    m->is_in = 0;
    if (the_floor.place == r[21])
        the_floor.is_held = 0;
}

static void judge_record(const uint8_t *r)
{
    uint8_t verdict[13];
    if (get64(r + 10) < moment) {
        is_wrong(&breach, records, "moment");
        return;
    }
    moment = get64(r + 10);
    if (r[0] == JOIN) {
        join(r);
    } else if (r[0] == LEAVE) {
        leave(r);
    } else {
        judge(r, verdict);
        if (memcmp(verdict, r + 30, 13) != 0)
            is_wrong(&breach, records, "verdict");
        streams += verdict[0] == OPENED;
        admitted += verdict[0] <= CONTINUED;
    }
}

/* ---- the form of the bytes */

static int is_zero(const uint8_t *p, size_t n)
{
    while (n--)
        if (*p++)
            return 0;
    return 1;
}

static int is_value(unsigned verdict, const uint8_t *value)
{
    if (verdict == BUSY)
        return get32(value) < 256;
    if (verdict == LATE)
        return is_zero(value, 10) && get16(value + 10) < 0x8000;
    return is_zero(value, 12);
}

/* Where the first field with a wrong value begins, of those that are whole in so many bytes; 0 where none is wrong. */
static unsigned wrong_field(const uint8_t *r, size_t got)
{
    if (got > 1 && r[1] > 3)
        return 1;
    if (got >= 22 && get32(r + 18) > 255)
        return 18;
    if (got <= 30)
        return 0;
    switch (r[0]) {
    case JOIN:
        if (r[30] > 1)
            return 30;
        return got >= 37 && !has_callsign(get48(r + 31)) ? 31 : 0;
    case LEAVE:
        return r[30] < 1 || r[30] > 5 ? 30 : 0;
    default:
        if (r[30] < OPENED || r[30] > TIMED_OUT)
            return 30;
        if (got >= 43 && !is_value(r[30], r + 31))
            return 31;
        return got >= 97 && !is_stream_packet(r + 43) ? 43 : 0;
    }
}

static void read_header(void)
{
    static const uint8_t magic[] = "M17BOOK2";
    uint8_t header[HEADER];
    size_t got = take(header, HEADER);
    for (size_t i = 0; i < 8 && got >= 8; i++)
        if (header[i] != magic[i])
            is_wrong(&form, i, "field");
    if (got < HEADER)
        is_wrong(&form, got, "cut");
    else if (header[8] < 'A' || header[8] > 'Z')
        is_wrong(&form, 8, "field");
    else
        limit = get64(header + 9);
}

/* 0 at the end of the input. */
static int read_record(void)
{
    uint8_t r[97];
    uint64_t begin = bytes_read;
    size_t got = take(r, 1), wanted;
    unsigned field;
    if (!got)
        return 0;
    if (r[0] < JOIN || r[0] > PACKET) {
        form.byte = r[0];
        is_wrong(&form, begin, "kind");
        return 1;
    }
    wanted = record_bytes[r[0]];
    got += take(r + 1, wanted - 1);
    if ((field = wrong_field(r, got)))
        is_wrong(&form, begin + field, "field");
    else if (got < wanted)
        is_wrong(&form, bytes_read, "cut");
    else if (!breach.reason)
        judge_record(r);
    records++;
    return 1;
}

/* ---- the line */

static int end(int status)
{
    return fflush(stdout) ? 4 : status;
}

static int refused(const struct wrong *which)
{
    printf("input refused at %llu: %s", (unsigned long long)which->place, which->reason);
    if (strcmp(which->reason, "kind") == 0)
        printf(" %02X", which->byte);
    putchar('\n');
    return end(1);
}

int main(int count, char **words)
{
    uint8_t rest[4096];
    if (count != 2 || strcmp(words[1], "check") != 0) {
        puts("words refused");
        return end(2);
    }
    crc_init();
    read_header();
    while (!form.reason && bytes_read <= MOST_BYTES && read_record())
        ;
    while (bytes_read <= MOST_BYTES && take(rest, sizeof rest))
        ;
    if (bytes_read <= MOST_BYTES && ferror(stdin)) {
        puts("read failed");
        return end(3);
    }
    if (bytes_read > MOST_BYTES)
        form = (struct wrong){ MOST_BYTES, "large", 0 };
    if (form.reason)
        return refused(&form);
    if (breach.reason)
        return refused(&breach);
    printf("legal %llu records %llu streams %llu admitted\n", (unsigned long long)records, (unsigned long long)streams,
           (unsigned long long)admitted);
    return end(0);
}
