/* make_book [BYTES]: a legal book of so many bytes at most, 67,108,872 where none is told, on standard output; the same
 * bytes at each run. Twelve members talk by turns and interrupt each other, some only listen, strangers send, and members
 * leave and come again. Each verdict is known from how its packet was made: nothing here looks it up. */
#include <stdint.h>
#include <stdio.h>
#include <stdlib.h>
#include <string.h>

#include "packets.h"

enum { MOST_BYTES = 67108872, MEMBERS = 12, TALKERS = 10, NO_STREAM = 0xFFFF };

static uint64_t left = MOST_BYTES, moment, record_index, state = 17;
static uint64_t generation[MEMBERS];

static unsigned below(unsigned bound)
{
    state = state * UINT64_C(6364136223846793005) + UINT64_C(1442695040888963407);
    return (unsigned)(state >> 33) % bound;
}

/* Writes a record where there is room for it, and ends the program where there is none. */
static void put(const uint8_t *bytes, size_t count)
{
    if (count > left) {
        if (fclose(stdout))
            exit(4);
        exit(0);
    }
    left -= count;
    if (fwrite(bytes, 1, count, stdout) < count)
        exit(4);
}

/* The 30 bytes with which each record begins. */
static void head(uint8_t *r, unsigned kind, unsigned place)
{
    memset(r, 0, 97);
    r[0] = (uint8_t)kind;
    put64(r + 2, record_index++);
    put64(r + 10, moment);
    r[21] = (uint8_t)place;
    put64(r + 22, generation[place]);
}

static void put_address(uint8_t *p, unsigned place)
{
    put48(p, 96608 + 64000 * (uint64_t)place);
}

static void join(unsigned place)
{
    uint8_t r[97];
    head(r, 1, place);
    put_address(r + 31, place);
    r[30] = place >= TALKERS;
    put(r, 37);
}

static void leave(unsigned place)
{
    uint8_t r[97];
    head(r, 2, place);
    r[30] = (uint8_t)(1 + below(5));
    put(r, 31);
}

/* A packet's record. `value` is the last number with LATE, and the holder's place with BUSY. */
static void packet(unsigned place, unsigned verdict, unsigned value, unsigned sid, unsigned field)
{
    uint8_t r[97], *p = r + 43;
    head(r, 3, place);
    r[30] = (uint8_t)verdict;
    if (verdict == NOT_MEMBER)
        put64(r + 22, generation[place] + 1);
    if (verdict == BUSY) {
        put64(r + 35, generation[value]);
        r[34] = (uint8_t)value;
    }
    if (verdict == LATE)
        put16(r + 41, value);
    memcpy(p, "M17 ", 4);
    put16(p + 4, sid);
    memset(p + 6, 0xFF, 6);
    put_address(p + 12, place);
    p[19] = 5;
    put16(p + 34, field);
    for (int i = 36; i < 52; i++)
        p[i] = (uint8_t)below(256);
    put16(p + 52, crc16(p, 52));
    put(r, 97);
}

/* What comes between two frames of the holder. */
static void aside(unsigned holder, unsigned sid, unsigned number)
{
    unsigned dice = below(100), other = (holder + 1 + below(TALKERS - 1)) % TALKERS;
    if (dice < 5)
        packet(holder, REPEAT, 0, sid, number);
    else if (dice < 8 && number)
        packet(holder, LATE, number, sid, number - 1);
    else if (dice < 13)
        packet(other, BUSY, holder, NO_STREAM, below(0x8000));
    else if (dice < 15)
        packet(TALKERS + below(MEMBERS - TALKERS), LISTEN_ONLY, 0, sid, number);
    else if (dice < 16)
        packet(other, NOT_MEMBER, 0, sid, number);
}

/* A stream, which ends by its end bit, by silence, or with its talker's leave. */
static void over(unsigned place)
{
    unsigned sid = below(NO_STREAM), frames = 25 + below(200), how = below(10);
    for (unsigned number = 0; number < frames; number++) {
        unsigned is_last = number + 1 == frames && how < 8;
        packet(place, number ? CONTINUED : OPENED, 0, sid, number | is_last << 15);
        if (!is_last)
            aside(place, sid, number);
        else if (below(4) == 0)
            packet(place, AFTER_END, 0, sid, number);
        moment += 40;
    }
    if (how == 9) {
        leave(place);
        generation[place]++;
        join(place);
    }
    moment += how == 8 ? 1600 : below(3000);
}

int main(int count, char **words)
{
    unsigned place = 0;
    if (count > 1)
        left = strtoull(words[1], NULL, 10);
    crc_init();
    put((const uint8_t *)"M17BOOK2A\0\0\0\0\0\2\277 ", 17);
    for (unsigned each = 0; each < MEMBERS; each++)
        join(each);
    for (;;) {
        /* Another one each time: a talker's streams have ids that differ, and others come between. */
        place = (place + 1 + below(2)) % TALKERS;
        over(place);
    }
}
