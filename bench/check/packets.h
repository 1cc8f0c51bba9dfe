/* What the two programs of this folder know of packets: big-endian fields, callsigns, the CRC, verdicts. */
#ifndef PACKETS_H
#define PACKETS_H

#include <stddef.h>
#include <stdint.h>
#include <string.h>

enum { FLOOR_MS = 1600, MEMORY_MS = 10000 };
enum { OPENED = 1, CONTINUED, BUSY, REPEAT, LATE, AFTER_END, NOT_MEMBER, LISTEN_ONLY, TIMED_OUT };

static inline unsigned get16(const uint8_t *p) { return (unsigned)p[0] << 8 | p[1]; }
static inline uint32_t get32(const uint8_t *p) { return (uint32_t)get16(p) << 16 | get16(p + 2); }
static inline uint64_t get48(const uint8_t *p) { return (uint64_t)get16(p) << 32 | get32(p + 2); }
static inline uint64_t get64(const uint8_t *p) { return (uint64_t)get32(p) << 32 | get32(p + 4); }

static inline void put16(uint8_t *p, unsigned v)
{
    p[0] = (uint8_t)(v >> 8);
    p[1] = (uint8_t)v;
}

static inline void put48(uint8_t *p, uint64_t v)
{
    for (int i = 0; i < 3; i++)
        put16(p + 2 * i, (unsigned)(v >> (32 - 16 * i)) & 0xFFFF);
}

static inline void put64(uint8_t *p, uint64_t v)
{
    for (int i = 0; i < 4; i++)
        put16(p + 2 * i, (unsigned)(v >> (48 - 16 * i)) & 0xFFFF);
}

/* Callsigns lie below 40^9, groups above it and below 40^9 + 40^8. */
static inline int has_callsign(uint64_t address) {
    return address > 0 && address < UINT64_C(268697600000000) && address != UINT64_C(262144000000000);
}

#ifdef CRC_SLICES
#define CRC_TABLES 8
#else
#define CRC_TABLES 1
#endif

static uint16_t crc_table[CRC_TABLES][256];

static inline void crc_init(void)
{
    for (unsigned i = 0; i < 256; i++) {
        unsigned c = i << 8;
        for (int bit = 0; bit < 8; bit++)
            c = c & 0x8000 ? (c << 1 ^ 0x5935) & 0xFFFF : c << 1;
        crc_table[0][i] = (uint16_t)c;
    }
    for (int t = 1; t < CRC_TABLES; t++)
        for (unsigned i = 0; i < 256; i++) {
            unsigned c = crc_table[t - 1][i];
            crc_table[t][i] = (uint16_t)(c << 8 ^ crc_table[0][c >> 8]);
        }
}

static inline unsigned crc16(const uint8_t *p, size_t n)
{
    unsigned c = 0xFFFF;
#ifdef CRC_SLICES
    for (; n >= 8; n -= 8, p += 8)
        c = crc_table[7][p[0] ^ c >> 8] ^ crc_table[6][p[1] ^ (c & 0xFF)] ^ crc_table[5][p[2]] ^ crc_table[4][p[3]]
          ^ crc_table[3][p[4]] ^ crc_table[2][p[5]] ^ crc_table[1][p[6]] ^ crc_table[0][p[7]];
#endif
    while (n--)
        c = (c << 8 & 0xFFFF) ^ crc_table[0][c >> 8 ^ *p++];
    return c;
}

static inline int is_stream_packet(const uint8_t *p)
{
    return memcmp(p, "M17 ", 4) == 0 && crc16(p, 52) == get16(p + 52);
}

#endif
