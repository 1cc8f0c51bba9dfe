/* One talker and its listeners at a reflector on the loopback, at the full rate. `full_rate PORT LISTENERS SECONDS [bare]` joins
 * module A with all, prints a line, and waits for one. Then the talker has 32 frames under way at the most, by what the last
 * listener heard; with `bare` it leaves the CRC out. It naps between looks at the sockets and never sleeps on one, since who sleeps
 * there is woken at the expense of the reflector's send. Each frame that comes is compared, byte for byte and in order. It prints
 * how many came in a second, and how many in all, were lost, and came wrong, twice or late. */
#define _GNU_SOURCE
#include <arpa/inet.h>
#include <stdio.h>
#include <stdlib.h>
#include <sys/resource.h>
#include <sys/socket.h>
#include <time.h>
#include <unistd.h>

#include "check/packets.h"

enum { PACKET = 54, MOST = 256, BATCH = 64, UNDER_WAY = 32, KEPT = 4096, STREAM = 0x1234, NAP_US = 100, TRIES = 20 };
enum { SEQUENCE = 36, CRC = 52 };

static struct peer { int socket, is_in; uint8_t call[6]; uint64_t next; } peers[MOST + 1];
static int listeners;
static uint8_t said[KEPT][PACKET];
static uint64_t sent, received, wrong;
static double last;

static double now(void)
{
    struct timespec t;
    clock_gettime(CLOCK_MONOTONIC, &t);
    return t.tv_sec + t.tv_nsec / 1e9;
}

/* A callsign of its own for each: A, and two letters. */
static void open_peer(struct peer *p, int number, int port)
{
    struct sockaddr_in to = { .sin_family = AF_INET, .sin_port = htons(port), .sin_addr.s_addr = htonl(INADDR_LOOPBACK) };
    int room = 4 << 20;
    p->socket = socket(AF_INET, SOCK_DGRAM, 0);
    if (p->socket < 0 || connect(p->socket, (struct sockaddr *)&to, sizeof to))
        perror("socket"), exit(1);
    setsockopt(p->socket, SOL_SOCKET, SO_RCVBUF, &room, sizeof room);
    put48(p->call, 1 + 40 * (1 + number % 26) + 1600 * (1 + number / 26));
}

static void say(struct peer *p, const char *magic)
{
    uint8_t bytes[11];
    memcpy(bytes, magic, 4);
    memcpy(bytes + 4, p->call, 6);
    bytes[10] = 'A';
    (void)!send(p->socket, bytes, memcmp(magic, "CONN", 4) ? 10 : 11, 0);
}

/* A listener heard a frame: the next one that it waits for, or one behind that, so that some were lost. */
static void hear_frame(struct peer *p, const uint8_t *bytes)
{
    uint64_t number = get64(bytes + SEQUENCE);
    if (p == peers || number >= sent || number < p->next || memcmp(bytes, said[number % KEPT], PACKET)) {
        wrong++;
        return;
    }
    p->next = number + 1;
    received++;
}

static int hear(struct peer *p)
{
    static uint8_t bytes[BATCH][64];
    static struct iovec parts[BATCH];
    static struct mmsghdr heads[BATCH];
    for (int i = 0; i < BATCH; i++) {
        parts[i] = (struct iovec){ bytes[i], sizeof bytes[i] };
        heads[i].msg_hdr = (struct msghdr){ .msg_iov = &parts[i], .msg_iovlen = 1 };
    }
    int count = recvmmsg(p->socket, heads, BATCH, MSG_DONTWAIT, NULL);
    for (int i = 0; i < count; i++) {
        if (heads[i].msg_len == PACKET)
            hear_frame(p, bytes[i]);
        else if (!memcmp(bytes[i], "PING", 4))
            say(p, "PONG");
        else if (!memcmp(bytes[i], "ACKN", 4))
            p->is_in = 1;
    }
    return count;
}

static void hear_all(void)
{
    for (int i = 0; i <= listeners; i++)
        while (hear(&peers[i]) > 0)
            last = now();
}

static int is_let_in(struct peer *p)
{
    for (int try = 0; try < TRIES && !p->is_in; try++) {
        say(p, "CONN");
        for (double end = now() + 0.3; !p->is_in && now() < end; usleep(NAP_US))
            hear(p);
    }
    return p->is_in;
}

/* A frame of the one stream, with its sequence number as its payload, and kept as the listeners are to hear it. */
static void talk(int is_bare)
{
    uint8_t *bytes = said[sent % KEPT];
    memcpy(bytes, "M17 ", 4);
    put16(bytes + 4, STREAM);
    memset(bytes + 6, 0xFF, 6);
    memcpy(bytes + 12, peers->call, 6);
    put16(bytes + 18, 5);
    put16(bytes + 34, sent & 0x7FFF);
    put64(bytes + SEQUENCE, sent);
    put16(bytes + CRC, is_bare ? 0 : crc16(bytes, CRC));
    if (send(peers->socket, bytes, PACKET, 0) == PACKET)
        sent++;
    put16(bytes + CRC, crc16(bytes, CRC));
}

int main(int argc, char **argv)
{
    struct rlimit files = { 1024, 1024 };
    int port = argc > 3 ? atoi(argv[1]) : 0, is_bare = argc > 4;
    double seconds = argc > 3 ? atof(argv[3]) : 0;
    listeners = argc > 3 ? atoi(argv[2]) : 0;
    if (port < 1 || listeners < 1 || listeners > MOST || seconds <= 0)
        return fprintf(stderr, "usage: full_rate PORT LISTENERS SECONDS [bare]\n"), 2;
    setrlimit(RLIMIT_NOFILE, &files);
    crc_init();
    for (int i = 0; i <= listeners; i++) {
        open_peer(&peers[i], i, port);
        if (!is_let_in(&peers[i]))
            return fprintf(stderr, "full_rate: not let in\n"), 1;
    }
    puts("in");
    fflush(stdout);
    (void)getchar();
    double begin = last = now();
    uint64_t before = 0;
    while (now() < begin + seconds) {
        if (now() > last + 0.25)
            before = sent; /* all of them were lost */
        uint64_t done = peers[listeners].next > before ? peers[listeners].next : before;
        for (int i = UNDER_WAY - (int)(sent - done); i > 0; i--)
            talk(is_bare);
        hear_all();
        usleep(NAP_US);
    }
    while (received < sent * listeners && now() < last + 0.5) {
        hear_all();
        usleep(NAP_US);
    }
    printf("%.0f %lu %lu %lu\n", received / (last - begin), received, sent * listeners - received, wrong);
    for (int i = 0; i <= listeners; i++)
        say(&peers[i], "DISC");
    return 0;
}
