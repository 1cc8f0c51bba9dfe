/* What three threads cost a relay. `relay 1 LISTENERS SECONDS` takes each datagram of a talker and sends it to each listener,
 * in one thread. `relay 3 ..` does the same in the threads of the reflector: a receiver hands it to a worker, the worker puts a
 * copy into a queue for each listener and marks the queue, and a sender takes one of each marked queue in turn. A queue is a
 * ring of one producer and one consumer, whose steps are sequentially consistent; who finds nothing tries a while and then
 * sleeps on a futex until it is woken. The talker has 32 datagrams under way at the most, so none is lost.
 * It prints the datagrams that were sent to listeners in a second, and the processor time of the relay for each, in us.
 * `relay 1|3|4 LISTENERS SECONDS paced` has the talker send 25 a second, and prints the middle and the 99th of a hundred of the
 * times from a datagram's leaving to the kernel's receipt of a copy, in us. With 4 in place of 3 the receiver wakes the sender
 * before it hands a datagram to the worker, so that it wakes while the worker works. */
#define _GNU_SOURCE
#include <arpa/inet.h>
#include <linux/futex.h>
#include <pthread.h>
#include <stdatomic.h>
#include <stdint.h>
#include <stdio.h>
#include <stdlib.h>
#include <string.h>
#include <sys/resource.h>
#include <sys/socket.h>
#include <sys/syscall.h>
#include <time.h>
#include <unistd.h>

enum { PACKET = 54, ITEM = 120, MOST = 256, INBOX = 256, QUEUE = 64, UNDER_WAY = 32, ROUNDS = 7, PACE_MS = 40 };

static int server, listener[MOST], listeners, early;
static struct sockaddr_in server_at, listener_at[MOST];
static atomic_int stopped;
static atomic_ulong sent, used_us;

/* One producer and one consumer. */
struct ring {
    _Alignas(128) atomic_uint tail;
    _Alignas(128) atomic_uint head;
    unsigned room;
    uint8_t (*items)[ITEM];
};

/* Where a consumer sleeps. */
struct bell {
    _Alignas(128) atomic_uint turn;
    atomic_int announced;
};

static struct ring inbox, queue[MOST];
static struct bell worker_bell, sender_bell;
static _Alignas(128) atomic_ulong marks[MOST / 64];

static void make(struct ring *r, unsigned room)
{
    r->room = room;
    r->items = aligned_alloc(128, room * ITEM);
    memset(r->items, 0, room * ITEM);
}

static int push(struct ring *r, const uint8_t *item)
{
    unsigned at = atomic_load(&r->tail);
    if (at - atomic_load(&r->head) == r->room)
        return 0;
    memcpy(r->items[at % r->room], item, ITEM);
    atomic_store(&r->tail, at + 1);
    return 1;
}

static int pop(struct ring *r, uint8_t *item)
{
    unsigned at = atomic_load(&r->head);
    if (at == atomic_load(&r->tail))
        return 0;
    memcpy(item, r->items[at % r->room], ITEM);
    atomic_store(&r->head, at + 1);
    return 1;
}

static void ring_bell(struct bell *b)
{
    if (atomic_load(&b->announced) && atomic_exchange(&b->announced, 0)) {
        atomic_fetch_add(&b->turn, 1);
        syscall(SYS_futex, &b->turn, FUTEX_WAKE_PRIVATE, 1, 0, 0, 0);
    }
}

static void sleep_on(struct bell *b, unsigned turn)
{
    static const struct timespec most = { 0, 100000000 };
    syscall(SYS_futex, &b->turn, FUTEX_WAIT_PRIVATE, turn, &most, 0, 0);
}

static void send_to(int i, const uint8_t *bytes)
{
    sendto(server, bytes, PACKET, 0, (struct sockaddr *)&listener_at[i], sizeof listener_at[i]);
    atomic_fetch_add_explicit(&sent, 1, memory_order_relaxed);
}

static void count_used(void)
{
    struct rusage u;
    getrusage(RUSAGE_THREAD, &u);
    atomic_fetch_add(&used_us, (u.ru_utime.tv_sec + u.ru_stime.tv_sec) * 1000000ul + u.ru_utime.tv_usec + u.ru_stime.tv_usec);
}

static void *in_one(void *none)
{
    uint8_t item[ITEM] = { 0 };
    while (!atomic_load(&stopped))
        if (recv(server, item, PACKET, 0) == PACKET)
            for (int i = 0; i < listeners; i++)
                send_to(i, item);
    count_used();
    return none;
}

static void *receives(void *none)
{
    uint8_t item[ITEM] = { 0 };
    while (!atomic_load(&stopped))
        if (recv(server, item, PACKET, 0) == PACKET) {
            if (early)
                ring_bell(&sender_bell);
            while (!push(&inbox, item) && !atomic_load(&stopped))
                sched_yield();
            ring_bell(&worker_bell);
        }
    count_used();
    return none;
}

static void *works(void *none)
{
    uint8_t item[ITEM];
    for (int rounds = 0; !atomic_load(&stopped);) {
        unsigned turn = atomic_load(&worker_bell.turn);
        if (rounds == ROUNDS)
            atomic_store(&worker_bell.announced, 1);
        if (pop(&inbox, item)) {
            rounds = 0;
            for (int i = 0; i < listeners; i++) {
                if (!push(&queue[i], item))
                    continue;
                if (!(atomic_load(&marks[i / 64]) >> i % 64 & 1))
                    atomic_fetch_or(&marks[i / 64], 1ul << i % 64);
                ring_bell(&sender_bell);
            }
        } else if (rounds == ROUNDS) {
            sleep_on(&worker_bell, turn);
        } else {
            for (int i = 0; i < 1 << rounds; i++)
                __builtin_ia32_pause();
            rounds++;
        }
    }
    count_used();
    return none;
}

/* A turn: one of each queue that was marked, which stays so until it is found empty. */
static int turn_over(uint64_t *there)
{
    uint8_t item[ITEM];
    int did = 0;
    for (int w = 0; w < MOST / 64; w++) {
        if (atomic_load(&marks[w]))
            there[w] |= atomic_exchange(&marks[w], 0);
        for (uint64_t left = there[w]; left; left &= left - 1) {
            int bit = __builtin_ctzl(left);
            if (pop(&queue[w * 64 + bit], item)) {
                send_to(w * 64 + bit, item);
                did = 1;
            } else {
                there[w] &= ~(1ul << bit);
            }
        }
    }
    return did;
}

static void *sends(void *none)
{
    uint64_t there[MOST / 64] = { 0 };
    while (!atomic_load(&stopped)) {
        if (turn_over(there))
            continue;
        unsigned turn = atomic_load(&sender_bell.turn);
        atomic_store(&sender_bell.announced, 1);
        if (!turn_over(there))
            sleep_on(&sender_bell, turn);
    }
    count_used();
    return none;
}

static int bound(struct sockaddr_in *at)
{
    int s = socket(AF_INET, SOCK_DGRAM, 0), room = 4 << 20;
    socklen_t size = sizeof *at;
    struct timeval wait = { 0, 20000 };
    *at = (struct sockaddr_in){ .sin_family = AF_INET, .sin_addr.s_addr = htonl(INADDR_LOOPBACK) };
    if (s < 0 || bind(s, (struct sockaddr *)at, size) || getsockname(s, (struct sockaddr *)at, &size))
        perror("socket"), exit(1);
    setsockopt(s, SOL_SOCKET, SO_RCVBUF, &room, sizeof room);
    setsockopt(s, SOL_SOCKET, SO_RCVTIMEO, &wait, sizeof wait);
    return s;
}

static double now(void)
{
    struct timespec t;
    clock_gettime(CLOCK_MONOTONIC, &t);
    return t.tv_sec + t.tv_nsec / 1e9;
}

/* The talker and all listeners, in a thread that naps and never sleeps on a socket. */
static unsigned long talk(double seconds)
{
    uint8_t bytes[PACKET] = { 'M', '1', '7', ' ' };
    unsigned long out = 0, back = 0, all = 0;
    int talker = socket(AF_INET, SOCK_DGRAM, 0);
    for (double end = now() + seconds; now() < end;) {
        int came = 0;
        for (int i = 0; i < listeners; i++)
            while (recv(listener[i], bytes, PACKET, MSG_DONTWAIT) == PACKET)
                came++, all++, back += i == listeners - 1;
        for (; out - back < UNDER_WAY; out++)
            sendto(talker, bytes, PACKET, 0, (struct sockaddr *)&server_at, sizeof server_at);
        if (!came)
            usleep(100);
    }
    return all;
}

/* When the kernel received the next datagram, in seconds; 0 where there is none. */
static double received(int s, uint8_t *bytes)
{
    char room[128];
    struct iovec part = { bytes, PACKET };
    struct msghdr m = { .msg_iov = &part, .msg_iovlen = 1, .msg_control = room, .msg_controllen = sizeof room };
    struct timespec at;
    if (recvmsg(s, &m, MSG_DONTWAIT) != PACKET)
        return 0;
    memcpy(&at, CMSG_DATA(CMSG_FIRSTHDR(&m)), sizeof at);
    return at.tv_sec + at.tv_nsec / 1e9;
}

static int by_size(const void *a, const void *b)
{
    double x = *(const double *)a, y = *(const double *)b;
    return (x > y) - (x < y);
}

static double wall(void)
{
    struct timespec t;
    clock_gettime(CLOCK_REALTIME, &t);
    return t.tv_sec + t.tv_nsec / 1e9;
}

/* The talker and all listeners where it talks in real time. */
static void talk_paced(double seconds)
{
    uint8_t bytes[PACKET] = { 'M', '1', '7', ' ' };
    int talker = socket(AF_INET, SOCK_DGRAM, 0), on = 1;
    unsigned long many = seconds * 1000 / PACE_MS, count = 0;
    double *late = calloc(many * listeners + 1, sizeof *late);
    for (int i = 0; i < listeners; i++)
        setsockopt(listener[i], SOL_SOCKET, SO_TIMESTAMPNS, &on, sizeof on);
    for (unsigned long n = 0; n < many; n++) {
        double left = wall(), at;
        sendto(talker, bytes, PACKET, 0, (struct sockaddr *)&server_at, sizeof server_at);
        usleep(PACE_MS * 1000);
        for (int i = 0; i < listeners; i++)
            while ((at = received(listener[i], bytes)) > 0 && count < many * listeners)
                late[count++] = (at - left) * 1e6;
    }
    qsort(late, count, sizeof *late, by_size);
    printf("%.1f %.1f\n", late[count / 2], late[count - count / 100 - (count > 0)]);
}

int main(int argc, char **argv)
{
    void *(*jobs[])(void *) = { receives, works, sends }, *(*alone[])(void *) = { in_one };
    int three = argc >= 4 && atoi(argv[1]) > 1, count = three ? 3 : 1, paced = argc == 5;
    pthread_t thread[3];
    double seconds = argc >= 4 ? atof(argv[3]) : 0;
    early = argc >= 4 && atoi(argv[1]) == 4;
    listeners = argc >= 4 ? atoi(argv[2]) : 0;
    if (listeners < 1 || listeners > MOST || seconds <= 0)
        return fprintf(stderr, "usage: relay 1|3|4 LISTENERS SECONDS [paced]\n"), 2;
    server = bound(&server_at);
    make(&inbox, INBOX);
    for (int i = 0; i < listeners; i++) {
        listener[i] = bound(&listener_at[i]);
        make(&queue[i], QUEUE);
    }
    for (int i = 0; i < count; i++)
        pthread_create(&thread[i], 0, (three ? jobs : alone)[i], 0);
    unsigned long all = 0;
    if (paced)
        talk_paced(seconds);
    else
        all = talk(seconds);
    atomic_store(&stopped, 1);
    for (int i = 0; i < count; i++)
        pthread_join(thread[i], 0);
    if (!paced)
        printf("%.0f %.3f\n", all / seconds, all ? (double)atomic_load(&used_us) / all : 0);
    return 0;
}
