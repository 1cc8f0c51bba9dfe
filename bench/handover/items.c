/* What a hand-over of an item costs, without a socket. `items HOW LISTENERS PACKETS`: a receiver hands PACKETS packets to three
 * workers in turn, each worker puts an item of 112 bytes into the queues of its LISTENERS listeners, and a sender takes one of
 * each marked queue in turn and spells its frame, with its CRC, unless it is the one that was spelled last. HOW is one of
 *   one    all of it in one thread, which queues nothing
 *   ring   five threads; each queue is a ring of one producer and one consumer, by acquire and release
 *   kit    five threads; each slot of a queue has a stamp, a place is claimed by a compare-exchange, a slot that is taken is
 *          emptied, and each step is sequentially consistent: the steps of the queue that lanes are made of
 * Who finds a queue full or empty tries a while, then lets other threads run. It prints nanoseconds an item.
 * `items ticks MODULES COUNT`: a thread puts each of COUNT items into the queues of all MODULES, by the same steps as `kit`, and
 * another takes what a queue holds once that is half of its room. It prints nanoseconds for each time an item was put. */
#define _GNU_SOURCE
#include <pthread.h>
#include <sched.h>
#include <stdatomic.h>
#include <stdint.h>
#include <stdio.h>
#include <stdlib.h>
#include <string.h>
#include <time.h>

enum { ITEM = 112, FRAME = 54, WORKERS = 3, MOST = 16, INBOX = 256, QUEUE = 64, MODULES = 26 };

struct item {
    uint64_t number;
    uint8_t rest[ITEM - 8];
};

struct slot {
    atomic_ulong stamp;
    uint64_t is_there;
    struct item item;
};

struct queue {
    _Alignas(128) atomic_ulong tail;
    _Alignas(128) atomic_ulong head;
    unsigned long room;
    struct slot *slots;
};

static int kit, ticks, listeners;
static unsigned long packets;
static struct queue inbox[MODULES], queue[WORKERS][MOST];
static _Alignas(128) atomic_ulong marks;
static atomic_int working = WORKERS;
static uint16_t table[256];
static unsigned long items;
static uint64_t sum;

static void make(struct queue *q, unsigned long room)
{
    q->room = room;
    q->slots = aligned_alloc(128, (room * sizeof *q->slots + 127) / 128 * 128);
    memset(q->slots, 0, room * sizeof *q->slots);
    for (unsigned long i = 0; i < room; i++)
        q->slots[i].stamp = i;
}

static int push(struct queue *q, const struct item *it)
{
    if (!kit) {
        unsigned long at = atomic_load_explicit(&q->tail, memory_order_relaxed);
        if (at - atomic_load_explicit(&q->head, memory_order_acquire) == q->room)
            return 0;
        q->slots[at % q->room].item = *it;
        atomic_store_explicit(&q->tail, at + 1, memory_order_release);
        return 1;
    }
    for (;;) {
        unsigned long at = atomic_load(&q->tail), stamp;
        struct slot *s = &q->slots[at % q->room];
        if ((stamp = atomic_load(&s->stamp)) == at) {
            if (!atomic_compare_exchange_strong(&q->tail, &at, at + 1))
                continue;
            s->item = *it;
            s->is_there = 1;
            atomic_exchange(&s->stamp, at + 1);
            return 1;
        }
        if (atomic_load(&q->head) + q->room == at)
            return 0;
        __builtin_ia32_pause();
    }
}

static int pop(struct queue *q, struct item *it)
{
    if (!kit) {
        unsigned long at = atomic_load_explicit(&q->head, memory_order_relaxed);
        if (at == atomic_load_explicit(&q->tail, memory_order_acquire))
            return 0;
        *it = q->slots[at % q->room].item;
        atomic_store_explicit(&q->head, at + 1, memory_order_release);
        return 1;
    }
    for (;;) {
        unsigned long at = atomic_load(&q->head), stamp;
        struct slot *s = &q->slots[at % q->room];
        if ((stamp = atomic_load(&s->stamp)) == at + 1) {
            if (!atomic_compare_exchange_strong(&q->head, &at, at + 1))
                continue;
            *it = s->item;
            memset(&s->item, 0, sizeof s->item);
            s->is_there = 0;
            atomic_exchange(&s->stamp, at + q->room);
            return 1;
        }
        if (atomic_load(&q->tail) == at)
            return 0;
        __builtin_ia32_pause();
    }
}

static void wait(unsigned *rounds)
{
    if (*rounds < 7)
        for (int i = 0; i < 1 << *rounds; i++)
            __builtin_ia32_pause();
    else
        sched_yield();
    ++*rounds;
}

static void push_waiting(struct queue *q, const struct item *it)
{
    for (unsigned rounds = 0; !push(q, it);)
        wait(&rounds);
}

static void spell(const struct item *it, uint64_t *last)
{
    uint8_t frame[FRAME];
    uint16_t crc = 0xffff;
    if (it->number == *last)
        return;
    memcpy(frame, it, FRAME);
    for (int i = 0; i < FRAME - 2; i++)
        crc = crc << 8 ^ table[(crc >> 8 ^ frame[i]) & 255];
    sum += crc;
    *last = it->number;
}

static void *receives(void *none)
{
    struct item it = { 0 };
    for (unsigned long n = 0; n < packets; n++) {
        it.number = n + 1;
        push_waiting(&inbox[n % WORKERS], &it);
    }
    it.number = 0;
    for (int w = 0; w < WORKERS; w++)
        push_waiting(&inbox[w], &it);
    return none;
}

static void *works(void *which)
{
    long w = (long)which;
    struct item it;
    for (unsigned rounds = 0;;) {
        if (!pop(&inbox[w], &it)) {
            wait(&rounds);
            continue;
        }
        rounds = 0;
        if (!it.number)
            break;
        for (int i = 0; i < listeners; i++) {
            unsigned long mark = 1ul << (w * MOST + i);
            push_waiting(&queue[w][i], &it);
            if (!(atomic_load(&marks) & mark))
                atomic_fetch_or(&marks, mark);
        }
    }
    atomic_fetch_sub(&working, 1);
    return 0;
}

static void *sends(void *none)
{
    uint64_t last = 0, there = 0;
    struct item it;
    for (unsigned rounds = 0;;) {
        int over = !atomic_load(&working), did = 0;
        if (atomic_load(&marks))
            there |= atomic_exchange(&marks, 0);
        for (uint64_t left = there; left; left &= left - 1) {
            int bit = __builtin_ctzl(left);
            if (pop(&queue[bit / MOST][bit % MOST], &it)) {
                spell(&it, &last);
                items++;
                did = 1;
            } else {
                there &= ~(1ul << bit);
            }
        }
        if (did)
            rounds = 0;
        else if (over)
            return none;
        else
            wait(&rounds);
    }
}

static void in_one(void)
{
    uint64_t last = 0;
    struct item it = { 0 };
    for (unsigned long n = 0; n < packets; n++) {
        it.number = n + 1;
        for (int i = 0; i < listeners; i++, items++)
            spell(&it, &last);
    }
}

static void *puts_ticks(void *none)
{
    struct item it = { 0 };
    for (unsigned long n = 0; n < packets; n++)
        for (int m = 0; m < listeners; m++, items++)
            push_waiting(&inbox[m], &it);
    atomic_store(&working, 0);
    return none;
}

static void *takes_ticks(void *none)
{
    struct item it;
    for (int over = 0; !over;) {
        over = !atomic_load(&working);
        for (int m = 0; m < listeners; m++)
            if (over || atomic_load(&inbox[m].tail) - atomic_load(&inbox[m].head) >= INBOX / 2)
                while (pop(&inbox[m], &it))
                    ;
        sched_yield();
    }
    return none;
}

int main(int argc, char **argv)
{
    pthread_t thread[WORKERS + 2];
    struct timespec a, b;
    listeners = argc == 4 ? atoi(argv[2]) : 0;
    packets = argc == 4 ? strtoul(argv[3], 0, 10) : 0;
    ticks = argc == 4 && !strcmp(argv[1], "ticks");
    if (listeners < 1 || listeners > (ticks ? MODULES : MOST) || !packets
        || (!ticks && strcmp(argv[1], "one") && strcmp(argv[1], "ring") && strcmp(argv[1], "kit")))
        return fprintf(stderr, "usage: items one|ring|kit LISTENERS PACKETS, or items ticks MODULES COUNT\n"), 2;
    kit = ticks || argv[1][0] == 'k';
    for (int i = 0; i < 256; i++) {
        uint16_t c = i << 8;
        for (int k = 0; k < 8; k++)
            c = c & 0x8000 ? c << 1 ^ 0x5935 : c << 1;
        table[i] = c;
    }
    for (int m = 0; m < MODULES; m++)
        make(&inbox[m], INBOX);
    for (int w = 0; w < WORKERS; w++)
        for (int i = 0; i < listeners && i < MOST; i++)
            make(&queue[w][i], QUEUE);
    clock_gettime(CLOCK_MONOTONIC, &a);
    if (argv[1][0] == 'o') {
        in_one();
    } else if (ticks) {
        pthread_create(&thread[0], 0, puts_ticks, 0);
        pthread_create(&thread[1], 0, takes_ticks, 0);
        for (int i = 0; i < 2; i++)
            pthread_join(thread[i], 0);
    } else {
        pthread_create(&thread[0], 0, receives, 0);
        for (long w = 0; w < WORKERS; w++)
            pthread_create(&thread[1 + w], 0, works, (void *)w);
        pthread_create(&thread[WORKERS + 1], 0, sends, 0);
        for (int i = 0; i < WORKERS + 2; i++)
            pthread_join(thread[i], 0);
    }
    clock_gettime(CLOCK_MONOTONIC, &b);
    printf("%.0f\n", ((b.tv_sec - a.tv_sec) * 1e9 + b.tv_nsec - a.tv_nsec) / items);
    return sum == 1;
}
