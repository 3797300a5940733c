/* A first host: a write and a read of a register whose parties are all in this process, at n = 4 and at n = 10. On the way every ninth frame is lost
 * and sent again later, and every seventh comes twice. */
#include <stdio.h>
#include <stdlib.h>
#include <string.h>
#include "semduoli.h"

enum { SIZE = 12, CLIENTS = 2, WAITING = 2048 };

static struct { uint8_t state[SEMDUOLI_SERVER], area[SEMDUOLI_AREA], initial[SIZE]; } servers[SEMDUOLI_SERVERS_MOST + 1];
static struct { uint8_t state[SEMDUOLI_CLIENT], rows[SEMDUOLI_ROWS]; } clients[CLIENTS + 1];
static struct parcel { uint8_t from[SEMDUOLI_RECEIVER], to[SEMDUOLI_RECEIVER], frame[SEMDUOLI_FRAME_MOST]; size_t length; } waiting[WAITING];
static size_t n, t, k, taken, added, refused;
static uint8_t out[SEMDUOLI_OUT_MOST], to[SEMDUOLI_TO_MOST], result[SIZE], stamp[SEMDUOLI_STAMP];
static const uint8_t *value;

/* puts the frames of an answer at the end of those that wait, but for reports to clients that this register does not have */
static void send_frames(uint8_t sender_class, uint8_t sender, uint64_t answer)
{
    const uint8_t *frame = out;
    if (added + SEMDUOLI_COUNT(answer) - taken > WAITING) {
        fprintf(stderr, "more than %d frames wait\n", WAITING);
        exit(1);
    }
    for (unsigned i = 0; i < SEMDUOLI_COUNT(answer); i++, frame += semduoli_frame_length(frame)) {
        const uint8_t *receiver = to + SEMDUOLI_RECEIVER * i;
        if (receiver[0] == SEMDUOLI_CLASS_CLIENT && receiver[1] > CLIENTS)
            continue;
        struct parcel *p = &waiting[added++ % WAITING];
        p->from[0] = sender_class;
        p->from[1] = sender;
        memcpy(p->to, receiver, SEMDUOLI_RECEIVER);
        p->length = semduoli_frame_length(frame);
        memcpy(p->frame, frame, p->length);
    }
}

static uint64_t hand_in(const struct parcel *p)
{
    size_t me = p->to[1];
    uint64_t answer =
        p->to[0] == SEMDUOLI_CLASS_SERVER
            ? semduoli_server_deliver(n, t, k, SIZE, me, p->from[0], p->from[1], p->frame, p->length, servers[me].area, SEMDUOLI_AREA,
                                      servers[me].initial, SIZE, servers[me].state, SEMDUOLI_SERVER, out, sizeof out, to, sizeof to)
            : semduoli_client_deliver(n, t, k, SIZE, me, p->from[0], p->from[1], value, SIZE, p->frame, p->length, clients[me].rows, SEMDUOLI_ROWS,
                                      result, SIZE, stamp, SEMDUOLI_STAMP, clients[me].state, SEMDUOLI_CLIENT, out, sizeof out, to, sizeof to);
    send_frames(p->to[0], p->to[1], answer);
    return answer;
}

static void carry(void)
{
    while (taken != added) {
        struct parcel p = waiting[taken % WAITING];
        if (++taken % 9 == 0) { /* lost, and sent again */
            waiting[added++ % WAITING] = p; /* there is room: it was just taken */
            continue;
        }
        uint64_t answer = hand_in(&p);
        if (SEMDUOLI_REFUSAL(answer) == SEMDUOLI_REFUSED_AHEAD)
            waiting[added++ % WAITING] = p;
        if (SEMDUOLI_OUTCOME(answer) == SEMDUOLI_WRITTEN)
            printf("client %u has written\n", p.to[1]);
        if (SEMDUOLI_OUTCOME(answer) == SEMDUOLI_VALUE)
            printf("client %u has read \"%.*s\", stamp (%llu, %u, %u)\n", p.to[1], SIZE, (const char *)result,
                   (unsigned long long)semduoli_stamp_time(stamp), semduoli_stamp_writer(stamp), (unsigned)semduoli_stamp_sequence(stamp));
        if (taken % 7 == 0) /* repeated */
            refused += SEMDUOLI_REFUSAL(hand_in(&p)) == SEMDUOLI_REFUSED_STALE;
    }
}

/* a client begins the write of the value, or a read, and all frames are carried; whether it has ended */
static int operate(uint8_t me, int writes)
{
    uint8_t *state = clients[me].state;
    uint64_t answer = writes ? semduoli_begin_write(n, t, k, SIZE, me, state, SEMDUOLI_CLIENT, value, SIZE, out, sizeof out, to, sizeof to)
                             : semduoli_begin_read(n, t, k, SIZE, me, state, SEMDUOLI_CLIENT, out, sizeof out, to, sizeof to);
    if (SEMDUOLI_REFUSAL(answer)) {
        printf("client %u may not begin: refused by %u\n", me, SEMDUOLI_REFUSAL(answer));
        return 0;
    }
    send_frames(SEMDUOLI_CLASS_CLIENT, me, answer);
    carry();
    return SEMDUOLI_OUTCOME(semduoli_client_open(state, SEMDUOLI_CLIENT)) == SEMDUOLI_OPEN_NOTHING;
}

/* a write by client 1 and a read by client 2; whether both ended */
static int run(size_t servers_, size_t false_, size_t blocks)
{
    const uint8_t *initial = (const uint8_t *)"nothing yet.";
    uint64_t bad = 0;
    int ended;
    n = servers_, t = false_, k = blocks, taken = added = refused = 0;
    value = (const uint8_t *)"92 of 100 up";
    for (size_t j = 1; j <= n; j++)
        bad |= semduoli_server_fresh(n, t, k, SIZE, j, initial, SIZE, servers[j].area, SEMDUOLI_AREA, servers[j].initial, SIZE, servers[j].state,
                                     SEMDUOLI_SERVER);
    for (size_t c = 1; c <= CLIENTS; c++)
        bad |= semduoli_client_fresh(clients[c].state, SEMDUOLI_CLIENT);
    printf("n = %u, t = %u, k = %u: made afresh, %u\n", (unsigned)n, (unsigned)t, (unsigned)k, (unsigned)bad);
    ended = !bad && operate(1, 1) && operate(2, 0);
    printf("frames carried: %u, lost: %u, repeats refused as old: %u\n", (unsigned)taken, (unsigned)(taken / 9), (unsigned)refused);
    return ended;
}

int main(void)
{
    if (semduoli_version() != SEMDUOLI_VERSION)
        return 1;
    return !(run(4, 1, 2) && run(10, 3, 4));
}
