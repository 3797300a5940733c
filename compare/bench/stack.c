/* stack: the stack that the library's calls use, as a table for docs/PERFORMANCE.md. A whole write and then a whole read, all parties honest and
 * frames in the order sent, what a host asks of each frame, and what server 1 was handed, played back and handed to a fresh server again; then a
 * report that frees eight writes in one step, with eight clients listening. Each call is made on a thread of its own, whose stack is painted before;
 * the lowest byte that is no longer paint says how deep the call went. What an empty thread uses is subtracted; it ends some 70 bytes deeper than it
 * begins, and so much is missing from a figure (0 is a call that goes no deeper), while the frame that makes the call is in it. Bytes below the
 * lowest written one that a call reserves are not seen, nor are paths that this run does not take. Link with -z now: else the first calls of memcpy
 * would count the linker's work. */
#define _XOPEN_SOURCE 700
#include <pthread.h>
#include <stdio.h>
#include <stdlib.h>
#include <string.h>
#include "semduoli.h"

/* the larger of the two sets of parameters, for the areas */
enum { N = 10, K = 4, SIZE = 256 };

static const struct set {
    size_t n, t, k, size;
} sets[2] = {{N, 3, K, SIZE}, {4, 1, 2, 64}};
static struct set p; /* that is being measured */

/* the rows of the table; rows 1 to 13 are a server's deliveries by the frame's kind, of which 2, 9 and 11 go to clients and 6 to 8 are retired */
enum { SERVER_FRESH = 0, CLIENT_FRESH = 14, BEGIN_READ, BEGIN_WRITE, CLIENT_DELIVER, PLAYBACK, SERVER_RESUME, ENTRY_WRITE, ENTRY_READ, SERVER_BLOCK,
       FRAME_HEADER, FRAME_TIME, TABLE };

static const char *const names[TABLE] = {
    "server_fresh", "server_deliver, kind 1", NULL, "server_deliver, kind 3", "server_deliver, kind 4", "server_deliver, kind 5",
    NULL, NULL, NULL, NULL, "server_deliver, kind 10", NULL,
    "server_deliver, kind 12", "server_deliver, kind 13", "client_fresh", "begin_read", "begin_write", "client_deliver", "playback", "server_resume",
    "entry_write", "entry_read", "server_block", "frame_header", "frame_time"};
static size_t deepest[TABLE];
static int made[TABLE];

/* ---- the parties: servers 1 to n, client 1, and the frames under way, first in, first out */

enum { ME = 1, WAITING = 1024, ENTRIES = 64 };

struct server {
    uint8_t state[SEMDUOLI_SERVER], area[SEMDUOLI_AREA], initial[SIZE];
};

struct parcel {
    uint8_t from[2], to[2], frame[SEMDUOLI_FRAME(N, K, SIZE)];
    size_t length;
};

static struct server servers[N + 1];
static uint8_t state[SEMDUOLI_CLIENT], rows[SEMDUOLI_ROWS], first[SIZE], value[SIZE], result[SIZE], stamp[SEMDUOLI_STAMP];
static uint8_t out[SEMDUOLI_SERVER_OUT(N, K, SIZE) + SEMDUOLI_CLIENT_OUT(N, K, SIZE)], to[SEMDUOLI_SERVER_TO(N) + SEMDUOLI_CLIENT_TO(N)];
static struct parcel waiting[WAITING];
static size_t taken, added;
/* what server 1 was handed, as a trace, and the server that it gives */
static uint8_t trace[ENTRIES * SEMDUOLI_ENTRY(SEMDUOLI_FRAME(N, K, SIZE))], told[SEMDUOLI_PLAYBACK_OUT(N, K, SIZE, ENTRIES)];
static size_t trace_length;
static struct server played;
static uint64_t answer; /* of the last call */

static void fail(const char *why)
{
    fprintf(stderr, "stack: n = %zu: %s\n", p.n, why);
    exit(1);
}

/* ---- the calls, each as the whole of a thread: its areas are not on the stack */

static void *nothing(void *unused)
{
    return unused;
}

static void *server_fresh(void *number)
{
    const uint8_t *me = number;
    struct server *s = &servers[*me];
    answer = semduoli_server_fresh(p.n, p.t, p.k, p.size, *me, first, p.size, s->area, sizeof s->area, s->initial, sizeof s->initial, s->state,
                                   sizeof s->state);
    return NULL;
}

static void *client_fresh(void *unused)
{
    answer = semduoli_client_fresh(state, sizeof state);
    return unused;
}

/* begins the write of a value, or a read */
static void *begin(void *written)
{
    answer = written ? semduoli_begin_write(p.n, p.t, p.k, p.size, ME, state, sizeof state, value, p.size, out, sizeof out, to, sizeof to)
                     : semduoli_begin_read(p.n, p.t, p.k, p.size, ME, state, sizeof state, out, sizeof out, to, sizeof to);
    return NULL;
}

static void *server_deliver(void *parcel)
{
    const struct parcel *f = parcel;
    struct server *s = &servers[f->to[1]];
    answer = semduoli_server_deliver(p.n, p.t, p.k, p.size, f->to[1], f->from[0], f->from[1], f->frame, f->length, s->area, sizeof s->area,
                                     s->initial, sizeof s->initial, s->state, sizeof s->state, out, sizeof out, to, sizeof to);
    return NULL;
}

static void *client_deliver(void *parcel)
{
    const struct parcel *f = parcel;
    answer = semduoli_client_deliver(p.n, p.t, p.k, p.size, ME, f->from[0], f->from[1], value, p.size, f->frame, f->length, rows, sizeof rows, result,
                                     sizeof result, stamp, sizeof stamp, state, sizeof state, out, sizeof out, to, sizeof to);
    return NULL;
}

static void *playback(void *unused)
{
    answer = semduoli_playback(p.n, p.t, p.k, p.size, 1, first, p.size, trace, trace_length, played.area, sizeof played.area, played.initial,
                               sizeof played.initial, played.state, sizeof played.state, told, sizeof told);
    return unused;
}

static void *server_resume(void *unused)
{
    answer = semduoli_server_resume(p.n, p.t, p.k, p.size, 1, trace, trace_length, played.area, sizeof played.area, played.initial,
                                    sizeof played.initial, played.state, sizeof played.state, out, sizeof out, to, sizeof to);
    return unused;
}

/* puts a frame that was handed to server 1 at the end of its trace */
static void *entry_write(void *parcel)
{
    const struct parcel *f = parcel;
    answer = semduoli_entry_write(f->from[0], f->from[1], f->frame, f->length, trace + trace_length, sizeof trace - trace_length);
    return NULL;
}

static void *entry_read(void *unused)
{
    answer = semduoli_entry_read(trace, trace_length);
    return unused;
}

static void *server_block(void *unused)
{
    answer = semduoli_server_block(p.n, p.t, p.k, p.size, servers[1].area, sizeof servers[1].area, servers[1].initial, sizeof servers[1].initial,
                                   servers[1].state, sizeof servers[1].state, result, sizeof result);
    return unused;
}

static void *frame_header(void *parcel)
{
    const struct parcel *f = parcel;
    answer = semduoli_frame_header(p.n, p.t, p.k, p.size, f->frame, f->length);
    return NULL;
}

static void *frame_time(void *parcel)
{
    const struct parcel *f = parcel;
    answer = semduoli_frame_time(p.n, p.t, p.k, p.size, f->frame, f->length, stamp, sizeof stamp);
    return NULL;
}

/* ---- measuring */

enum { STACK = 256 * 1024, PAINT = 0xa5 };

static _Alignas(4096) uint8_t stack[STACK];

/* how many bytes of its stack a thread uses that makes one call */
static size_t used(void *(*call)(void *), void *of)
{
    pthread_attr_t attributes;
    pthread_t thread;
    size_t at = 0;
    memset(stack, PAINT, STACK);
    if (pthread_attr_init(&attributes) || pthread_attr_setstack(&attributes, stack, STACK) || pthread_create(&thread, &attributes, call, of) ||
        pthread_join(thread, NULL) || pthread_attr_destroy(&attributes))
        fail("no thread");
    while (stack[at] == PAINT)
        at++;
    return STACK - at;
}

/* makes a call, and keeps its use if it is the deepest of its row */
static void measure(size_t row, void *(*call)(void *), void *of)
{
    size_t empty = used(nothing, NULL), whole = used(call, of), own = whole > empty ? whole - empty : 0;
    if (own > deepest[row])
        deepest[row] = own;
    made[row] = 1;
}

/* ---- a run */

/* puts the frames that the last call sent after those that wait, but for reports to clients that are not there */
static void add_sent(const uint8_t *sender)
{
    size_t at = 0, length;
    for (unsigned i = 0; i < SEMDUOLI_COUNT(answer); i++, at += length) {
        length = semduoli_frame_length(out + at);
        if (to[2 * i] == SEMDUOLI_CLASS_CLIENT && to[2 * i + 1] != ME)
            continue;
        struct parcel *f = &waiting[added++ % WAITING];
        if (added - taken > WAITING)
            fail("too many frames wait");
        memcpy(f->from, sender, 2);
        memcpy(f->to, to + 2 * i, 2);
        f->length = length;
        memcpy(f->frame, out + at, length);
    }
}

/* what a frame says; the answer is its header */
static void look_at(struct parcel *f)
{
    measure(FRAME_TIME, frame_time, f);
    measure(FRAME_HEADER, frame_header, f);
    if (SEMDUOLI_REFUSAL(answer))
        fail("a frame does not open");
}

/* an operation of the client, and the delivery of everything that it causes; it must end so */
static void operate(size_t row, void *written, unsigned end)
{
    int ended = 0;
    measure(row, begin, written);
    if (SEMDUOLI_REFUSAL(answer))
        fail("the operation is refused");
    add_sent((const uint8_t[]){SEMDUOLI_CLASS_CLIENT, ME});
    while (taken != added) {
        struct parcel f = waiting[taken++ % WAITING];
        int to_server = f.to[0] == SEMDUOLI_CLASS_SERVER;
        if (to_server && f.to[1] == 1) {
            measure(ENTRY_WRITE, entry_write, &f);
            if (SEMDUOLI_REFUSAL(answer))
                fail("too many frames for a trace");
            trace_length += SEMDUOLI_ENTRY_WRITTEN(answer);
        }
        look_at(&f);
        measure(to_server ? SEMDUOLI_HEADER_KIND(answer) : CLIENT_DELIVER, to_server ? server_deliver : client_deliver, &f);
        if (SEMDUOLI_REFUSAL(answer) == SEMDUOLI_REFUSED_AHEAD)
            waiting[added++ % WAITING] = f;
        ended |= !to_server && SEMDUOLI_OUTCOME(answer) == end;
        add_sent(f.to);
    }
    if (!ended)
        fail("the operation has not ended");
}

static void whole_run(void)
{
    for (size_t i = 0; i < p.size; i++) {
        first[i] = (uint8_t)(7 * i + 1);
        value[i] = (uint8_t)(11 * i + 5);
        result[i] = 0;
    }
    for (uint8_t j = 1; j <= p.n; j++) {
        measure(SERVER_FRESH, server_fresh, &j);
        if (answer)
            fail("a server is refused");
    }
    trace_length = 0;
    measure(CLIENT_FRESH, client_fresh, NULL);
    operate(BEGIN_WRITE, value, SEMDUOLI_WRITTEN);
    operate(BEGIN_READ, NULL, SEMDUOLI_VALUE);
    if (memcmp(result, value, p.size))
        fail("the value read is not the value written");
    measure(PLAYBACK, playback, NULL);
    if (SEMDUOLI_REFUSAL(answer) || SEMDUOLI_OUTCOME(answer) || memcmp(played.state, servers[1].state, SEMDUOLI_SERVER))
        fail("the trace played back gives another server");
    answer = semduoli_server_fresh(p.n, p.t, p.k, p.size, 1, first, p.size, played.area, sizeof played.area, played.initial,
                                   sizeof played.initial, played.state, sizeof played.state);
    if (answer)
        fail("a server is refused");
    measure(SERVER_RESUME, server_resume, NULL);
    if (SEMDUOLI_REFUSAL(answer) || SEMDUOLI_OUTCOME(answer) || memcmp(played.state, servers[1].state, SEMDUOLI_SERVER))
        fail("the trace handed to a fresh server gives another one");
    measure(ENTRY_READ, entry_read, NULL);
    if (SEMDUOLI_OUTCOME(answer) != SEMDUOLI_TRACE_ENTRY)
        fail("the trace has no entry");
    measure(SERVER_BLOCK, server_block, NULL);
    if (answer)
        fail("a server has no block");
}

/* ---- the step that does most: a report frees eight writes, and eight clients listen */

enum { CLIENTS = 8, HEADER = 9 };

/* a frame to server 1 of a client's operation 1, with the first bytes of body */
static struct parcel frame_to(uint8_t class, uint8_t number, uint8_t kind, uint8_t client, const uint8_t *body, size_t length)
{
    struct parcel f = {.from = {class, number}, .to = {SEMDUOLI_CLASS_SERVER, 1}, .length = HEADER + length};
    const size_t counted = f.length - 2;
    const uint8_t header[HEADER] = {(uint8_t)(counted / 256), (uint8_t)(counted % 256), 1, kind, client, 0, 0, 0, 1};
    memcpy(f.frame, header, HEADER);
    memcpy(f.frame + HEADER, body, length);
    return f;
}

static void hand_in(struct parcel f)
{
    look_at(&f);
    measure(SEMDUOLI_HEADER_KIND(answer), server_deliver, &f);
    if (SEMDUOLI_REFUSAL(answer))
        fail("a frame is refused");
}

/* time 1, the digests of the value's blocks, and room for a block; the blocks */
static void offer_made(uint8_t *body, uint8_t *blocks)
{
    const size_t block = SEMDUOLI_BLOCK(p.k, p.size);
    body[SEMDUOLI_TIME - 1] = 1;
    if (semduoli_encode(p.n, p.t, p.k, p.size, value, p.size, blocks, p.n * block))
        fail("the value has no blocks");
    for (size_t j = 0; j < p.n; j++)
        if (semduoli_digest(blocks + j * block, block, body + SEMDUOLI_TIME + j * SEMDUOLI_DIGEST, SEMDUOLI_DIGEST))
            fail("a block has no digest");
}

static void full_step(void)
{
    static uint8_t body[SEMDUOLI_FRAME(N, K, SIZE)], blocks[SEMDUOLI_BLOCKS(N, K, SIZE)];
    const size_t block = SEMDUOLI_BLOCK(p.k, p.size), at = SEMDUOLI_TIME + p.n * SEMDUOLI_DIGEST;
    uint8_t me = 1;
    memset(body, 0, sizeof body);
    offer_made(body, blocks);
    measure(SERVER_FRESH, server_fresh, &me);
    for (uint8_t c = 1; c <= CLIENTS; c++) {
        hand_in(frame_to(SEMDUOLI_CLASS_CLIENT, c, 10, c, body, 0));
        for (uint8_t j = 1; j <= p.n; j++) {
            memcpy(body + at, blocks + (j - 1) * block, block);
            hand_in(frame_to(SEMDUOLI_CLASS_SERVER, j, 5, c, body, at + block));
        }
    }
    for (uint8_t j = 1; j <= p.t + 1; j++)
        hand_in(frame_to(SEMDUOLI_CLASS_SERVER, j, 13, 1, body, SEMDUOLI_TIME));
    /* of the eight stamps, which rise, the first alone raises the time; each is told to all listeners, and acknowledged */
    if (SEMDUOLI_COUNT(answer) != CLIENTS * (CLIENTS + 1) + p.n + CLIENTS)
        fail("the report does not free eight writes");
}

int main(void)
{
    printf("\n### Stack");
    for (size_t i = 0; i < 2; i++) {
        p = sets[i];
        printf("%s n = %zu, t = %zu, k = %zu, L = %zu", i ? " and" : ",", p.n, p.t, p.k, p.size);
        whole_run();
        full_step();
    }
    printf("\n\n| call | stack, bytes |\n|---|---|\n");
    for (size_t row = 0; row < TABLE; row++) {
        if (names[row] && !made[row])
            fail("a row without a call");
        if (names[row])
            printf("| %s | %zu |\n", names[row], deepest[row]);
    }
    return 0;
}
