/* A host in C that makes every call: a digest, blocks, histories, an index of accession numbers, frames and entries of a trace, a client that begins a
 * write, and a whole run of a register whose parties are all in this process. */
#include <stdio.h>
#include <string.h>
#include "semduoli.h"

enum { N = 4, T = 1, K = 2, SIZE = 5, B = SEMDUOLI_BLOCK(K, SIZE) };

static void show(const char *name, const uint8_t *bytes, size_t length)
{
    printf("%s", name);
    for (size_t i = 0; i < length; i++)
        printf(" %02x", bytes[i]);
    printf("\n");
}

/* whether a number has the type size_t, or one that counts like it */
#define IS_SIZE(x) (sizeof(x) == sizeof(size_t) && (x) * 0 - 1 > 0)

/* Sizes are size_t whatever is passed: with numbers in int the last one would be beyond the largest int. */
static void show_sizes(void)
{
    int n = 10, k = 1, size = 256, entries = 200000;
    int all = IS_SIZE(SEMDUOLI_BLOCK(k, size)) && IS_SIZE(SEMDUOLI_BLOCKS(n, k, size)) && IS_SIZE(SEMDUOLI_INITIAL(k, size)) &&
              IS_SIZE(SEMDUOLI_FRAME(n, k, size)) && IS_SIZE(SEMDUOLI_FRAME_MOST) && IS_SIZE(SEMDUOLI_SERVER_OUT(n, k, size)) &&
              IS_SIZE(SEMDUOLI_SERVER_TO(n)) && IS_SIZE(SEMDUOLI_CLIENT_OUT(n, k, size)) && IS_SIZE(SEMDUOLI_CLIENT_TO(n)) &&
              IS_SIZE(SEMDUOLI_OUT_MOST) && IS_SIZE(SEMDUOLI_TO_MOST) && IS_SIZE(SEMDUOLI_SHEET(size)) && IS_SIZE(SEMDUOLI_DIGEST) &&
              IS_SIZE(SEMDUOLI_SERVER) && IS_SIZE(SEMDUOLI_CLIENT) && IS_SIZE(SEMDUOLI_AREA) && IS_SIZE(SEMDUOLI_ROWS) && IS_SIZE(SEMDUOLI_STAMP) &&
              IS_SIZE(SEMDUOLI_LINES) && IS_SIZE(SEMDUOLI_PAGE) && IS_SIZE(SEMDUOLI_INDEX) && IS_SIZE(SEMDUOLI_PLAYBACK_OUT(n, k, size, entries)) &&
              IS_SIZE(SEMDUOLI_TIME) && IS_SIZE(SEMDUOLI_ENTRY_HEAD) && IS_SIZE(SEMDUOLI_ENTRY(size)) && IS_SIZE(SEMDUOLI_ENTRY_FRAME_MOST) &&
              IS_SIZE(SEMDUOLI_RECEIVER) && IS_SIZE(SEMDUOLI_REPLY_HEAD) && IS_SIZE(SEMDUOLI_SERVER_FRAMES(n));
    printf("%sout of %d entries played back: %llu bytes\n", all ? "" : "a size is no size_t; ", entries,
           (unsigned long long)SEMDUOLI_PLAYBACK_OUT(n, k, size, entries));
}

/* the frames of an answer, each with its receiver */
static void show_sent(uint64_t answer, const uint8_t *out, const uint8_t *to)
{
    size_t at = 0;
    for (unsigned i = 0; i < SEMDUOLI_COUNT(answer); i++) {
        size_t length = semduoli_frame_length(out + at);
        const uint8_t *receiver = to + SEMDUOLI_RECEIVER * i;
        printf("to %s %u", receiver[0] == SEMDUOLI_CLASS_SERVER ? "server" : "client", receiver[1]);
        show(":", out + at, length);
        at += length;
    }
}

/* what a frame says: its kind, client and sequence, and the time that it carries */
static void show_frame(const char *name, const uint8_t *frame, size_t length)
{
    uint8_t time[SEMDUOLI_TIME];
    uint64_t header = semduoli_frame_header(N, T, K, SIZE, frame, length);
    uint64_t timed = semduoli_frame_time(N, T, K, SIZE, frame, length, time, sizeof time);
    printf("%s: refusal %u, kind %u, client %u, sequence %u", name, SEMDUOLI_REFUSAL(header), SEMDUOLI_HEADER_KIND(header), SEMDUOLI_HEADER_CLIENT(header),
           (unsigned)SEMDUOLI_HEADER_SEQUENCE(header));
    if (!SEMDUOLI_REFUSAL(timed) && SEMDUOLI_OUTCOME(timed) == SEMDUOLI_HAS_TIME)
        printf(", time %llu", (unsigned long long)semduoli_stamp_time(time));
    printf("\n");
}

static void ask_of_frames(void)
{
    const uint8_t stamp[] = {0, 15, 1, 2, 8, 0xff, 0xff, 0xff, 0xff, 0xff, 0xff, 0xff, 0xff, 0xff, 0xff, 0xff, 0xfe}, retired[] = {0, 7, 1, 6, 2, 0, 0, 0, 5};
    const uint8_t report[] = {0, 15, 1, 13, 2, 0, 0, 0, 5, 0, 0, 0, 0, 0, 0, 0, 9};
    uint8_t time[SEMDUOLI_TIME];
    show_frame("stamp", stamp, sizeof stamp);
    show_frame("stamp, cut", stamp, sizeof stamp - 1);
    show_frame("retired kind", retired, sizeof retired);
    show_frame("report", report, sizeof report);
    printf("time, area short: %u\n", (unsigned)semduoli_frame_time(N, T, K, SIZE, stamp, sizeof stamp, time, sizeof time - 1));
    printf("header, n = 3: %u\n", (unsigned)semduoli_frame_header(3, T, K, SIZE, stamp, sizeof stamp));
}

/* prints what is at the front of the first length bytes of a trace, and returns how many bytes it takes */
static size_t read_entry(const uint8_t *trace, size_t length)
{
    uint64_t answer = semduoli_entry_read(trace, length);
    if (SEMDUOLI_REFUSAL(answer))
        printf("entry: refusal %u\n", SEMDUOLI_REFUSAL(answer));
    else if (SEMDUOLI_OUTCOME(answer) == SEMDUOLI_TRACE_WHOLE)
        printf("entry: none left\n");
    else
        printf("entry of class %u, number %u, bytes %u\n", SEMDUOLI_ENTRY_CLASS(answer), SEMDUOLI_ENTRY_SENDER(answer),
               (unsigned)SEMDUOLI_ENTRY_READ(answer));
    return SEMDUOLI_ENTRY_READ(answer);
}

/* a trace of two entries, written and read back */
static void keep_trace(void)
{
    const uint8_t frame[] = {0, 7, 1, 1, 2, 0, 0, 0, 5};
    uint8_t trace[2 * SEMDUOLI_ENTRY(sizeof frame)];
    size_t at = 0;
    at += SEMDUOLI_ENTRY_WRITTEN(semduoli_entry_write(SEMDUOLI_CLASS_CLIENT, 2, frame, sizeof frame, trace, sizeof trace));
    at += SEMDUOLI_ENTRY_WRITTEN(semduoli_entry_write(SEMDUOLI_CLASS_SERVER, 255, frame, sizeof frame, trace + at, sizeof trace - at));
    show("trace:", trace, at);
    printf("write, area short: %u\n", (unsigned)semduoli_entry_write(SEMDUOLI_CLASS_CLIENT, 2, frame, sizeof frame, trace, sizeof frame + 4));
    printf("write, third class: %u\n", (unsigned)semduoli_entry_write(2, 2, frame, sizeof frame, trace, sizeof trace));
    printf("write, number 256: %u\n", (unsigned)semduoli_entry_write(SEMDUOLI_CLASS_SERVER, 256, frame, sizeof frame, trace, sizeof trace));
    at = read_entry(trace, sizeof trace);
    at += read_entry(trace + at, sizeof trace - at);
    read_entry(trace + at, sizeof trace - at);
    read_entry(trace, sizeof frame);
    read_entry(trace + 1, sizeof frame);
}

static void judge(const char *text)
{
    uint8_t lines[SEMDUOLI_LINES];
    uint64_t answer = semduoli_judge((const uint8_t *)text, strlen(text), lines, sizeof lines);
    if (SEMDUOLI_REFUSAL(answer))
        printf("history: refused %u\n", SEMDUOLI_REFUSAL(answer));
    else if (SEMDUOLI_OUTCOME(answer) == SEMDUOLI_ORDERED)
        show("history:", lines, SEMDUOLI_COUNT(answer));
    else
        printf("history: %u and %u offend\n", SEMDUOLI_EARLIER(answer), SEMDUOLI_LATER(answer));
}

/* The first line of a history's sheet, and its page number, at the right of the last line; the area has room bytes. */
static void lay(const char *text, size_t room)
{
    uint8_t sheet[SEMDUOLI_SHEET(64)];
    uint64_t answer = semduoli_sheet((const uint8_t *)text, strlen(text), sheet, room);
    if (SEMDUOLI_REFUSAL(answer))
        printf("sheet: refused %u\n", SEMDUOLI_REFUSAL(answer));
    else if (SEMDUOLI_OUTCOME(answer) == SEMDUOLI_ORDERED)
        printf("sheet: pages %u, %.63s, page %c\n", SEMDUOLI_COUNT(answer), (const char *)sheet, sheet[SEMDUOLI_PAGE - 2]);
    else
        printf("sheet: %u and %u offend\n", SEMDUOLI_EARLIER(answer), SEMDUOLI_LATER(answer));
}

static void insert(const char *value, uint8_t *index, size_t index_length)
{
    uint64_t answer = semduoli_index_insert((const uint8_t *)value, strlen(value), index, index_length);
    printf("insert %s: refusal %u, place %u\n", value, SEMDUOLI_REFUSAL(answer), SEMDUOLI_COUNT(answer));
}

static void search(uint64_t number, const uint8_t *index)
{
    uint64_t answer = semduoli_index_search(number, index, SEMDUOLI_INDEX);
    printf("search: refusal %u, place %u\n", SEMDUOLI_REFUSAL(answer), SEMDUOLI_COUNT(answer));
}

static void find_lots(void)
{
    uint8_t index[SEMDUOLI_INDEX] = {0xff};
    printf("index: %u\n", (unsigned)semduoli_index_fresh(index, sizeof index));
    insert("LOT-0005 rye", index, sizeof index);
    insert("LOT-0003 oats", index, sizeof index);
    insert("LOT-0005 rye, again", index, sizeof index);
    insert("LOT-6", index, sizeof index);
    insert("LOT-6", index, sizeof index - 1);
    search(0x4c4f542d30303035, index);
    search(0x4c4f542d30303034, index);
    show("rows:", index, 1 + 3 * 9);
}

/* ---- a whole run: the parties, each with what the host keeps of it, and the frames under way, first in, first out */

enum { CLIENTS = 2, WAITING = 256 };

struct server {
    uint8_t state[SEMDUOLI_SERVER], area[SEMDUOLI_AREA], initial[B];
};

struct client {
    uint8_t state[SEMDUOLI_CLIENT], rows[SEMDUOLI_ROWS];
    const uint8_t *value; /* of its open write, SIZE bytes, or NULL */
};

struct parcel {
    uint8_t from[SEMDUOLI_RECEIVER], to[SEMDUOLI_RECEIVER], frame[SEMDUOLI_FRAME(N, K, SIZE)];
    size_t length;
};

static struct server servers[N + 1];
static struct client clients[CLIENTS + 1];
static struct parcel waiting[WAITING];
static size_t taken, added, refused;

/* puts the frames that a party sent after those that wait, but for reports to clients that are not there */
static void add_sent(uint8_t sender_class, uint8_t sender, uint64_t answer, const uint8_t *out, const uint8_t *to)
{
    for (unsigned i = 0; i < SEMDUOLI_COUNT(answer); i++, out += semduoli_frame_length(out)) {
        const uint8_t *receiver = to + SEMDUOLI_RECEIVER * i;
        if (receiver[0] == SEMDUOLI_CLASS_CLIENT && receiver[1] > CLIENTS)
            continue;
        struct parcel *p = &waiting[added++ % WAITING];
        p->from[0] = sender_class;
        p->from[1] = sender;
        memcpy(p->to, receiver, SEMDUOLI_RECEIVER);
        p->length = semduoli_frame_length(out);
        memcpy(p->frame, out, p->length);
    }
}

static uint64_t hand_to_server(const struct parcel *p)
{
    uint8_t out[SEMDUOLI_SERVER_OUT(N, K, SIZE)], to[SEMDUOLI_SERVER_TO(N)], me = p->to[1];
    struct server *s = &servers[me];
    uint64_t answer = semduoli_server_deliver(N, T, K, SIZE, me, p->from[0], p->from[1], p->frame, p->length, s->area, sizeof s->area, s->initial,
                                              sizeof s->initial, s->state, sizeof s->state, out, sizeof out, to, sizeof to);
    add_sent(SEMDUOLI_CLASS_SERVER, me, answer, out, to);
    return answer;
}

static uint64_t hand_to_client(const struct parcel *p)
{
    uint8_t out[SEMDUOLI_CLIENT_OUT(N, K, SIZE)], to[SEMDUOLI_CLIENT_TO(N)], result[SIZE], stamp[SEMDUOLI_STAMP], me = p->to[1];
    struct client *c = &clients[me];
    uint64_t answer = semduoli_client_deliver(N, T, K, SIZE, me, p->from[0], p->from[1], c->value, c->value ? SIZE : 0, p->frame, p->length, c->rows,
                                              sizeof c->rows, result, sizeof result, stamp, sizeof stamp, c->state, sizeof c->state, out, sizeof out, to,
                                              sizeof to);
    add_sent(SEMDUOLI_CLASS_CLIENT, me, answer, out, to);
    if (SEMDUOLI_OUTCOME(answer) == SEMDUOLI_SENT && SEMDUOLI_COUNT(answer))
        show_frame("a write goes out", out, semduoli_frame_length(out));
    if (SEMDUOLI_OUTCOME(answer) == SEMDUOLI_WRITTEN)
        printf("client %u has written\n", me);
    if (SEMDUOLI_OUTCOME(answer) == SEMDUOLI_VALUE)
        printf("client %u has read %.*s, stamp %llu %u %u\n", me, SIZE, (const char *)result, (unsigned long long)semduoli_stamp_time(stamp),
               semduoli_stamp_writer(stamp), (unsigned)semduoli_stamp_sequence(stamp));
    return answer;
}

/* hands in each frame that waits, until none does; one that came too early waits again */
static void carry(void)
{
    while (taken != added) {
        struct parcel p = waiting[taken++ % WAITING];
        uint64_t answer = p.to[0] == SEMDUOLI_CLASS_SERVER ? hand_to_server(&p) : hand_to_client(&p);
        if (SEMDUOLI_REFUSAL(answer))
            refused++;
        if (SEMDUOLI_REFUSAL(answer) == SEMDUOLI_REFUSED_AHEAD)
            waiting[added++ % WAITING] = p;
    }
    printf("frames handed in so far: %u, of them refused: %u\n", (unsigned)taken, (unsigned)refused);
}

static void begin(uint8_t me, const uint8_t *value)
{
    uint8_t out[SEMDUOLI_CLIENT_OUT(N, K, SIZE)], to[SEMDUOLI_CLIENT_TO(N)];
    struct client *c = &clients[me];
    c->value = value;
    uint64_t answer = value ? semduoli_begin_write(N, T, K, SIZE, me, c->state, sizeof c->state, value, SIZE, out, sizeof out, to, sizeof to)
                            : semduoli_begin_read(N, T, K, SIZE, me, c->state, sizeof c->state, out, sizeof out, to, sizeof to);
    printf("client %u begins: refusal %u, frames %u\n", me, SEMDUOLI_REFUSAL(answer), SEMDUOLI_COUNT(answer));
    add_sent(SEMDUOLI_CLASS_CLIENT, me, answer, out, to);
}

/* the block that a server holds, into an area that is so much short */
static void show_block(uint8_t server, size_t short_by)
{
    uint8_t block[B];
    struct server *s = &servers[server];
    uint64_t answer = semduoli_server_block(N, T, K, SIZE, s->area, sizeof s->area, s->initial, sizeof s->initial, s->state, sizeof s->state, block,
                                            sizeof block - short_by);
    printf("server %u, block: %u\n", server, (unsigned)answer);
    if (!SEMDUOLI_REFUSAL(answer))
        show("block:", block, sizeof block);
}

/* what is open at a client, and what a server holds and works on for client 1 */
static void show_open(uint8_t client, uint8_t server)
{
    uint8_t stamp[SEMDUOLI_STAMP];
    uint64_t open = semduoli_client_open(clients[client].state, SEMDUOLI_CLIENT);
    uint64_t held = semduoli_server_stamp(servers[server].state, SEMDUOLI_SERVER, stamp, sizeof stamp);
    uint64_t works = semduoli_server_open(1, servers[server].state, SEMDUOLI_SERVER);
    printf("client %u: open %u, sequence %u\n", client, SEMDUOLI_OUTCOME(open), (unsigned)SEMDUOLI_SEQUENCE(open));
    printf("server %u: %u, works on write %u of client 1, holds", server, (unsigned)held, (unsigned)SEMDUOLI_SEQUENCE(works));
    show(" stamp", stamp, sizeof stamp);
}

static void whole_run(const uint8_t *initial, const uint8_t *value)
{
    for (uint8_t j = 1; j <= N; j++) {
        struct server *s = &servers[j];
        uint64_t answer = semduoli_server_fresh(N, T, K, SIZE, j, initial, SIZE, s->area, sizeof s->area, s->initial, sizeof s->initial, s->state,
                                                sizeof s->state);
        printf("server %u afresh: %u\n", j, (unsigned)answer);
    }
    for (uint8_t j = 1; j <= CLIENTS; j++)
        semduoli_client_fresh(clients[j].state, sizeof clients[j].state);
    begin(2, NULL);
    carry();
    show_block(3, 0);
    begin(1, value);
    show_open(1, 1);
    carry();
    begin(2, NULL);
    show_open(2, 1);
    carry();
    show_open(2, 1);
    show_block(3, 0);
    show_block(3, 1);
}

/* what server 1 answers to client 1's get-stamp from this sender, with only the first bytes of the frame and of the record lent */
static void hand_get_stamp(const char *name, size_t sender_class, size_t sender, size_t frame_length, size_t state_length)
{
    const uint8_t frame[] = {0, 7, 1, 1, 1, 0, 0, 0, 1};
    uint8_t out[SEMDUOLI_SERVER_OUT(N, K, SIZE)], to[SEMDUOLI_SERVER_TO(N)];
    struct server *s = &servers[1];
    uint64_t answer = semduoli_server_deliver(N, T, K, SIZE, 1, sender_class, sender, frame, frame_length, s->area, sizeof s->area, s->initial,
                                              sizeof s->initial, s->state, state_length, out, sizeof out, to, sizeof to);
    printf("get-stamp, %s: refusal %u, frames %u\n", name, SEMDUOLI_REFUSAL(answer), SEMDUOLI_COUNT(answer));
}

/* plays back, at server 3, the first bytes of a trace: client 2's get-stamp, the same as server 2's, and a malformed entry; the out area lacks short_by */
static void play_back(size_t trace_length, size_t short_by)
{
    const uint8_t trace[] = {0, 12, 1, 0, 2, 0, 7, 1, 1, 2, 0, 0, 0, 5, 0, 12, 1, 1, 2, 0, 7, 1, 1, 2, 0, 0, 0, 5, 0, 2};
    uint8_t out[SEMDUOLI_PLAYBACK_OUT(N, K, SIZE, 2)];
    struct server *s = &servers[3];
    uint64_t answer = semduoli_playback(N, T, K, SIZE, 3, (const uint8_t *)"first", SIZE, trace, trace_length, s->area, sizeof s->area, s->initial,
                                        sizeof s->initial, s->state, sizeof s->state, out, sizeof out - short_by);
    printf("playback: refusal %u, closed by %u, entries %u\n", SEMDUOLI_REFUSAL(answer), SEMDUOLI_OUTCOME(answer), (unsigned)SEMDUOLI_ENTRIES(answer));
    size_t first = SEMDUOLI_REPLY_HEAD + SEMDUOLI_RECEIVER; /* one frame was sent, to the first entry */
    if (!SEMDUOLI_REFUSAL(answer))
        show("replies:", out, first + semduoli_frame_length(out + first) + SEMDUOLI_REPLY_HEAD);
}

/* hands client 2's next get-stamp, the first bytes of an entry, to server 3, which goes on from its record; the to area lacks short_by */
static void go_on(size_t trace_length, size_t short_by)
{
    const uint8_t trace[] = {0, 12, 1, 0, 2, 0, 7, 1, 1, 2, 0, 0, 0, 6};
    uint8_t out[SEMDUOLI_SERVER_OUT(N, K, SIZE)], to[SEMDUOLI_SERVER_TO(N)];
    struct server *s = &servers[3];
    uint64_t answer = semduoli_server_resume(N, T, K, SIZE, 3, trace, trace_length, s->area, sizeof s->area, s->initial, sizeof s->initial, s->state,
                                             sizeof s->state, out, sizeof out, to, sizeof to - short_by);
    printf("resume: refusal %u, closed by %u, entries %u\n", SEMDUOLI_REFUSAL(answer), SEMDUOLI_OUTCOME(answer), (unsigned)SEMDUOLI_ENTRIES(answer));
    if (SEMDUOLI_ENTRIES(answer))
        show("sent last:", out, semduoli_frame_length(out));
}

int main(void)
{
    const uint8_t *value = (const uint8_t *)"hello";
    uint8_t digest[SEMDUOLI_DIGEST], blocks[N * B], chosen[K * B], back[SIZE];
    const uint8_t numbers[K] = {4, 2}, all[N] = {1, 2, 3, 4};

    show_sizes();
    printf("digest: %u\n", (unsigned)semduoli_digest((const uint8_t *)"abc", 3, digest, sizeof digest));
    show("digest:", digest, sizeof digest);
    printf("digest of nothing: %u\n", (unsigned)semduoli_digest(NULL, 0, digest, sizeof digest));
    show("digest:", digest, sizeof digest);
    printf("digest, area short: %u\n", (unsigned)semduoli_digest(value, SIZE, digest, 31));

    printf("encode: %u\n", (unsigned)semduoli_encode(N, T, K, SIZE, value, SIZE, blocks, sizeof blocks));
    show("blocks:", blocks, sizeof blocks);
    for (size_t i = 0; i < K; i++)
        memcpy(chosen + i * B, blocks + (numbers[i] - 1) * B, B);
    printf("decode: %u\n", (unsigned)semduoli_decode(N, T, K, SIZE, numbers, K, chosen, sizeof chosen, back, sizeof back));
    printf("value: %.*s\n", SIZE, (const char *)back);
    printf("decode of one block: %u\n", (unsigned)semduoli_decode(N, T, K, SIZE, numbers, 1, chosen, B, back, sizeof back));
    printf("decode of all blocks: %u\n", (unsigned)semduoli_decode(N, T, K, SIZE, all, N, blocks, sizeof blocks, back, sizeof back));
    blocks[0] ^= 1;
    printf("decode with a foreign block: %u\n", (unsigned)semduoli_decode(N, T, K, SIZE, all, N, blocks, sizeof blocks, back, sizeof back));

    judge("R 5 6 1 1 1 0\nW 1 2 1 1 1 0\n");
    judge("W 1 2 5 1 1 0\nW 3 4 4 2 1 0\n");
    judge("W 1 4 1 2 1 2\nR 4 6 0 0 0 2\n");
    judge("W 1 4 1 2 1 2\nR 4 6 0 0 0 3\n");
    judge("W 1 2 5 1 1\n");
    lay("R 5 6 1 1 1 0\nW 1 7 1 1 1 3\n", SEMDUOLI_SHEET(2));
    lay("R 5 6 1 1 1 0\nW 1 7 1 1 1 3\n", SEMDUOLI_SHEET(2) - 1);
    lay("W 1 2 5 1 1 0\nW 3 4 4 2 1 0\n", 0);
    lay("W 1 2 5 1 1\n", 0);
    find_lots();
    ask_of_frames();
    keep_trace();

    uint8_t state[SEMDUOLI_CLIENT], out[SEMDUOLI_CLIENT_OUT(N, K, SIZE)], to[SEMDUOLI_CLIENT_TO(N)];
    printf("fresh: %u\n", (unsigned)semduoli_client_fresh(state, sizeof state));
    uint64_t answer = semduoli_begin_write(N, T, K, SIZE, 3, state, sizeof state, value, SIZE, out, sizeof out, to, sizeof to);
    printf("write: refusal %u, outcome %u, frames %u\n", SEMDUOLI_REFUSAL(answer), SEMDUOLI_OUTCOME(answer), SEMDUOLI_COUNT(answer));
    show_sent(answer, out, to);
    show("record:", state, 10);
    answer = semduoli_begin_read(N, T, K, SIZE, 3, state, sizeof state, out, sizeof out, to, sizeof to);
    printf("read meanwhile: refusal %u\n", SEMDUOLI_REFUSAL(answer));
    answer = semduoli_begin_read(3, T, K, SIZE, 3, state, 0, out, 0, to, 0);
    printf("read of three servers: refusal %u\n", SEMDUOLI_REFUSAL(answer));

    whole_run((const uint8_t *)"first", value);
    hand_get_stamp("from client 1", SEMDUOLI_CLASS_CLIENT, 1, 9, SEMDUOLI_SERVER);
    hand_get_stamp("from client 257", SEMDUOLI_CLASS_CLIENT, 257, 9, SEMDUOLI_SERVER);
    hand_get_stamp("from a third class", 2, 1, 9, SEMDUOLI_SERVER);
    hand_get_stamp("record short", SEMDUOLI_CLASS_CLIENT, 1, 9, 0);
    hand_get_stamp("record and frame short", SEMDUOLI_CLASS_CLIENT, 1, 3, 0);

    printf("version: %u\n", (unsigned)(semduoli_version() == SEMDUOLI_VERSION));
    answer = semduoli_begin_read(N, T, K, SIZE, 257, state, sizeof state, out, sizeof out, to, sizeof to);
    printf("read of client 257: refusal %u\n", SEMDUOLI_REFUSAL(answer));
    printf("open, record short: %u\n", (unsigned)semduoli_client_open(state, SEMDUOLI_CLIENT - 1));
    printf("stamp, area short: %u\n", (unsigned)semduoli_server_stamp(servers[1].state, SEMDUOLI_SERVER, digest, SEMDUOLI_STAMP - 1));
    printf("open of client 9: %u\n", (unsigned)semduoli_server_open(9, servers[1].state, SEMDUOLI_SERVER));
    play_back(28, 0);
    play_back(30, 0);
    play_back(29, 0);
    play_back(28, 1);
    go_on(14, 0);
    go_on(13, 0);
    go_on(14, 1);
    return 0;
}
