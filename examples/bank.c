/* A host that does what include/semduoli.h asks of one. Four servers and two clients of a register, each with a file that holds all that belongs to it;
 * links that lose and repeat frames, those to one server so often that it lags behind; a false server that, besides what it must, sends frames of
 * far-off writes for ever, and names an enormous time wherever it can, which nobody counts; parties that are started again from their files. The host
 * writes down what its clients saw, by its own clock, and has it judged. The argument names the folder of the files. The exit status is 0 if every
 * operation ended, no read by a disagreement, and what was seen has an order. */
#define _POSIX_C_SOURCE 200809L
#include <errno.h>
#include <fcntl.h>
#include <stdio.h>
#include <stdlib.h>
#include <string.h>
#include <unistd.h>
#include "semduoli.h"

enum { N = 4, T = 1, K = 2, SIZE = 8, SLOW = 3, FALSE_SERVER = 4, CLIENTS = 2, KEPT = 4, ROUNDS = 2000 };

/* a frame, with its sender and its receiver */
struct parcel {
    uint8_t from[SEMDUOLI_RECEIVER], to[SEMDUOLI_RECEIVER], frame[SEMDUOLI_FRAME(N, K, SIZE)];
    size_t length;
};

struct stamp {
    uint64_t time, sequence;
    unsigned writer;
};

/* all that belongs to a party: record and areas; of a client's open operation the value, its kind, when it began, and its stamp; the frames that a
 * server answered 13, at most KEPT for each sender and client; what was sent and nobody has confirmed, which has no bound (in a file it comes last) */
struct party {
    uint8_t class_, number;
    uint8_t state[SEMDUOLI_SERVER], area[SEMDUOLI_AREA], initial[SEMDUOLI_INITIAL(K, SIZE)], value[SIZE];
    char kind;
    struct stamp stamp;
    uint32_t start;
    struct parcel early[CLIENTS + 1][N + 1][KEPT];
    size_t early_count[CLIENTS + 1][N + 1], unsent_count, unsent_room;
    struct parcel *unsent;
};

static struct party servers[N + 1], clients[CLIENTS + 1];
static const char *folder;
static uint32_t now;
static unsigned handed_in, lost, repeated, ahead, dropped, again, needless, restarts;
static int disagreed;
static char history[4096];

/* ---- what is kept */

static void stop(const char *what, const char *why)
{
    fprintf(stderr, "%s: %s\n", what, why);
    exit(1);
}

static void path_of(const struct party *p, const char *suffix, char *path, size_t room)
{
    int length = snprintf(path, room, "%s/%c%u%s", folder, p->class_ == SEMDUOLI_CLASS_SERVER ? 's' : 'c', p->number, suffix);
    if (length < 0 || (size_t)length >= room)
        stop(folder, "the name is too long");
}

/* makes room for this many frames that are not confirmed */
static void make_room(struct party *p, size_t frames)
{
    if (frames <= p->unsent_room)
        return;
    p->unsent_room = 2 * frames;
    p->unsent = (struct parcel *)realloc(p->unsent, p->unsent_room * sizeof *p->unsent);
    if (!p->unsent)
        stop("frames that are not confirmed", strerror(errno));
}

/* Stores a party as one: the new file takes the old one's place when it is whole and on the disk, and so that the old one does not come back after a
 * crash, the folder is brought to the disk too. */
static void store(const struct party *p)
{
    char path[512], fresh[512];
    path_of(p, "", path, sizeof path);
    path_of(p, ".new", fresh, sizeof fresh);
    FILE *file = fopen(fresh, "wb");
    size_t frames = p->unsent_count;
    if (!file || fwrite(p, sizeof *p, 1, file) != 1 || (frames && fwrite(p->unsent, sizeof *p->unsent, frames, file) != frames) || fflush(file) ||
        fsync(fileno(file)) || fclose(file) || rename(fresh, path))
        stop(path, strerror(errno));
    int directory = open(folder, O_RDONLY);
    if (directory < 0 || fsync(directory) || close(directory))
        stop(folder, strerror(errno));
}

/* starts a party again from its file */
static void restart(struct party *p)
{
    char path[512];
    path_of(p, "", path, sizeof path);
    free(p->unsent);
    memset(p, 0xee, sizeof *p);
    FILE *file = fopen(path, "rb");
    if (!file || fread(p, sizeof *p, 1, file) != 1)
        stop(path, "cannot be read whole");
    p->unsent = NULL, p->unsent_room = 0;
    make_room(p, p->unsent_count);
    if ((p->unsent_count && fread(p->unsent, sizeof *p->unsent, p->unsent_count, file) != p->unsent_count) || fclose(file))
        stop(path, "cannot be read whole");
    restarts++;
}

/* ---- frames */

static unsigned kind_of(const struct parcel *q)
{
    return SEMDUOLI_HEADER_KIND(semduoli_frame_header(N, T, K, SIZE, q->frame, q->length));
}

static size_t client_of(const struct parcel *q)
{
    return SEMDUOLI_HEADER_CLIENT(semduoli_frame_header(N, T, K, SIZE, q->frame, q->length));
}

static uint64_t sequence_of(const struct parcel *q)
{
    return SEMDUOLI_HEADER_SEQUENCE(semduoli_frame_header(N, T, K, SIZE, q->frame, q->length));
}

/* the frames of an answer are to be sent, and stay until they are confirmed; but for reports to clients that this register does not have */
static void add_sent(struct party *p, uint64_t answer, const uint8_t *out, const uint8_t *to)
{
    make_room(p, p->unsent_count + SEMDUOLI_COUNT(answer));
    for (unsigned i = 0; i < SEMDUOLI_COUNT(answer); i++, out += semduoli_frame_length(out)) {
        const uint8_t *receiver = to + SEMDUOLI_RECEIVER * i;
        if (receiver[0] == SEMDUOLI_CLASS_CLIENT && receiver[1] > CLIENTS)
            continue;
        struct parcel *q = &p->unsent[p->unsent_count++];
        q->from[0] = p->class_;
        q->from[1] = p->number;
        memcpy(q->to, receiver, SEMDUOLI_RECEIVER);
        q->length = semduoli_frame_length(out);
        memcpy(q->frame, out, q->length);
    }
}

/* Whether a later frame of its kind goes from this server to the same receiver and makes this one needless: a later report has a larger time; of the other
 * kinds the sequences say it. */
static int is_superseded(const struct party *s, const struct parcel *q, unsigned kind)
{
    for (const struct parcel *later = q + 1; later < s->unsent + s->unsent_count; later++)
        if (!memcmp(later->to, q->to, sizeof q->to) && kind_of(later) == kind &&
            (kind == SEMDUOLI_KIND_REPORT || sequence_of(later) + (kind != SEMDUOLI_KIND_VALUE) > sequence_of(q)))
            return 1;
    return 0;
}

/* Whether nobody needs a frame any more that is not confirmed: rule 7 of include/semduoli.h. (That only four values of a read are needed is not used.) */
static int is_needless(const struct party *p, const struct parcel *q)
{
    unsigned kind = kind_of(q), open;
    if (q->to[0] == SEMDUOLI_CLASS_CLIENT || kind == SEMDUOLI_KIND_REPORT)
        return is_superseded(p, q, kind);
    if (p->class_ == SEMDUOLI_CLASS_SERVER)
        return kind == SEMDUOLI_KIND_ECHO && sequence_of(q) < SEMDUOLI_SEQUENCE(semduoli_server_open(client_of(q), p->state, SEMDUOLI_SERVER));
    open = SEMDUOLI_OUTCOME(semduoli_client_open(p->state, SEMDUOLI_CLIENT));
    return kind == SEMDUOLI_KIND_GET_STAMP ? open != SEMDUOLI_OPEN_ASKING
           : kind == SEMDUOLI_KIND_SEND    ? open != SEMDUOLI_OPEN_ACKING
           : kind == SEMDUOLI_KIND_READ    ? open != SEMDUOLI_OPEN_READING
                                           : open == SEMDUOLI_OPEN_READING;
}

static void remove_sent(struct party *p, size_t i)
{
    p->unsent_count--;
    memmove(&p->unsent[i], &p->unsent[i + 1], (p->unsent_count - i) * sizeof *p->unsent);
}

static void drop_needless(struct party *p)
{
    for (size_t i = p->unsent_count; i-- > 0;)
        if (is_needless(p, &p->unsent[i])) {
            remove_sent(p, i);
            needless++;
        }
}

/* keeps a frame that came too early, or does not confirm it */
static int keep_early(struct party *s, const struct parcel *q)
{
    size_t client = client_of(q), sender = q->from[0] == SEMDUOLI_CLASS_SERVER ? q->from[1] : 0;
    ahead++;
    if (client > CLIENTS || s->early_count[client][sender] == KEPT) {
        dropped++;
        return 0;
    }
    s->early[client][sender][s->early_count[client][sender]++] = *q;
    store(s);
    return 1;
}

static uint64_t to_server(struct party *s, const struct parcel *q)
{
    uint8_t out[SEMDUOLI_SERVER_OUT(N, K, SIZE)], to[SEMDUOLI_SERVER_TO(N)];
    uint64_t answer = semduoli_server_deliver(N, T, K, SIZE, s->number, q->from[0], q->from[1], q->frame, q->length, s->area, sizeof s->area, s->initial,
                                              sizeof s->initial, s->state, SEMDUOLI_SERVER, out, sizeof out, to, sizeof to);
    handed_in++;
    add_sent(s, answer, out, to);
    return answer;
}

/* hands the frames in that came too early and whose sequence has come */
static void hand_early(struct party *s)
{
    for (size_t c = 1; c <= CLIENTS; c++)
        for (size_t j = 0; j <= N; j++)
            for (size_t i = 0; i < s->early_count[c][j]; i++) {
                struct parcel q = s->early[c][j][i];
                if (sequence_of(&q) > SEMDUOLI_SEQUENCE(semduoli_server_open(c, s->state, SEMDUOLI_SERVER)) ||
                    SEMDUOLI_REFUSAL(to_server(s, &q)) == SEMDUOLI_REFUSED_ROOM)
                    continue;
                s->early[c][j][i] = s->early[c][j][--s->early_count[c][j]];
                again++;
                c = 1, j = 0, i = (size_t)-1; /* the sequence may have moved: from the beginning */
            }
}

/* ---- clients, and what they saw */

/* a line of the history: an operation has ended */
static void note(const struct party *c)
{
    size_t length = strlen(history), room = sizeof history - length;
    int added = snprintf(history + length, room, "%c %u %u %llu %u %llu %u\n", c->kind, c->start, ++now, (unsigned long long)c->stamp.time,
                         c->stamp.writer, (unsigned long long)c->stamp.sequence, c->number);
    if (added < 0 || (size_t)added >= room)
        stop("history", "too long");
}

/* The stamp of a write: one above the time in the frames of the step that sends it out, the client's number, and the sequence. */
static void note_write(struct party *c)
{
    const struct parcel *q = &c->unsent[c->unsent_count - 1];
    uint8_t time[SEMDUOLI_TIME];
    if (SEMDUOLI_OUTCOME(semduoli_frame_time(N, T, K, SIZE, q->frame, q->length, time, sizeof time)) != SEMDUOLI_HAS_TIME)
        stop("write", "a frame without a time");
    c->stamp.time = semduoli_stamp_time(time) + 1;
    c->stamp.writer = c->number;
    c->stamp.sequence = sequence_of(q);
}

static void note_read(struct party *c, const uint8_t *stamp)
{
    c->stamp.time = semduoli_stamp_time(stamp);
    c->stamp.writer = semduoli_stamp_writer(stamp);
    c->stamp.sequence = semduoli_stamp_sequence(stamp);
}

/* Prints what has ended, and notes it if it has a stamp: a write that closed and a read whose blocks disagree give no line of the history. */
static void tell(const struct party *c, unsigned outcome, const uint8_t *result)
{
    if (outcome == SEMDUOLI_WRITTEN || outcome == SEMDUOLI_VALUE)
        note(c);
    if (outcome == SEMDUOLI_VALUE)
        printf("client %u has read %.*s\n", c->number, SIZE, (const char *)result);
    if (outcome == SEMDUOLI_OUT_OF_STAMPS)
        printf("client %u: its write has closed as out of stamps\n", c->number);
    if (outcome == SEMDUOLI_DISAGREEMENT) { /* a case for the staff: more is false than is allowed for */
        printf("client %u: the blocks of its read disagree\n", c->number);
        disagreed = 1;
    }
}

/* hands a frame to a client; whether it is confirmed */
static int to_client(struct party *c, const struct parcel *q)
{
    uint8_t out[SEMDUOLI_CLIENT_OUT(N, K, SIZE)], to[SEMDUOLI_CLIENT_TO(N)], result[SIZE], stamp[SEMDUOLI_STAMP];
    uint64_t answer = semduoli_client_deliver(N, T, K, SIZE, c->number, q->from[0], q->from[1], c->value, SIZE, q->frame, q->length, c->area,
                                              sizeof c->area, result, SIZE, stamp, SEMDUOLI_STAMP, c->state, SEMDUOLI_CLIENT, out, sizeof out,
                                              to, sizeof to);
    handed_in++;
    if (SEMDUOLI_REFUSAL(answer))
        return SEMDUOLI_REFUSAL(answer) != SEMDUOLI_REFUSED_ROOM;
    add_sent(c, answer, out, to);
    if (SEMDUOLI_OUTCOME(answer) == SEMDUOLI_SENT && SEMDUOLI_COUNT(answer) == N)
        note_write(c);
    if (SEMDUOLI_OUTCOME(answer) == SEMDUOLI_VALUE)
        note_read(c, stamp);
    store(c);
    tell(c, SEMDUOLI_OUTCOME(answer), result);
    return 1;
}

/* a client that has nothing open begins the next of its operations: values are written, and "" is a read; whether it has something open or to do */
static int begin(struct party *c, const char *const *script, size_t *at)
{
    uint8_t out[SEMDUOLI_CLIENT_OUT(N, K, SIZE)], to[SEMDUOLI_CLIENT_TO(N)];
    if (SEMDUOLI_OUTCOME(semduoli_client_open(c->state, SEMDUOLI_CLIENT)) != SEMDUOLI_OPEN_NOTHING)
        return 1;
    const char *value = script[*at];
    if (!value)
        return 0;
    ++*at;
    c->kind = *value ? 'W' : 'R';
    c->start = ++now;
    memcpy(c->value, value, *value ? SIZE : 0);
    uint64_t answer = *value ? semduoli_begin_write(N, T, K, SIZE, c->number, c->state, SEMDUOLI_CLIENT, c->value, SIZE, out, sizeof out, to, sizeof to)
                             : semduoli_begin_read(N, T, K, SIZE, c->number, c->state, SEMDUOLI_CLIENT, out, sizeof out, to, sizeof to);
    if (SEMDUOLI_REFUSAL(answer) == SEMDUOLI_REFUSED_CLOSED) { /* nothing was begun, and the client goes on with what is next */
        printf("client %u may not write: refused by %u\n", c->number, SEMDUOLI_REFUSAL(answer));
        return 1;
    }
    if (SEMDUOLI_REFUSAL(answer))
        stop("an operation", "cannot be begun");
    add_sent(c, answer, out, to);
    store(c);
    return 1;
}

/* ---- links */

/* A frame arrives; whether it is confirmed, so that it is not sent again: it was answered by something but 10 and 13, or is kept. What the receiver
 * sends is stored before, and leaves later. The sender is the one whose link it came by. */
static int arrive(const struct parcel *q)
{
    if (q->to[0] == SEMDUOLI_CLASS_CLIENT)
        return to_client(&clients[q->to[1]], q);
    struct party *s = &servers[q->to[1]];
    unsigned refusal = SEMDUOLI_REFUSAL(to_server(s, q));
    if (refusal == SEMDUOLI_REFUSED_AHEAD)
        return keep_early(s, q);
    if (!refusal) {
        hand_early(s);
        store(s);
    }
    return refusal != SEMDUOLI_REFUSED_ROOM;
}

static unsigned chance(unsigned of)
{
    static uint32_t x = 20071;
    x = x * 1664525 + 1013904223;
    return (x >> 16) % of;
}

/* sends each frame that is not confirmed and that somebody needs, so often until it is */
static void send_all(struct party *p)
{
    drop_needless(p);
    for (size_t i = 0; i < p->unsent_count;) {
        struct parcel q = p->unsent[i];
        int slow = q.to[0] == SEMDUOLI_CLASS_SERVER && q.to[1] == SLOW;
        if (slow ? chance(12) : chance(3) == 0) {
            lost++;
            i++;
            continue;
        }
        int confirmed = arrive(&q);
        if (confirmed && chance(4) == 0) {
            arrive(&q);
            repeated++;
            confirmed = chance(2); /* the confirmation may be lost too */
        }
        if (confirmed)
            remove_sent(p, i);
        else
            i++;
    }
}

/* The false server's frame to server j: an echo, of client 1's write number 1000 and more; time, digests and block are zeros. An echo has the bytes of the
 * largest frame, a value, but for the stamp's writer and sequence. */
static void send_false(uint8_t j, unsigned round)
{
    enum { ECHO = SEMDUOLI_FRAME(N, K, SIZE) - 5 };
    struct parcel q = {{SEMDUOLI_CLASS_SERVER, FALSE_SERVER},
                       {SEMDUOLI_CLASS_SERVER, j},
                       {0, ECHO - 2, 1, 4, 1, 0, 0, (uint8_t)(4 + round / 256), (uint8_t)round},
                       ECHO};
    arrive(&q);
}

/* The false server's frame of this kind to a party: a stamp for client 2's fourth write, or a report, with the largest time there is. One server's word is
 * not enough: the time is left uncounted, and the write goes on with those of the others. */
static void push_ahead(uint8_t kind, uint8_t class_, uint8_t number)
{
    const struct parcel q = {{SEMDUOLI_CLASS_SERVER, FALSE_SERVER},
                             {class_, number},
                             {0, 15, 1, kind, 2, 0, 0, 0, 4, 255, 255, 255, 255, 255, 255, 255, 255},
                             17};
    arrive(&q);
}

/* names that time wherever it can: as a stamp to client 2, as a report to client 1 and to every server */
static void push_all_ahead(void)
{
    push_ahead(SEMDUOLI_KIND_STAMP, SEMDUOLI_CLASS_CLIENT, 2);
    push_ahead(SEMDUOLI_KIND_REPORT, SEMDUOLI_CLASS_CLIENT, 1);
    for (uint8_t j = 1; j <= N; j++)
        push_ahead(SEMDUOLI_KIND_REPORT, SEMDUOLI_CLASS_SERVER, j);
}

/* ---- the run */

/* whether what the clients saw has an order */
static int has_order(void)
{
    uint8_t lines[SEMDUOLI_LINES];
    uint64_t answer = semduoli_judge((const uint8_t *)history, strlen(history), lines, sizeof lines);
    printf("%s", history);
    if (SEMDUOLI_REFUSAL(answer)) {
        printf("refused %u\n", SEMDUOLI_REFUSAL(answer));
        return 0;
    }
    if (SEMDUOLI_OUTCOME(answer) == SEMDUOLI_OFFENDING) {
        printf("no order %u %u\n", SEMDUOLI_EARLIER(answer), SEMDUOLI_LATER(answer));
        return 0;
    }
    printf("order");
    for (unsigned i = 0; i < SEMDUOLI_COUNT(answer); i++)
        printf(" %u", lines[i]);
    printf("\n");
    return 1;
}

int main(int count, char **arguments)
{
    static const char *const first[] = {"", "rye   81", "", "oats  92", "", "rye   79", "", NULL};
    static const char *const second[] = {"wheat 97", "", "", "rye   80", "", "", "spelt 64", "", "emmer 77", "emmer 78", "", NULL};
    const char *const *scripts[] = {NULL, first, second};
    size_t at[CLIENTS + 1] = {0};
    folder = count > 1 ? arguments[1] : ".";
    for (uint8_t j = 1; j <= N; j++) {
        struct party *s = &servers[j];
        s->class_ = SEMDUOLI_CLASS_SERVER, s->number = j;
        if (semduoli_server_fresh(N, T, K, SIZE, j, (const uint8_t *)"nothing.", SIZE, s->area, sizeof s->area, s->initial, sizeof s->initial, s->state,
                                  SEMDUOLI_SERVER))
            return 1;
        store(s);
    }
    for (uint8_t c = 1; c <= CLIENTS; c++) {
        clients[c].class_ = SEMDUOLI_CLASS_CLIENT, clients[c].number = c;
        if (semduoli_client_fresh(clients[c].state, SEMDUOLI_CLIENT))
            return 1;
        store(&clients[c]);
    }
    unsigned round = 0;
    for (int open = 1; open && round < ROUNDS; round++) {
        open = 0;
        for (uint8_t c = 1; c <= CLIENTS; c++) {
            open |= begin(&clients[c], scripts[c], &at[c]);
            send_all(&clients[c]);
        }
        push_all_ahead();
        for (uint8_t j = 1; j <= N; j++) {
            send_all(&servers[j]);
            send_false(j, round);
        }
        restart(round % 2 ? &servers[1 + round / 2 % N] : &clients[1 + round / 2 % CLIENTS]);
    }
    int ordered = has_order();
    printf("rounds %u, handed in %u, lost %u, repeated %u, starts from a file %u\n", round, handed_in, lost, repeated, restarts);
    printf("came too early %u, of them not kept %u, handed in again %u; not sent again, since nobody needs them, %u\n", ahead, dropped, again, needless);
    return round == ROUNDS || !ordered || disagreed;
}
