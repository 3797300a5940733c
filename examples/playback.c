/* Plays back a server's trace for the staff: a file of entries, each a length (2 bytes, high byte first, counting what follows), version 1, the
 * sender's class (0 client, 1 server) and number, and the frame as it was handed in. From a fresh server, with the parameters that the machine had, it
 * prints a line for each entry (sender, kind, answer, frames sent), then a summary: how many, how the trace ended, and the stamp and the block that the
 * server holds at the end. Of long traces standard error says how far it is. Exit status: 0 the trace is whole (an empty one is), 1 it closed by 22 or
 * 23, at its first entry or later, 2 wrong arguments, a file that cannot be read or output that cannot be written, as standard error says, 3 the
 * parameters, own number or initial value were refused. */
#define _DEFAULT_SOURCE
#include <errno.h>
#include <signal.h>
#include <stdio.h>
#include <stdlib.h>
#include <string.h>
#include <sys/mman.h>
#include <sys/time.h>
#include <time.h>
#include "semduoli.h"

enum { WHOLE = 0, CLOSED = 1, FAILED = 2, REFUSED = 3 };
/* where a frame that does not open has what it gives as its kind, its client and its sequence, and how many bytes it must have for that */
enum { CLAIMED_KIND = 3, CLAIMED_CLIENT = 4, CLAIMED_SEQUENCE = 5, CLAIMS = 9 };
/* progress is printed for traces with more than LONG entries, every PAUSE seconds */
enum { LONG = 1000, PAUSE = 2 };

static const char *const usage =
    "playback [-x] [-f] N T K L OWN INITIAL FILE\n"
    "  N T K L   the register's parameters; OWN the number of the server whose trace it is; INITIAL the initial value, in hexadecimal\n"
    "  FILE      the trace; - is standard input\n"
    "  -x        the trace is hexadecimal digits, in which spaces and new lines do not count\n"
    "  -f        prints each frame that is sent, with its receiver, in hexadecimal\n";

static void stop(const char *what, const char *why)
{
    fprintf(stderr, "playback: %s: %s\n", what, why);
    exit(FAILED);
}

/* ---- what is read */

struct bytes {
    uint8_t *at;
    size_t length;
};

/* a whole file */
static struct bytes contents(const char *path)
{
    struct bytes b = {NULL, 0};
    size_t room = 1 << 16;
    FILE *file = strcmp(path, "-") ? fopen(path, "rb") : stdin;
    if (!file)
        stop(path, strerror(errno));
    for (;;) {
        b.at = realloc(b.at, room *= 2);
        if (!b.at)
            stop(path, "too large for this machine's memory");
        b.length += fread(b.at + b.length, 1, room - b.length, file);
        if (b.length < room)
            break;
    }
    if (ferror(file))
        stop(path, strerror(errno));
    return b;
}

static int digit(uint8_t c)
{
    const char *digits = "0123456789abcdef", *found = c ? strchr(digits, c >= 'A' && c <= 'F' ? c + 'a' - 'A' : c) : NULL;
    return found ? (int)(found - digits) : -1;
}

static int is_blank(uint8_t c)
{
    return c == ' ' || c == '\t' || c == '\r' || c == '\n';
}

/* hexadecimal digits as bytes, in their place; what names the text is for the message */
static struct bytes from_hex(struct bytes b, const char *what)
{
    size_t digits = 0;
    char why[64];
    for (size_t i = 0; i < b.length; i++) {
        if (is_blank(b.at[i]))
            continue;
        int d = digit(b.at[i]);
        if (d < 0) {
            snprintf(why, sizeof why, "byte %zu is no hexadecimal digit", i + 1);
            stop(what, why);
        }
        b.at[digits / 2] = (uint8_t)(digits % 2 ? b.at[digits / 2] * 16 + d : d);
        digits++;
    }
    if (digits % 2)
        stop(what, "an odd number of hexadecimal digits");
    b.length = digits / 2;
    return b;
}

/* whether there are bytes, and all of them are hexadecimal digits, spaces and new lines */
static int is_hex(struct bytes b)
{
    size_t digits = 0;
    for (size_t i = 0; i < b.length; i++) {
        if (is_blank(b.at[i]))
            continue;
        if (digit(b.at[i]) < 0)
            return 0;
        digits++;
    }
    return digits > 0;
}

static size_t number(const char *text, const char *name)
{
    char *end;
    errno = 0;
    unsigned long long value = strtoull(text, &end, 10);
    if (*text < '0' || *text > '9' || *end || errno)
        stop(name, "not a decimal number");
    return (size_t)value;
}

/* ---- what is played */

static struct {
    size_t n, t, k, size, me;
    struct bytes value, trace, out;
    uint8_t area[SEMDUOLI_AREA], initial[SEMDUOLI_SIZE_MOST], state[SEMDUOLI_SERVER];
} play;

static double begun, expected;

static double seconds(void)
{
    struct timespec now;
    clock_gettime(CLOCK_MONOTONIC, &now);
    return (double)now.tv_sec + (double)now.tv_nsec / 1e9;
}

/* Says how far the call is. It interrupts the library alone, which uses nothing that this uses. */
static void tell(int signal_number)
{
    (void)signal_number;
    fprintf(stderr, "playback: %.0f s of about %.0f s\n", seconds() - begun, expected);
}

static void tell_every(int pause)
{
    struct itimerval every = {{pause, 0}, {pause, 0}};
    setitimer(ITIMER_REAL, &every, NULL);
}

static uint64_t call(size_t trace_length)
{
    return semduoli_playback(play.n, play.t, play.k, play.size, play.me, play.value.at, play.value.length, play.trace.at, trace_length, play.area,
                             sizeof play.area, play.initial, sizeof play.initial, play.state, sizeof play.state, play.out.at, play.out.length);
}

/* Room for this many entries. Only what is written of it takes memory. Where parameters are out of bounds none is needed: they are refused first. */
static struct bytes room_for(size_t entries)
{
    struct bytes b = {NULL, 0};
    if (play.n > SEMDUOLI_SERVERS_MOST || play.k == 0 || play.size > SEMDUOLI_SIZE_MOST || entries == 0)
        return b;
    b.length = SEMDUOLI_PLAYBACK_OUT(play.n, play.k, play.size, entries);
    b.at = mmap(NULL, b.length, PROT_READ | PROT_WRITE, MAP_PRIVATE | MAP_ANONYMOUS | MAP_NORESERVE, -1, 0);
    if (b.at == MAP_FAILED)
        stop("no room for what is sent", strerror(errno));
    return b;
}

/* the bytes of the entry at this place of the trace, or 0 where it ends or closes */
static size_t entry_length(size_t at)
{
    uint64_t read = semduoli_entry_read(play.trace.at + at, play.trace.length - at);
    return SEMDUOLI_ENTRY_READ(read);
}

/* Plays the whole trace. Of a long one the first entries are played by themselves before, to tell how long it will take. */
static uint64_t play_all(void)
{
    size_t entries = 0, first = 0;
    for (size_t at = 0, length; (length = entry_length(at)); at += length, entries++)
        if (entries == LONG)
            first = at;
    play.out = room_for(entries);
    if (!first)
        return call(play.trace.length);
    begun = seconds();
    call(first);
    expected = (seconds() - begun) / LONG * (double)entries;
    fprintf(stderr, "playback: %zu entries, about %.1f s\n", entries, expected);
    begun = seconds();
    signal(SIGALRM, tell);
    tell_every(PAUSE);
    uint64_t answer = call(play.trace.length);
    tell_every(0);
    return answer;
}

/* ---- what is printed */

static const char *refusal(unsigned number)
{
    switch (number) {
    case SEMDUOLI_REFUSED_PARTIES: return "n, t or own number out of bounds";
    case SEMDUOLI_REFUSED_THRESHOLD: return "k out of bounds";
    case SEMDUOLI_REFUSED_LENGTH: return "L out of bounds, or the initial value not that long";
    case SEMDUOLI_REFUSED_FRAMING: return "frame under 9 bytes, or its length wrong";
    case SEMDUOLI_REFUSED_VERSION: return "frame's version not 1";
    case SEMDUOLI_REFUSED_KIND: return "no kind, or a retired one";
    case SEMDUOLI_REFUSED_OWNER: return "client not 1 to 8, or sequence 0";
    case SEMDUOLI_REFUSED_BODY: return "body length wrong for the kind";
    case SEMDUOLI_REFUSED_CONTENT: return "stamp parts mixed, or writer above 8";
    case SEMDUOLI_REFUSED_ROOM: return "lent area short";
    case SEMDUOLI_REFUSED_SENDER: return "not from this sender to a server";
    case SEMDUOLI_REFUSED_STALE: return "old, repeated or not awaited";
    case SEMDUOLI_REFUSED_AHEAD: return "above the open sequence";
    case SEMDUOLI_REFUSED_DIGEST: return "block against its digest";
    default: return "unknown";
    }
}

/* the ending of a word for this number of things */
static const char *plural(unsigned long long count)
{
    return count == 1 ? "" : "s";
}

static const char *class_name(unsigned class_)
{
    return class_ == SEMDUOLI_CLASS_SERVER ? "server" : "client";
}

static void print_hex(const uint8_t *bytes, size_t length)
{
    while (length--)
        printf("%02x", *bytes++);
}

static void print_header(unsigned kind, unsigned client, unsigned long long sequence)
{
    static const char *const kinds[] = {
        [SEMDUOLI_KIND_GET_STAMP] = "get-stamp", [SEMDUOLI_KIND_STAMP] = "stamp", [SEMDUOLI_KIND_SEND] = "send",
        [SEMDUOLI_KIND_ECHO] = "echo",           [SEMDUOLI_KIND_READY] = "ready", [SEMDUOLI_KIND_ACK] = "ack",
        [SEMDUOLI_KIND_READ] = "read",           [SEMDUOLI_KIND_VALUE] = "value", [SEMDUOLI_KIND_READ_COMPLETE] = "read-complete",
        [SEMDUOLI_KIND_REPORT] = "report",
    };
    if (kind < sizeof kinds / sizeof *kinds && kinds[kind])
        printf("%s", kinds[kind]);
    else
        printf("kind %u", kind);
    printf(" of client %u, sequence %llu", client, sequence);
}

/* a frame's kind, client and sequence. Of one that does not open the library says none of these: what its bytes give is printed, if there are enough. */
static void print_frame(const uint8_t *frame, size_t length)
{
    uint64_t header = semduoli_frame_header(play.n, play.t, play.k, play.size, frame, length), sequence = 0;
    if (!SEMDUOLI_REFUSAL(header)) {
        print_header(SEMDUOLI_HEADER_KIND(header), SEMDUOLI_HEADER_CLIENT(header), SEMDUOLI_HEADER_SEQUENCE(header));
    } else if (length < CLAIMS) {
        printf("%zu bytes", length);
    } else {
        for (int i = CLAIMED_SEQUENCE; i < CLAIMS; i++)
            sequence = sequence << 8 | frame[i];
        print_header(frame[CLAIMED_KIND], frame[CLAIMED_CLIENT], sequence);
    }
}

/* Prints an entry and the reply to it; where the next reply begins. */
static const uint8_t *print_entry(uint64_t i, size_t at, const uint8_t *reply, int frames_too)
{
    const uint8_t *entry = play.trace.at + at;
    uint64_t read = semduoli_entry_read(entry, play.trace.length - at);
    unsigned answer = semduoli_reply_number(reply), count = semduoli_reply_count(reply);
    printf("%llu: %s %u, ", (unsigned long long)i, class_name(SEMDUOLI_ENTRY_CLASS(read)), SEMDUOLI_ENTRY_SENDER(read));
    print_frame(entry + SEMDUOLI_ENTRY_HEAD, SEMDUOLI_ENTRY_READ(read) - SEMDUOLI_ENTRY_HEAD);
    if (answer)
        printf(": refused %u, %s\n", answer, refusal(answer));
    else
        printf(": step, %u frame%s\n", count, plural(count));
    reply += SEMDUOLI_REPLY_HEAD;
    for (unsigned j = 0; j < count; j++) {
        const uint8_t *to = reply, *frame = reply + SEMDUOLI_RECEIVER;
        size_t bytes = semduoli_frame_length(frame);
        if (frames_too) {
            printf("  > %s %u, ", class_name(to[0]), to[1]);
            print_frame(frame, bytes);
            printf(": ");
            print_hex(frame, bytes);
            printf("\n");
        }
        reply = frame + bytes;
    }
    return reply;
}

static void print_end(uint64_t played, unsigned closing)
{
    uint8_t stamp[SEMDUOLI_STAMP] = {0}, block[SEMDUOLI_SIZE_MOST] = {0};
    semduoli_server_stamp(play.state, sizeof play.state, stamp, sizeof stamp);
    semduoli_server_block(play.n, play.t, play.k, play.size, play.area, sizeof play.area, play.initial, sizeof play.initial, play.state,
                          sizeof play.state, block, sizeof block);
    if (closing)
        printf("closed %u at entry %llu, %s\n", closing, (unsigned long long)(played + 1),
               closing == SEMDUOLI_TRACE_MALFORMED ? "entry malformed" : "the trace ends inside this entry");
    else
        printf("whole\n");
    printf("stamp %llu %u %lu\nblock ", (unsigned long long)semduoli_stamp_time(stamp), semduoli_stamp_writer(stamp),
           (unsigned long)semduoli_stamp_sequence(stamp));
    print_hex(block, SEMDUOLI_BLOCK(play.k, play.size));
    printf("\n");
}

static void print_all(uint64_t played, unsigned closing, int frames_too)
{
    const uint8_t *reply = play.out.at;
    size_t at = 0;
    unsigned long long answers[256] = {0}, frames = 0;
    double told = seconds();
    for (uint64_t i = 1; i <= played; i++) {
        answers[semduoli_reply_number(reply)]++;
        frames += semduoli_reply_count(reply);
        reply = print_entry(i, at, reply, frames_too);
        at += entry_length(at);
        if (i % LONG == 0 && seconds() > told + PAUSE) {
            told = seconds();
            fprintf(stderr, "playback: %llu of %llu entries printed\n", (unsigned long long)i, (unsigned long long)played);
        }
    }
    printf("played %llu: %llu step%s, %llu turned down, %llu frame%s sent\n", (unsigned long long)played, answers[0], plural(answers[0]),
           (unsigned long long)played - answers[0], frames, plural(frames));
    for (unsigned r = 1; r < 256; r++)
        if (answers[r])
            printf("refused %u, %s: %llu\n", r, refusal(r), answers[r]);
    print_end(played, closing);
}

int main(int count, char **arguments)
{
    int hex = 0, frames_too = 0, i = 1;
    for (; i < count && arguments[i][0] == '-' && arguments[i][1]; i++) {
        hex |= !strcmp(arguments[i], "-x");
        frames_too |= !strcmp(arguments[i], "-f");
        if (strcmp(arguments[i], "-x") && strcmp(arguments[i], "-f"))
            break;
    }
    if (count - i != 7) {
        fputs(usage, stderr);
        return FAILED;
    }
    char **given = arguments + i;
    play.n = number(given[0], "N");
    play.t = number(given[1], "T");
    play.k = number(given[2], "K");
    play.size = number(given[3], "L");
    play.me = number(given[4], "OWN");
    play.value = from_hex((struct bytes){(uint8_t *)given[5], strlen(given[5])}, "INITIAL");
    play.trace = contents(given[6]);
    if (hex)
        play.trace = from_hex(play.trace, given[6]);
    uint64_t answer = play_all();
    unsigned refused = SEMDUOLI_REFUSAL(answer), closing = SEMDUOLI_OUTCOME(answer);
    if (refused)
        printf("refused %u, %s\n", refused, refusal(refused));
    else
        print_all(SEMDUOLI_ENTRIES(answer), closing, frames_too);
    if (fflush(stdout) || ferror(stdout))
        stop("standard output", strerror(errno));
    if (closing && !hex && SEMDUOLI_ENTRIES(answer) == 0 && is_hex(play.trace))
        fprintf(stderr, "playback: %s has hexadecimal digits alone: to play them back as bytes, give -x\n", given[6]);
    return refused ? REFUSED : closing ? CLOSED : WHOLE;
}
