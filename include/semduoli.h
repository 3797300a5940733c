/* The register for hosts in C and C++. Link libsemduoli.a (examples/library writes it, for x86-64 Linux).
 *
 * Numbers and lent areas of bytes are all that is passed. An area is a pointer and its length in bytes. A call reads and writes only the areas
 * it is lent, keeps no pointer after it returns, and allocates nothing. Of an area of length 0 the pointer is not used and may be NULL. An area
 * that is lent to be written (`uint8_t *`) must not overlap another area of the same call: a frame that still lies in the out area of the call that
 * sent it is copied before it is handed in by a call that is lent the same out area. A longer area than needed is accepted; its further bytes stay
 * as they were. Calls with different areas may run at the same time.
 *
 * n, t, k and size are a register's parameters: n servers (4 to 10), of which at most t are false (at least 1, n > 3t), k blocks that decode a
 * value (1 to n - 2t), and the length of a value in bytes (1 to 256). All parties of a register are given the same ones in every call. me is the
 * own number of the party that is called: a server's, 1 to n, or a client's, 1 to 8. Every number may have any value, and none has to be tested
 * before a call: those out of bounds are answered 1 to 3.
 *
 * The answer is one number:
 *   bits 0 to 7    0, or the refusal's number, one of enum semduoli_refusal; then all other bits are 0, and every lent byte is as it was
 *   bits 8 to 15   what happened (see each call)
 *   bits 16 on     how many (see each call)
 * The lowest number that applies is answered.
 *
 * WHAT A HOST MUST DO
 *
 * 1. Keep what belongs together. Of each party the host keeps the record and its areas, of a client also the value of its open write, and the frames
 *    that it sent and that may not have arrived. Before a frame of an answer leaves, all of this is stored durably, as one: after a crash the host
 *    finds either all of what was before the call or all of what is after it. A party whose state was lost, or which is older than frames that it
 *    sent, must not be started again.
 * 2. Send again what may have been lost, until the receiver's host has confirmed that it took the frame over: that it was handed in and answered by
 *    anything but 10 and 13, or is kept there to be handed in again. Repeats do no harm, in any order: they are answered 12, a get-stamp is answered again.
 *    An operation may stay open as long as a frame between honest parties is missing.
 * 3. Hand a frame that a server answered 13 in again when its sequence has come: when semduoli_server_open of the client that the frame names is the
 *    frame's sequence or above (semduoli_frame_header tells both). A step may accept the writes of several clients, also of clients that its frame does
 *    not name: look at all eight after each step. And bound what is kept of such frames: a false party can make 13s for ever. Keep at
 *    most some, say four, for each sender and client; what is beyond is dropped and not confirmed, and comes again by its sender's resending.
 * 4. Authenticate the links. What is proved takes it that the class and number of a frame's sender are true: a frame is handed in as that party's
 *    whose key or connection it came by, never as the party's that the frame itself names.
 * 5. Call a party's record from one thread at a time, and give a call stack enough: up to 13,100 bytes were measured (docs/PERFORMANCE.md has them for
 *    each call), which is no bound; 64 KB is ample.
 * 6. Lend areas of the sizes below. The largest frame there can be has SEMDUOLI_FRAME_MOST bytes, and SEMDUOLI_OUT_MOST and SEMDUOLI_TO_MOST bytes
 *    are enough as out and to for every party of every register. A call that is answered 10 has done nothing, and is made again with longer areas.
 * 7. Bound what is kept to be sent again, but drop only what nobody needs. A dropped frame never harms the order of reads and writes; it can keep an
 *    operation open for ever. What may be dropped unconfirmed, by the kind of the frame (semduoli_frame_header):
 *      at a client   1 when its write no longer awaits stamps, 3 when its write has ended, 10 when its read has ended, 12 when a later read has begun.
 *                    So 2n frames at most are kept: those of the open operation, and the last read-completes.
 *      at a server, to a client   of 2 and of 9 all but the one of the highest sequence; of 11 those of lower sequences than the highest, and of this
 *                    all but the four with the largest stamps; of 13 all but the one of the largest time. So seven for each client.
 *      at a server, to a server   4 when this server has accepted the write: when semduoli_server_open of its client is above its sequence; of 13 all but
 *                    the one of the largest time.
 *    What is left, the ready frames (5), has no bound: one for each write and each server that has not confirmed it, about 32n + 17 bytes and a block.
 *    To a server that is away they grow with every write, and all are needed: it takes the writes of a client one after the other, and nothing else
 *    brings it the ones that it missed. A server to which they were dropped lags for good and counts as one of the t false ones. (What is
 *    proved of operations that end takes it that every frame arrives; that these are not needed follows from the steps, and is not proved.)
 * 8. Carry reports, the frames of kind 13, to every client, also to one that has begun nothing: whenever a server's time grows it reports it to servers 1 to
 *    n and clients 1 to 8. The client's host hands a report in like any other frame, by semduoli_client_deliver, and stores the record that it changes.
 *    A write counts a server's reply only once t + 1 servers have reported that time, so a client without reports may wait for ever. A report may end that
 *    wait: then the write goes out in its answer. For a number that no client has, and none will have, reports may be dropped.
 *
 * For hosts in Rust semduoli.rs declares the same calls and numbers. examples/first.c is a small host, and examples/bank.c one that does all of this.
 */
#ifndef SEMDUOLI_H
#define SEMDUOLI_H

#include <stddef.h>
#include <stdint.h>

#ifdef __cplusplus
extern "C" {
#endif

/* The version of this header. It rises when a call, the meaning of an answer or of a kept byte changes, not when a call is added; semduoli_version
 * answers that of the linked library. Version 2 carries a write's time with its blocks: records and frames of version 1 mean something else to it,
 * so all parties of a register change together, and start afresh. Version 3 looks at every block: a decode takes k to n of them and answers 21 where
 * they disagree, and a read may end with SEMDUOLI_DISAGREEMENT; records and frames are those of version 2. Version 4 vouches for times: servers send
 * reports, records are longer and a server's out area larger. To a party of version 3 a report is no frame, and what is proved is proved from fresh
 * starts: all parties of a register change together, and start afresh. */
#define SEMDUOLI_VERSION 4

/* ---- bounds */

#define SEMDUOLI_SERVERS_MOST 10
#define SEMDUOLI_CLIENTS_MOST 8
#define SEMDUOLI_SIZE_MOST 256

/* ---- sizes in bytes. Each is a constant expression of type size_t where the numbers passed are constants, and is computed in size_t whatever type they
 * have. k is not 0 where a size depends on it. */

#define SEMDUOLI_DIGEST ((size_t)32)
/* the records of a server and of a client: state */
#define SEMDUOLI_SERVER ((size_t)2216)
#define SEMDUOLI_CLIENT ((size_t)857)
/* what a server keeps of digests and blocks, area, and a client of the values that an open read has received, rows */
#define SEMDUOLI_AREA ((size_t)97344)
#define SEMDUOLI_ROWS ((size_t)23040)
/* a block, and all blocks of a value; a server's block of the initial value: initial */
#define SEMDUOLI_BLOCK(k, size) (((size_t)(size) + (size_t)(k) - 1) / (size_t)(k))
#define SEMDUOLI_BLOCKS(n, k, size) ((size_t)(n) * SEMDUOLI_BLOCK(k, size))
#define SEMDUOLI_INITIAL(k, size) SEMDUOLI_BLOCK(k, size)
/* the largest frame of a register, and of any */
#define SEMDUOLI_FRAME(n, k, size) (22 + 32 * (size_t)(n) + SEMDUOLI_BLOCK(k, size))
#define SEMDUOLI_FRAME_MOST SEMDUOLI_FRAME(SEMDUOLI_SERVERS_MOST, 1, SEMDUOLI_SIZE_MOST)
/* the receiver of a frame: its class, and its number */
#define SEMDUOLI_RECEIVER ((size_t)2)
/* the frames of a server's call at most: n readies, and for each of eight writes 8 values, an ack and n + 8 reports */
#define SEMDUOLI_SERVER_FRAMES(n) (9 * (size_t)(n) + 136)
/* the areas out and to: so many largest frames of a server's call, n of a client's, and the receiver of each */
#define SEMDUOLI_SERVER_OUT(n, k, size) (SEMDUOLI_SERVER_FRAMES(n) * SEMDUOLI_FRAME(n, k, size))
#define SEMDUOLI_SERVER_TO(n) (SEMDUOLI_RECEIVER * SEMDUOLI_SERVER_FRAMES(n))
#define SEMDUOLI_CLIENT_OUT(n, k, size) ((size_t)(n) * SEMDUOLI_FRAME(n, k, size))
#define SEMDUOLI_CLIENT_TO(n) (SEMDUOLI_RECEIVER * (size_t)(n))
#define SEMDUOLI_OUT_MOST SEMDUOLI_SERVER_OUT(SEMDUOLI_SERVERS_MOST, 1, SEMDUOLI_SIZE_MOST)
#define SEMDUOLI_TO_MOST SEMDUOLI_SERVER_TO(SEMDUOLI_SERVERS_MOST)
/* a reply of a playback before its frames; the area out of a playback of so many entries: that for each, and a server's areas out and to */
#define SEMDUOLI_REPLY_HEAD ((size_t)3)
#define SEMDUOLI_PLAYBACK_OUT(n, k, size, entries) \
    ((size_t)(entries) * (SEMDUOLI_REPLY_HEAD + SEMDUOLI_SERVER_OUT(n, k, size) + SEMDUOLI_SERVER_TO(n)))
/* a stamp: time (8), writer (1) and write sequence (4), high byte first; the time of a frame, which is laid down likewise */
#define SEMDUOLI_STAMP ((size_t)13)
#define SEMDUOLI_TIME ((size_t)8)
/* an entry of a trace before its frame, an entry with a frame of so many bytes, and the longest frame of an entry */
#define SEMDUOLI_ENTRY_HEAD ((size_t)5)
#define SEMDUOLI_ENTRY(frame) (SEMDUOLI_ENTRY_HEAD + (size_t)(frame))
#define SEMDUOLI_ENTRY_FRAME_MOST ((size_t)65532)
/* line numbers of a history */
#define SEMDUOLI_LINES ((size_t)64)
/* a page of a history's sheet, and the sheet of so many operations, which has one page or two */
#define SEMDUOLI_PAGE ((size_t)4380)
#define SEMDUOLI_SHEET(operations) (((size_t)(operations) < 60 ? 1 : 2) * SEMDUOLI_PAGE)
/* an index of accession numbers, and how many values it takes */
#define SEMDUOLI_INDEX ((size_t)577)
#define SEMDUOLI_INDEX_VALUES 64

/* ---- the parts of an answer */

#define SEMDUOLI_REFUSAL(answer) ((unsigned)((answer) & 0xff))
#define SEMDUOLI_OUTCOME(answer) ((unsigned)((answer) >> 8 & 0xff))
#define SEMDUOLI_COUNT(answer) ((unsigned)((answer) >> 16 & 0xffff))
#define SEMDUOLI_SEQUENCE(answer) ((uint64_t)((answer) >> 16))
#define SEMDUOLI_ENTRIES(answer) ((uint64_t)((answer) >> 24))
/* the header of a frame: its kind, the client that it names, the owner of its operation, and the operation's sequence */
#define SEMDUOLI_HEADER_KIND(answer) SEMDUOLI_OUTCOME(answer)
#define SEMDUOLI_HEADER_CLIENT(answer) ((unsigned)((answer) >> 16 & 0xff))
#define SEMDUOLI_HEADER_SEQUENCE(answer) ((uint64_t)((answer) >> 24 & 0xffffffff))
/* an entry that was read: its sender's class and number, and the bytes of the whole entry; and the bytes of one that was written */
#define SEMDUOLI_ENTRY_CLASS(answer) ((unsigned)((answer) >> 16 & 0xff))
#define SEMDUOLI_ENTRY_SENDER(answer) ((unsigned)((answer) >> 24 & 0xff))
#define SEMDUOLI_ENTRY_READ(answer) ((size_t)((answer) >> 32))
#define SEMDUOLI_ENTRY_WRITTEN(answer) ((size_t)((answer) >> 16))
/* the lines of an offending pair of a history: that of the operation that precedes, and that of the other */
#define SEMDUOLI_EARLIER(answer) ((unsigned)((answer) >> 16 & 0xff))
#define SEMDUOLI_LATER(answer) ((unsigned)((answer) >> 24 & 0xff))

enum semduoli_refusal {
    SEMDUOLI_ACCEPTED = 0,            /* none */
    SEMDUOLI_REFUSED_PARTIES = 1,     /* n, t or own number out of bounds */
    SEMDUOLI_REFUSED_THRESHOLD = 2,   /* k out of bounds */
    SEMDUOLI_REFUSED_LENGTH = 3,      /* size out of bounds, or value not that long; message or frame too long */
    SEMDUOLI_REFUSED_FRAMING = 4,     /* frame under 9 bytes, or length field wrong */
    SEMDUOLI_REFUSED_VERSION = 5,     /* frame's version not 1 */
    SEMDUOLI_REFUSED_KIND = 6,        /* frame's kind not 1 to 5 or 9 to 13 */
    SEMDUOLI_REFUSED_OWNER = 7,       /* frame's client not 1 to 8, or sequence 0; a client that is asked for not 1 to 8 */
    SEMDUOLI_REFUSED_BODY = 8,        /* frame's body length wrong for its kind */
    SEMDUOLI_REFUSED_CONTENT = 9,     /* stamp parts mixed, writer above 8, or blocks not fit */
    SEMDUOLI_REFUSED_ROOM = 10,       /* lent area short; see below which it can be */
    SEMDUOLI_REFUSED_SENDER = 11,     /* sender or receiver not the kind's or not the owner */
    SEMDUOLI_REFUSED_STALE = 12,      /* frame old, repeated or not awaited */
    SEMDUOLI_REFUSED_AHEAD = 13,      /* frame above the open sequence; hand it in again when that has moved */
    SEMDUOLI_REFUSED_DIGEST = 14,     /* block against its digest */
    SEMDUOLI_REFUSED_BUSY = 15,       /* an operation is open */
    SEMDUOLI_REFUSED_EXHAUSTED = 16,  /* sequences used up */
    SEMDUOLI_REFUSED_CLOSED = 17,     /* a write after one that closed as out of stamps */
    SEMDUOLI_REFUSED_RECORD = 18,     /* history malformed */
    SEMDUOLI_REFUSED_UNLISTED = 19,   /* history reads a stamp that is not listed */
    SEMDUOLI_REFUSED_DISAGREEMENT = 21, /* blocks to decode that are not all of one value */
    SEMDUOLI_REFUSED_MALFORMED = 22,  /* no entry begins there: length under 3, version not 1 or class above 1, as far as the bytes go */
    SEMDUOLI_REFUSED_CUT = 23,        /* the bytes end inside an entry */
    SEMDUOLI_REFUSED_FULL = 25,       /* index full */
    SEMDUOLI_REFUSED_SHORT = 26       /* value under 8 bytes for the index, tested before 25 */
};

/* 10 does not say which area was short. It is one of these, with the bytes that each must have at least, whatever the call will write:
 *   semduoli_digest               out SEMDUOLI_DIGEST
 *   semduoli_encode, _decode      out SEMDUOLI_BLOCKS(n, k, size); out size
 *   semduoli_judge                lines SEMDUOLI_LINES
 *   semduoli_sheet                out SEMDUOLI_SHEET(operations of the history)
 *   semduoli_index_...            index SEMDUOLI_INDEX
 *   semduoli_server_fresh         state SEMDUOLI_SERVER, area SEMDUOLI_AREA, initial SEMDUOLI_INITIAL(k, size)
 *   semduoli_server_deliver       these three, out SEMDUOLI_SERVER_OUT(n, k, size), to SEMDUOLI_SERVER_TO(n)
 *   semduoli_server_resume        the same five
 *   semduoli_server_stamp, _open  state SEMDUOLI_SERVER; of the first also stamp SEMDUOLI_STAMP
 *   semduoli_server_block         state, area and initial as above, block SEMDUOLI_BLOCK(k, size)
 *   semduoli_frame_time           time SEMDUOLI_TIME
 *   semduoli_entry_write          out SEMDUOLI_ENTRY(frame_length)
 *   semduoli_playback             state, area and initial as above, out SEMDUOLI_PLAYBACK_OUT(n, k, size, entries that are played)
 *   semduoli_client_fresh, _open  state SEMDUOLI_CLIENT
 *   semduoli_begin_read, _write   state SEMDUOLI_CLIENT, out SEMDUOLI_CLIENT_OUT(n, k, size), to SEMDUOLI_CLIENT_TO(n)
 *   semduoli_client_deliver       these three, rows SEMDUOLI_ROWS, result size, stamp SEMDUOLI_STAMP */

/* the class of a party: of a frame's sender, and in the to area */
#define SEMDUOLI_CLASS_CLIENT 0
#define SEMDUOLI_CLASS_SERVER 1

/* the kinds of frames: 1, 3, 10 and 12 go from a client to a server, 2, 9 and 11 from a server to a client, 4 and 5 between servers, 13 from a server to
 * all servers and all clients */
#define SEMDUOLI_KIND_GET_STAMP 1
#define SEMDUOLI_KIND_STAMP 2
#define SEMDUOLI_KIND_SEND 3
#define SEMDUOLI_KIND_ECHO 4
#define SEMDUOLI_KIND_READY 5
#define SEMDUOLI_KIND_ACK 9
#define SEMDUOLI_KIND_READ 10
#define SEMDUOLI_KIND_VALUE 11
#define SEMDUOLI_KIND_READ_COMPLETE 12
#define SEMDUOLI_KIND_REPORT 13

/* whether a frame carries a time */
#define SEMDUOLI_NO_TIME 0
#define SEMDUOLI_HAS_TIME 1

/* what happened at a client */
#define SEMDUOLI_SENT 0
#define SEMDUOLI_WRITTEN 1
#define SEMDUOLI_OUT_OF_STAMPS 2
#define SEMDUOLI_VALUE 3
#define SEMDUOLI_DISAGREEMENT 4

/* what is open at a client */
#define SEMDUOLI_OPEN_NOTHING 0
#define SEMDUOLI_OPEN_ASKING 1  /* a write that awaits stamps */
#define SEMDUOLI_OPEN_ACKING 2  /* a write that awaits acks */
#define SEMDUOLI_OPEN_READING 3 /* a read */

/* how a trace closed that was played back; what is at the front of one that is read */
#define SEMDUOLI_TRACE_WHOLE 0
#define SEMDUOLI_TRACE_ENTRY 1
#define SEMDUOLI_TRACE_MALFORMED 22 /* length under 3, version not 1 or class above 1, as far as the entry's bytes go */
#define SEMDUOLI_TRACE_CUT 23       /* the trace ends inside an entry */

/* what was judged of a history, also of one whose sheet is asked for */
#define SEMDUOLI_ORDERED 0
#define SEMDUOLI_OFFENDING 1

/* The parts of a stamp. */
static inline uint64_t semduoli_stamp_time(const uint8_t *stamp)
{
    uint64_t time = 0;
    for (int i = 0; i < 8; i++)
        time = time << 8 | stamp[i];
    return time;
}

static inline unsigned semduoli_stamp_writer(const uint8_t *stamp)
{
    return stamp[8];
}

static inline uint32_t semduoli_stamp_sequence(const uint8_t *stamp)
{
    return (uint32_t)stamp[9] << 24 | (uint32_t)stamp[10] << 16 | (uint32_t)stamp[11] << 8 | stamp[12];
}

/* How many bytes a frame of an out area has, by the two that it begins with. (One that came by a link has as many as came.) */
static inline size_t semduoli_frame_length(const uint8_t *frame)
{
    return 2 + 256 * (size_t)frame[0] + frame[1];
}

/* A reply of a playback: the number of its answer, and how many frames were sent. These follow after SEMDUOLI_REPLY_HEAD bytes, each after its receiver. */
static inline unsigned semduoli_reply_number(const uint8_t *reply)
{
    return reply[0];
}

static inline unsigned semduoli_reply_count(const uint8_t *reply)
{
    return 256u * reply[1] + reply[2];
}

/* The version of the library: SEMDUOLI_VERSION where this header is its own. */
uint64_t semduoli_version(void);

/* ---- digests and blocks: the answer is 0 or a refusal */

/* The SHA-256 digest of a message of at most 256 bytes, into the first 32 bytes of out. 3: a longer message. */
uint64_t semduoli_digest(const uint8_t *message, size_t message_length, uint8_t *out, size_t out_length);

/* The n blocks of a value, end to end from the start of out: n * SEMDUOLI_BLOCK(k, size) bytes. */
uint64_t semduoli_encode(size_t n, size_t t, size_t k, size_t size, const uint8_t *value, size_t value_length, uint8_t *out, size_t out_length);

/* The value of k to n blocks, which lie end to end in blocks; numbers has the number of each, 1 to n, none twice, in any order. The value goes to the first
 * size bytes of out. 21: the blocks disagree, they are not all blocks of one value; then, as with any refusal, out stays as lent. */
uint64_t semduoli_decode(size_t n, size_t t, size_t k, size_t size, const uint8_t *numbers, size_t numbers_length, const uint8_t *blocks,
                         size_t blocks_length, uint8_t *out, size_t out_length);

/* ---- histories */

/* Whether the operations of a history have an order. A line for each, at most 64: kind R or W, start, end, time, writer, sequence and caller,
 * one space between, a newline after. The caller is 1 to 8, or 0 where it is not known; of two operations of one known caller the one that
 * ends at the point at which the other starts precedes it, any others are concurrent at equal points. SEMDUOLI_ORDERED: they have, and the
 * count says how many they are; lines, of SEMDUOLI_LINES bytes at least, has their line numbers in that order at its front, and what
 * follows them stays as lent. SEMDUOLI_OFFENDING: they have none; SEMDUOLI_EARLIER(answer) is the line number of the earlier operation of an offending pair,
 * SEMDUOLI_LATER(answer) that of the later, the one that is preceded, and lines stays as lent. Of all offending pairs it is the one whose later
 * operation has the smallest line number, and of those the one whose earlier operation has the smallest. */
uint64_t semduoli_judge(const uint8_t *text, size_t text_length, uint8_t *lines, size_t lines_length);

/* The season sheet of a history, as text from the start of out: pages of 60 lines of 72 columns, a newline after each line. An operation has one
 * line, in the order that semduoli_judge gives: its place in that order (3 columns), kind (1), start (10), end (10), time (20), writer (1), sequence
 * (10) and caller (1), right-aligned, one space between. A page has 59 operations, and its 60th line has its number at the right; no operations have
 * one page. SEMDUOLI_ORDERED: the sheet is laid, and the count says how many pages, of SEMDUOLI_PAGE bytes each; what follows them stays as lent.
 * SEMDUOLI_OFFENDING: as in semduoli_judge. Refusals, in this order: 18, 19, 10. A history that is refused or has no order needs no area, and out
 * stays as lent. */
uint64_t semduoli_sheet(const uint8_t *text, size_t text_length, uint8_t *out, size_t out_length);

/* ---- the index of accession numbers: a value's number is its first eight bytes, high byte first; its place is counted from 1 by insertion. The host
 * keeps the index beside the values, as SEMDUOLI_INDEX bytes: a count, then for each value its number (8 bytes, high byte first) and its place (1),
 * rising by number, those of one number in order of insertion. What follows the rows that are counted stays as lent. Any bytes are accepted as an
 * index; only those that these calls wrote, from an empty one on, tell what was inserted. A count above 64 is a full index of 64 rows, and rows that
 * do not rise are searched by halving as they stand. */

/* Makes the index empty. The answer is 0 or 10. */
uint64_t semduoli_index_fresh(uint8_t *index, size_t index_length);

/* Inserts a value; the count is its place, 1 to 64. Refusals, in this order: 10, 26, 25. One that is refused uses no place. */
uint64_t semduoli_index_insert(const uint8_t *value, size_t value_length, uint8_t *index, size_t index_length);

/* The count is the place of the last inserted value that has the number, or 0 where none has it. Refusal: 10. */
uint64_t semduoli_index_search(uint64_t number, const uint8_t *index, size_t index_length);

/* ---- parties: the host keeps each party's record and lends it to every call as state, SEMDUOLI_SERVER or SEMDUOLI_CLIENT bytes. Any bytes are
 * accepted as a record; only those that these calls wrote are one of a run. Where the record's area is short, the lowest number up to 10 is answered.
 *
 * Frames that a call sends lie end to end from the start of out; the count says how many they are, and semduoli_frame_length how long each is: it
 * begins with two bytes, high byte first, that say how many follow. The to area has two bytes for each frame in the same order: the class of its
 * receiver, SEMDUOLI_CLASS_CLIENT or SEMDUOLI_CLASS_SERVER, and its number. The host carries each frame to its receiver and hands it in there, by a
 * deliver call, with the class and the number of the party that sent it. A sender of another class, or whose number is above 255, is nobody: 11, unless
 * a lower number applies. */

/* ---- frames: what a host may ask of one that it sends or was handed, so that it reads no byte of it. A frame is opened as every party of the register
 * would open it; one that does not open says nothing but the number by which it is turned down. Refusals: 1 to 9. */

/* The kind of a frame, SEMDUOLI_HEADER_KIND(answer), one of SEMDUOLI_KIND_..; the client that it names, SEMDUOLI_HEADER_CLIENT(answer), 1 to 8; and the
 * sequence of that client's operation, SEMDUOLI_HEADER_SEQUENCE(answer): of a write in kinds 1 to 5, 9 and 13, of a read in kinds 10 to 12. A report
 * names the write that raised the server's time, whoever receives it. */
uint64_t semduoli_frame_header(size_t n, size_t t, size_t k, size_t size, const uint8_t *frame, size_t frame_length);

/* The time that a frame carries. SEMDUOLI_HAS_TIME: it is in the first SEMDUOLI_TIME bytes of time, and semduoli_stamp_time(time) is its number: of kind
 * 2 that of the server's stamp, of 3 to 5 the one that the write goes by (its stamp has one more), of 11 that of the value's stamp, of 13 that of the
 * server's stamp after the write. SEMDUOLI_NO_TIME: a frame of its kind carries none, and time stays as lent. Refusals: also 10, after the others. */
uint64_t semduoli_frame_time(size_t n, size_t t, size_t k, size_t size, const uint8_t *frame, size_t frame_length, uint8_t *time, size_t time_length);

/* ---- a server, of which the host keeps, beside the record, the area of SEMDUOLI_AREA bytes and its block of the initial value, initial */

/* Makes server me (1 to n) afresh: writes its record, writes the digests of the initial value to the start of the area, and the server's block of
 * that value, SEMDUOLI_INITIAL(k, size) bytes, to the start of initial. All servers are given the same value. The answer is 0 or a refusal: 1, 2, 3
 * or 10. */
uint64_t semduoli_server_fresh(size_t n, size_t t, size_t k, size_t size, size_t me, const uint8_t *value, size_t value_length, uint8_t *area,
                               size_t area_length, uint8_t *initial, size_t initial_length, uint8_t *state, size_t state_length);

/* Hands a frame to server me. The count says how many frames are sent, 0 to SEMDUOLI_SERVER_FRAMES(n); out has SEMDUOLI_SERVER_OUT bytes at least, to has
 * SEMDUOLI_SERVER_TO. A write that is complete waits until its time is vouched for: t + 1 servers have reported it or a larger one, or the server's own
 * time has come to it. What a step frees is accepted in that step, by rising client number and from the lowest again after each. In out each accepted
 * write has its values, its ack and, if the server's time grew, its reports to servers 1 to n and clients 1 to 8, after any ready frames. Of the record
 * only the stamp, the sender's report, what it has of the client that the frame names, and the open writes of the clients whose writes are accepted are
 * written.
 * Refusals: 1 to 14. */
uint64_t semduoli_server_deliver(size_t n, size_t t, size_t k, size_t size, size_t me, size_t sender_class, size_t sender, const uint8_t *frame,
                                 size_t frame_length, uint8_t *area, size_t area_length, const uint8_t *initial, size_t initial_length,
                                 uint8_t *state, size_t state_length, uint8_t *out, size_t out_length, uint8_t *to, size_t to_length);

/* The stamp that the server holds, the largest of the writes that it accepted, into the first SEMDUOLI_STAMP bytes of stamp; all 0 in a fresh
 * server. The answer is 0 or 10. */
uint64_t semduoli_server_stamp(const uint8_t *state, size_t state_length, uint8_t *stamp, size_t stamp_length);

/* The sequence of the write of a client (1 to 8) that the server works on: SEMDUOLI_SEQUENCE(answer), 2^32 where none is left. A frame of that client
 * that was answered 13 is handed in again when this has come to its sequence. Refusals: 7, 10. */
uint64_t semduoli_server_open(size_t client, const uint8_t *state, size_t state_length);

/* The block that the server holds of the value with that stamp, into the first SEMDUOLI_BLOCK(k, size) bytes of block. Refusals: 1, 2, 3, 10. */
uint64_t semduoli_server_block(size_t n, size_t t, size_t k, size_t size, const uint8_t *area, size_t area_length, const uint8_t *initial,
                               size_t initial_length, const uint8_t *state, size_t state_length, uint8_t *block, size_t block_length);

/* ---- traces: what a server was handed, as entries end to end. An entry is a length (2 bytes, high byte first) that counts what follows it, version 1,
 * the class and the number of the sender, and from byte SEMDUOLI_ENTRY_HEAD on the frame. */

/* Writes an entry to the start of out; SEMDUOLI_ENTRY_WRITTEN(answer) says how many bytes it takes, SEMDUOLI_ENTRY(frame_length). Any bytes may be its
 * frame. Refusals, in this order: 3, the frame is longer than SEMDUOLI_ENTRY_FRAME_MOST; 10; 11, the class is neither SEMDUOLI_CLASS_CLIENT nor
 * SEMDUOLI_CLASS_SERVER, or the sender's number is above 255. */
uint64_t semduoli_entry_write(size_t sender_class, size_t sender, const uint8_t *frame, size_t frame_length, uint8_t *out, size_t out_length);

/* Reads the entry at the start of trace, which may have more after it. SEMDUOLI_TRACE_ENTRY: there is one; SEMDUOLI_ENTRY_CLASS(answer) and
 * SEMDUOLI_ENTRY_SENDER(answer) name the sender, and SEMDUOLI_ENTRY_READ(answer) says how many bytes the entry takes, so that its frame has
 * SEMDUOLI_ENTRY_HEAD bytes less. SEMDUOLI_TRACE_WHOLE: no bytes are left. Refusals, in this order: 22, 23. */
uint64_t semduoli_entry_read(const uint8_t *trace, size_t trace_length);

/* Plays back what server me was handed: makes it afresh, as semduoli_server_fresh does, and hands it the frames of a trace in their order.
 * The outcome is SEMDUOLI_TRACE_WHOLE, or where the trace closes before its end SEMDUOLI_TRACE_MALFORMED or .._CUT; SEMDUOLI_ENTRIES(answer) says how
 * many entries were played, and it closed at the next one. From the start of out each of them has a reply: the number of its answer (1 byte, 0 for a
 * step), the count of frames sent (2, high byte first), and each frame after its receiver's class and number; what follows stays as lent. A frame that is
 * turned down does not end the playback. Record, area and initial block are then those of a server that took these steps; out has
 * SEMDUOLI_PLAYBACK_OUT bytes at least for the entries that are played, whatever they send. Refusals: 1, 2, 3, 10. */
uint64_t semduoli_playback(size_t n, size_t t, size_t k, size_t size, size_t me, const uint8_t *value, size_t value_length, const uint8_t *trace,
                           size_t trace_length, uint8_t *area, size_t area_length, uint8_t *initial, size_t initial_length, uint8_t *state,
                           size_t state_length, uint8_t *out, size_t out_length);

/* Goes on from the kept record, area and initial block of server me: hands it the frames of a trace in their order. For a host that starts again, with
 * what it handed in since it kept them. out and to are lent as for one semduoli_server_deliver and are used again by each step; they end as the last one left
 * them. Outcome and SEMDUOLI_ENTRIES(answer) as of semduoli_playback. A frame that is turned down changes nothing, so a trace of the steps alone leaves the
 * same. Refusals: 1, 2, 3, 10. */
uint64_t semduoli_server_resume(size_t n, size_t t, size_t k, size_t size, size_t me, const uint8_t *trace, size_t trace_length, uint8_t *area,
                                size_t area_length, const uint8_t *initial, size_t initial_length, uint8_t *state, size_t state_length, uint8_t *out,
                                size_t out_length, uint8_t *to, size_t to_length);

/* ---- a client, of which the host keeps, beside the record, the area of SEMDUOLI_ROWS bytes, rows, of any content at first; out has
 * SEMDUOLI_CLIENT_OUT bytes at least, to has SEMDUOLI_CLIENT_TO */

/* Writes a fresh client's record. The answer is 0 or 10. */
uint64_t semduoli_client_fresh(uint8_t *state, size_t state_length);

/* Which operation is open: the outcome is SEMDUOLI_OPEN_NOTHING, .._ASKING, .._ACKING or .._READING, and SEMDUOLI_SEQUENCE(answer) its sequence, 0 where
 * nothing is open. Refusal: 10. */
uint64_t semduoli_client_open(const uint8_t *state, size_t state_length);

/* Client me (1 to 8) begins a read. SEMDUOLI_SENT, and the count is n. Refusals: 1, 2, 3, 10, 15, 16. */
uint64_t semduoli_begin_read(size_t n, size_t t, size_t k, size_t size, size_t me, uint8_t *state, size_t state_length, uint8_t *out,
                             size_t out_length, uint8_t *to, size_t to_length);

/* Client me begins the write of a value. SEMDUOLI_SENT, and the count is n. The value is lent again, unchanged, to the deliver calls that carry the
 * write on. Refusals: 1, 2, 3, 10, 15, 16, 17. */
uint64_t semduoli_begin_write(size_t n, size_t t, size_t k, size_t size, size_t me, uint8_t *state, size_t state_length, const uint8_t *value,
                              size_t value_length, uint8_t *out, size_t out_length, uint8_t *to, size_t to_length);

/* Hands a frame to client me, with the value of its open write; where no write is open the value is not looked at and may have length 0.
 *   SEMDUOLI_SENT            nothing has ended; the count says how many frames are sent, 0 or n. With n a write goes out, in frames of kind
 *                            3: its stamp is their time (semduoli_frame_time) plus 1, me, and their sequence
 *   SEMDUOLI_WRITTEN         the write has ended; nothing is sent
 *   SEMDUOLI_OUT_OF_STAMPS   the write has closed as out of stamps: of the n - t replies or more that count one has the largest time there is,
 *                            2^64 - 1. Nothing is sent, the value is written nowhere, and the client writes no more: each further write is refused by 17
 *   SEMDUOLI_VALUE           the read has ended; its value is in the first size bytes of result, its stamp in the first SEMDUOLI_STAMP bytes of stamp,
 *                            and n frames are sent, as the count says
 *   SEMDUOLI_DISAGREEMENT    the read has ended without a value: n - t servers gave the same stamp and digests, but their blocks are not all blocks of
 *                            one value. n frames are sent, as the count says
 * result has size bytes at least, stamp SEMDUOLI_STAMP; they stay as they were unless a read ends with a value. Refusals: 1 to 12, 14.
 *
 * A disagreement is no refusal, and no passing fault. It is proved that with at most t false servers, true senders and no party that went on after
 * losing its state, a client sees it only where two different blocks have one SHA-256 digest. So one of these conditions does not hold. Take no value
 * from that read; keep the client's areas, the frames it was handed and the servers' traces for the staff; find the machine at fault (semduoli_playback)
 * before results of this register are relied upon. The client itself is ready: another read may be begun, and may give a value.
 *
 * A write that waits for stamps counts a server's first reply only once t + 1 servers have reported that time or a larger one, in a stamp or in a report,
 * and takes the largest time that counts. So false servers, t at most, cannot push the numbering ahead: it is proved, from fresh starts, that the times of
 * all writes that took effect have no gap, so that the largest of them is at most their number. An enormous time that a false server names is left uncounted.
 * SEMDUOLI_OUT_OF_STAMPS then takes 2^64 - 1 writes that took effect; where it comes earlier, more than t servers are false, a sender was not true, or a
 * party went on after losing its state. Nothing that was written is lost, and reads go on; but no call opens such a client for writing again.
 *
 * A report may come at any time, for any client's write: without an open operation, in a read and while acks are awaited it is kept and sends nothing. One
 * that is not higher than what that server has told before is 12. */
uint64_t semduoli_client_deliver(size_t n, size_t t, size_t k, size_t size, size_t me, size_t sender_class, size_t sender, const uint8_t *value,
                                 size_t value_length, const uint8_t *frame, size_t frame_length, uint8_t *rows, size_t rows_length,
                                 uint8_t *result, size_t result_length, uint8_t *stamp, size_t stamp_length, uint8_t *state, size_t state_length,
                                 uint8_t *out, size_t out_length, uint8_t *to, size_t to_length);

#ifdef __cplusplus
}
#endif

#endif
