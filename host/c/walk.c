/*
 * walk.c: the C interface, walked through once. An image goes out in four DATA chunks and arrives out of order, over the wrap of the
 * TSNs, one chunk twice. Each chunk is read and pushed to the TSN queue and to reassembly; the gap report goes into a SACK,
 * which is read back. Then the message is taken and read, whole and in pieces. Of the next message one piece comes, and the
 * sender gives it up: its FORWARD TSN is read and applied to both queues. A packet of two DATA chunks is written, read and walked.
 * Last, the causes of an ERROR are read. Every answer is checked: the last line says how many, and the program ends with 1 where one is not what documents 01
 * and 02 say.
 */
#include <stdio.h>
#include <string.h>

#include "sctp_receive.h"

enum { STREAM = 2, WINDOW = 1500, MAX_MESSAGE = 1000, SEGMENTS = 4, CHUNK = 64 };

static const uint32_t first_tsn = 4294967294u;
static const uint32_t loader = 0x4C4F4144u; /* a payload identifier of the loader's own */
static const char image[] = "software image 7, segment by segment, over the wrap of the TSNs";

static unsigned checks, wrong;

/* Counts a check, and says so where what is seen is not what is wanted. */
static void same(const char *what, long long seen, long long wanted)
{
    checks++;
    if (seen != wanted) {
        wrong++;
        printf("WRONG %s: %lld, not %lld\n", what, seen, wanted);
    }
}

/* ---- what C keeps: each queue's numbers beside its table, and the message in hand ---- */

struct tsns {
    size_t count, n_bytes, dups;
    uint32_t log[SCTP_RECEIVE_LOG];
    uint32_t table[SCTP_RECEIVE_TSN_WORDS];
    uint32_t cumulative;
};

struct fragments {
    uint16_t si, next_ssn;
    uint32_t max_message_size;
    size_t finished, unordered, ordered, n_bytes;
    uint32_t table[SCTP_RECEIVE_FRAGMENT_WORDS];
    uint8_t pool[SCTP_RECEIVE_BYTES];
};

struct message {
    bool found;
    uint16_t ssn;
    uint32_t ppi;
    size_t bytes, position;
    bool given;
    uint8_t buffer[MAX_MESSAGE];
};

struct chunk {
    bool unordered, beginning, ending, immediate;
    uint32_t tsn;
    uint16_t stream, ssn;
    uint32_t ppi;
    const uint8_t *data;
    size_t size;
};

static struct tsns q;
static struct fragments r;
static struct message m;
static uint8_t wire[SEGMENTS][CHUNK];
static size_t wire_size[SEGMENTS];

/* ---- the sender: the image, cut into DATA chunks ---- */

static void write_chunks(void)
{
    size_t whole = sizeof image - 1, each = whole / SEGMENTS;
    for (size_t i = 0; i < SEGMENTS; i++) {
        size_t size = i + 1 < SEGMENTS ? each : whole - i * each;
        int32_t k = sctp_receive_data_marshal_to(wire[i], CHUNK, false, i == 0, i + 1 == SEGMENTS, false, first_tsn + (uint32_t)i,
                                                 STREAM, 0, loader, (const uint8_t *)image + i * each, size,
                                                 &wire_size[i]);
        same("DATA is written", k, SCTP_RECEIVE_OK);
        same("its byte count", (long long)wire_size[i], (long long)(16 + size));
    }
}

/* ---- the receiver ---- */

/* The chunk that these bytes begin with. */
static struct chunk read_chunk(const uint8_t *raw, size_t size)
{
    struct chunk c;
    size_t start;
    int32_t k = sctp_receive_data_unmarshal(raw, size, &c.unordered, &c.beginning, &c.ending, &c.immediate, &c.tsn, &c.stream, &c.ssn,
                                            &c.ppi);
    same("DATA is read", k, SCTP_RECEIVE_OK);
    k = sctp_receive_data_user_data(raw, size, &start, &c.size);
    same("its part is read", k, SCTP_RECEIVE_OK);
    same("it starts at byte 16", (long long)start, 16);
    same("its identifier is as sent", c.ppi, loader);
    c.data = raw + start;
    return c;
}

/* Takes the TSN that follows the cumulative one out of the TSN queue, if it is there, and moves the cumulative TSN on. */
static bool pop_next(void)
{
    struct chunk c;
    bool found;
    uint16_t size;
    int32_t k = sctp_receive_payload_queue_pop(&q.count, &q.n_bytes, &q.dups, q.log, q.table, q.cumulative + 1, &found, &c.unordered,
                                               &c.beginning, &c.ending, &c.immediate, &c.tsn, &c.stream, &c.ssn, &c.ppi, &size);
    same("TSN queue pop", k, SCTP_RECEIVE_OK);
    if (found)
        q.cumulative = c.tsn;
    else
        same("nothing popped: its fields are 0", (long long)(c.tsn + c.ppi + c.stream + size), 0);
    return found;
}

/* Pushes a chunk to both queues. Answers whether its TSN is new, and says through `whole` whether it completes a message. */
static bool push(const struct chunk *c, bool *whole)
{
    bool fresh;
    int32_t k = sctp_receive_payload_queue_push(&q.count, &q.n_bytes, &q.dups, q.log, q.table, c->unordered, c->beginning, c->ending,
                                                c->immediate, c->tsn, c->stream, c->ssn, c->ppi, (uint16_t)c->size, q.cumulative,
                                                &fresh);
    same("TSN queue push", k, SCTP_RECEIVE_OK);
    *whole = false;
    if (fresh) {
        k = sctp_receive_reassembly_queue_push(&r.si, &r.next_ssn, &r.max_message_size, &r.finished, &r.unordered, &r.ordered,
                                               &r.n_bytes, r.table, r.pool, sizeof r.pool, c->unordered, c->beginning, c->ending,
                                               c->immediate, c->tsn, c->stream, c->ssn, c->ppi, c->data, c->size, whole);
        same("reassembly push", k, SCTP_RECEIVE_OK);
    }
    while (pop_next())
        ;
    return fresh;
}

/* The SACK of what has come, with the duplicates that were logged, written to the front of `out`; answers its byte count. */
static size_t write_sack(uint8_t *out, size_t room)
{
    uint16_t starts[SCTP_RECEIVE_TSNS], ends[SCTP_RECEIVE_TSNS];
    uint32_t duplicates[SCTP_RECEIVE_LOG];
    size_t blocks, dups, size;
    int32_t k = sctp_receive_payload_queue_get_gap_ack_blocks(q.count, q.n_bytes, q.dups, q.log, q.table, q.cumulative, starts,
                                                              SCTP_RECEIVE_TSNS, ends, SCTP_RECEIVE_TSNS, &blocks);
    same("gap report", k, SCTP_RECEIVE_OK);
    k = sctp_receive_payload_queue_pop_duplicates(&q.count, &q.n_bytes, &q.dups, q.log, q.table, &dups, duplicates);
    same("duplicates", k, SCTP_RECEIVE_OK);
    k = sctp_receive_sack_marshal_to(out, room, q.cumulative, WINDOW, starts, blocks, ends, blocks, duplicates, dups, &size);
    same("SACK is written", k, SCTP_RECEIVE_OK);
    return size;
}

/* What the sender of the image is to be told after an arrival: at most one block and one duplicate in this walk. */
struct told {
    uint32_t cumulative;
    uint16_t blocks, start, end, duplicates;
    uint32_t duplicate;
};

/* Reads a SACK back, prints it and holds it to what it must say. */
static void read_sack(const uint8_t *raw, size_t size, const struct told *t)
{
    uint32_t cumulative, window, tsn;
    uint16_t blocks, duplicates, start, end;
    size_t from, part;
    same("SACK is read", sctp_receive_sack_unmarshal(raw, size, &cumulative, &window, &blocks, &duplicates), SCTP_RECEIVE_OK);
    same("cumulative TSN", cumulative, t->cumulative);
    same("window", window, WINDOW);
    same("blocks", blocks, t->blocks);
    same("duplicates", duplicates, t->duplicates);
    printf("SACK %lu,", (unsigned long)cumulative);
    same("its blocks are found", sctp_receive_sack_gap_ack_blocks(raw, size, &from, &part), SCTP_RECEIVE_OK);
    for (size_t i = 0; sctp_receive_sack_gap_ack_block_at(raw + from, part, i, &start, &end) == SCTP_RECEIVE_OK; i++) {
        printf(" block %u-%u", start, end);
        same("start", start, t->start);
        same("end", end, t->end);
    }
    same("past the blocks: 0", start + end, 0);
    same("its duplicates are found", sctp_receive_sack_duplicate_tsns(raw, size, &from, &part), SCTP_RECEIVE_OK);
    for (size_t i = 0; sctp_receive_sack_duplicate_tsn_at(raw + from, part, i, &tsn) == SCTP_RECEIVE_OK; i++) {
        printf(" duplicate %lu", (unsigned long)tsn);
        same("duplicate", tsn, t->duplicate);
    }
    printf(" (%lu bytes)\n", (unsigned long)size);
}

/* One chunk arrives: segment i, which must be new or not, and complete the message or not. */
static void arrive(size_t i, bool is_new, bool completes, const struct told *t)
{
    uint8_t sack[CHUNK];
    bool whole;
    struct chunk c = read_chunk(wire[i], CHUNK);
    bool fresh = push(&c, &whole);
    printf("TSN %lu: %s%s, ", (unsigned long)c.tsn, fresh ? "new" : "twice", whole ? ", the message is whole" : "");
    same("new", fresh, is_new);
    same("whole", whole, completes);
    read_sack(sack, write_sack(sack, sizeof sack), t);
}

/* Takes the message: first into a buffer that is too short, then to its own. */
static void take(void)
{
    size_t whole = sizeof image - 1;
    for (size_t room = whole - 1; room <= whole; room++) {
        int32_t k = sctp_receive_reassembly_queue_read(&r.si, &r.next_ssn, &r.max_message_size, &r.finished, &r.unordered, &r.ordered,
                                                       &r.n_bytes, r.table, r.pool, sizeof r.pool, m.buffer, room, &m.found, &m.ssn,
                                                       &m.ppi, &m.bytes, &m.position, &m.given);
        same("take", k, room < whole ? SCTP_RECEIVE_NO_ROOM : SCTP_RECEIVE_OK);
        same("found", m.found, room == whole);
    }
    printf("taken: SSN %u, identifier %lu, %lu bytes\n", m.ssn, (unsigned long)m.ppi, (unsigned long)m.bytes);
    same("identifier", m.ppi, loader);
    same("bytes", (long long)m.bytes, (long long)whole);
    same("nothing stays held", (long long)(r.n_bytes + r.finished + r.unordered + r.ordered), 0);
    same("the next SSN is expected", r.next_ssn, 1);
}

/* Reads the message, whole into a buffer that is too short and into one that is not, and then in pieces. */
static void read_message(void)
{
    uint8_t out[sizeof image] = {0}, joined[sizeof image] = {0};
    size_t n, start, size, got = 0;
    bool found;
    same("short whole read", sctp_receive_chunks_read(m.bytes, m.position, m.given, m.buffer, sizeof m.buffer, out, 8, &n),
         SCTP_RECEIVE_SHORT_BUFFER);
    same("what fits", memcmp(out, image, 8) + out[8] + (int)n, 0);
    same("whole read", sctp_receive_chunks_read(m.bytes, m.position, m.given, m.buffer, sizeof m.buffer, out, sizeof out, &n),
         SCTP_RECEIVE_OK);
    same("the image", memcmp(out, image, sizeof image), 0);
    printf("whole: \"%s\"\npieces:", (const char *)out);
    while (sctp_receive_chunks_next(&m.bytes, &m.position, &m.given, m.buffer, sizeof m.buffer, 25, &found, &start, &size) ==
               SCTP_RECEIVE_OK &&
           found) {
        same("where the last one ended", (long long)start, (long long)got);
        memcpy(joined + got, m.buffer + start, size);
        got += size;
        printf(" %lu", (unsigned long)size);
    }
    printf(", none\n");
    same("the image, piece by piece", memcmp(joined, image, sizeof image), 0);
}

/* Applies a FORWARD TSN chunk to both queues: its point and its pairs, beside the cumulative TSN that was. */
static void apply(uint32_t cumulative, uint32_t point, const uint8_t *pairs, size_t size)
{
    int32_t k = sctp_receive_forward_tsn_apply_to_tsns(&q.count, &q.n_bytes, &q.dups, q.log, q.table, cumulative, point);
    same("TSN queue, FORWARD TSN applied", k, SCTP_RECEIVE_OK);
    k = sctp_receive_forward_tsn_apply_to_stream(&r.si, &r.next_ssn, &r.max_message_size, &r.finished, &r.unordered, &r.ordered,
                                                 &r.n_bytes, r.table, r.pool, sizeof r.pool, cumulative, point, pairs, size);
    same("reassembly, FORWARD TSN applied", k, SCTP_RECEIVE_OK);
}

/* One piece of the next message comes, behind a gap, and the sender gives the message up. */
static void give_up(void)
{
    static const uint16_t streams[] = {STREAM + 1, STREAM}, ssns[] = {9, 1};
    struct chunk piece = {false, true, false, false, 3, STREAM, 1, SCTP_RECEIVE_BINARY, (const uint8_t *)image, 8};
    uint8_t raw[CHUNK];
    uint32_t point;
    uint16_t pairs, stream, ssn;
    size_t size, start, part;
    bool whole;
    same("a piece behind a gap", push(&piece, &whole), true);
    same("FORWARD TSN is written", sctp_receive_forward_tsn_marshal_to(raw, sizeof raw, 3, streams, 2, ssns, 2, &size), SCTP_RECEIVE_OK);
    same("FORWARD TSN is read", sctp_receive_forward_tsn_unmarshal(raw, size, &point, &pairs), SCTP_RECEIVE_OK);
    same("its pairs are found", sctp_receive_forward_tsn_streams(raw, size, &start, &part), SCTP_RECEIVE_OK);
    printf("FORWARD TSN %lu,", (unsigned long)point);
    for (size_t i = 0; sctp_receive_forward_tsn_stream_at(raw + start, part, i, &stream, &ssn) == SCTP_RECEIVE_OK; i++) {
        printf(" stream %u to SSN %u", stream, ssn);
        same("the pair", stream == streams[i] && ssn == ssns[i], true);
    }
    printf(" (%lu bytes)\n", (unsigned long)size);
    same("bytes, pairs, and 0 past them", (long long)(size + pairs + stream + ssn), 16 + 2);
    apply(point, point, raw + start, part);
    same("an old point changes nothing", (long long)(q.count + r.n_bytes + r.next_ssn), 1 + 8 + 1);
    apply(q.cumulative, point, raw + start, part);
    same("a new one: nothing stays held", (long long)(q.count + q.n_bytes + r.ordered + r.n_bytes), 0);
    same("and SSN 2 is expected", r.next_ssn, 2);
}

/* A skip held over a stream reset: the point does not reach the piece that is held, so the piece stays, and its SSN is expected. */
static void hold_back(void)
{
    struct chunk piece = {false, true, false, false, 9, STREAM, 3, SCTP_RECEIVE_BINARY, (const uint8_t *)image, 8};
    bool whole, found = true;
    uint16_t ssn = 7;
    int32_t k = SCTP_RECEIVE_OK;
    same("a piece after the skip's point", push(&piece, &whole), true);
    k = sctp_receive_reassembly_queue_applicable_forward_tsn_for_ordered_bounded(
        r.si, r.next_ssn, r.max_message_size, r.finished, r.unordered, r.ordered, r.n_bytes, r.table, r.pool, sizeof r.pool, 4, 8, 8,
        &found, &ssn);
    same("nothing of the skip applies yet", k, SCTP_RECEIVE_OK);
    same("and no SSN is given", (long long)found + ssn, 0);
    for (uint32_t point = 9; point < 11; point++) {
        k = sctp_receive_reassembly_queue_forward_tsn_for_ordered_bounded(&r.si, &r.next_ssn, &r.max_message_size, &r.finished, &r.unordered,
                                                                          &r.ordered, &r.n_bytes, r.table, r.pool, sizeof r.pool, 4, point);
        same("a bounded skip", k, SCTP_RECEIVE_OK);
        same("up to the piece, then past it", (long long)(r.n_bytes + r.next_ssn), point == 9 ? 8 + 3 : 0 + 5);
    }
}

/* Writes a packet of the first chunk and a shorter one, which take 1 and 2 bytes of padding. */
static size_t write_packet(uint8_t *out, size_t room)
{
    uint8_t chunks[2 * CHUNK];
    size_t size = wire_size[0], n;
    memcpy(chunks, wire[0], size);
    same("a shorter chunk", sctp_receive_data_marshal_to(chunks + size, CHUNK, false, false, true, false, 7, STREAM, 2, loader,
                                                         (const uint8_t *)image, 14, &n), SCTP_RECEIVE_OK);
    size += n;
    same("a packet without room", sctp_receive_packet_marshal_to(out, 12 + size, 5000, 5001, 0xDEADBEEFu, chunks, size, &n),
         SCTP_RECEIVE_NO_ROOM);
    same("half a chunk", sctp_receive_packet_marshal_to(out, room, 5000, 5001, 0xDEADBEEFu, chunks, size - 1, &n),
         SCTP_RECEIVE_BAD_LENGTH);
    same("a packet is written", sctp_receive_packet_marshal_to(out, room, 5000, 5001, 0xDEADBEEFu, chunks, size, &n), SCTP_RECEIVE_OK);
    same("its byte count", (long long)n, (long long)(12 + size + 3));
    return n;
}

/* Reads a packet that was written, and walks over its chunks: C keeps the place. */
static void walk_packet(void)
{
    uint8_t raw[4 * CHUNK];
    uint16_t source, destination;
    uint32_t tag;
    size_t size = write_packet(raw, sizeof raw), at = SCTP_RECEIVE_FIRST_CHUNK, end, next, chunks = 0;
    bool found;
    same("the check value", sctp_receive_crc32c((const uint8_t *)"123456789", 9), 0xE3069283u);
    same("the packet is read", sctp_receive_packet_unmarshal(raw, size, &source, &destination, &tag), SCTP_RECEIVE_OK);
    same("ports and tag", source == 5000 && destination == 5001 && tag == 0xDEADBEEFu, true);
    printf("packet from %u to %u, tag %lx:", source, destination, (unsigned long)tag);
    while (sctp_receive_packet_chunk_at(raw, size, at, &found, &end, &next) == SCTP_RECEIVE_OK && found) {
        struct chunk c = read_chunk(raw + at, end - at);
        printf(" TSN %lu at %lu", (unsigned long)c.tsn, (unsigned long)at);
        same("TSN", c.tsn, chunks == 0 ? first_tsn : 7);
        at = next;
        chunks++;
    }
    printf(" (%lu bytes)\n", (unsigned long)size);
    same("both chunks, up to the end", chunks == 2 && at == size, true);
    same("at the end: false and 0", (long long)(found + end + next), 0);
    same("a place in the header", sctp_receive_packet_chunk_at(raw, size, 11, &found, &end, &next), SCTP_RECEIVE_PAST_THE_LIST);
    same("11 bytes", sctp_receive_packet_unmarshal(raw, 11, &source, &destination, &tag), SCTP_RECEIVE_SHORT_PACKET);
    raw[size - 1] ^= 1;
    same("a bit of padding altered", sctp_receive_packet_unmarshal(raw, size, &source, &destination, &tag), SCTP_RECEIVE_BAD_CHECKSUM);
    same("and 0 beside it", (long long)source + destination + tag, 0);
}

/* Reads an ERROR: its first cause holds an ABORT with a cause of its own, its second is a text. */
static void read_causes(void)
{
    static const uint8_t raw[] = {9, 0, 0, 33, 0, 6, 0, 18, 6, 0, 0, 14, 0, 12, 0, 10, 'l', 'o', 'a', 'd', 'e', 'r', 0, 0,
                                  0, 13, 0, 9, 'c', 'l', 'o', 's', 'e'};
    uint16_t codes[4] = {7, 7, 7, 7}, depths[4] = {7, 7, 7, 7}, starts[4] = {7, 7, 7, 7}, sizes[4] = {7, 7, 7, 7};
    size_t n = 7, i;
    same("a list of two", sctp_receive_error_unmarshal(raw, sizeof raw, codes, 4, depths, 4, starts, 2, sizes, 4, &n), SCTP_RECEIVE_NO_ROOM);
    same("leaves the lists", n == 0 && codes[0] == 7 && depths[0] == 7 && starts[0] == 7 && sizes[0] == 7, true);
    same("an ABORT is not an ERROR", sctp_receive_abort_unmarshal(raw, sizeof raw, codes, 4, depths, 4, starts, 4, sizes, 4, &n),
         SCTP_RECEIVE_OTHER_TYPE);
    same("the ABORT in it", sctp_receive_abort_unmarshal(raw + 8, 14, codes, 4, depths, 4, starts, 4, sizes, 4, &n), SCTP_RECEIVE_OK);
    same("has one cause", n == 1 && codes[0] == 12 && depths[0] == 0 && starts[0] == 8 && sizes[0] == 6 && codes[1] == 7, true);
    same("the causes are read", sctp_receive_error_unmarshal(raw, sizeof raw, codes, 4, depths, 4, starts, 4, sizes, 4, &n), SCTP_RECEIVE_OK);
    printf("causes:");
    for (i = 0; i < n; i++)
        printf(" %u at depth %u of %u bytes", codes[i], depths[i], sizes[i]);
    printf("\n");
    same("three", n == 3 && codes[0] == 6 && codes[1] == 12 && codes[2] == 13 && codes[3] == 7, true);
    same("their depths", depths[0] == 0 && depths[1] == 1 && depths[2] == 0, true);
    same("where their values stand", starts[0] == 8 && starts[1] == 16 && starts[2] == 28, true);
    same("the enclosed cause's value", memcmp(raw + starts[1], "loader", sizes[1]), 0);
    same("the last one's", memcmp(raw + starts[2], "close", sizes[2]), 0);
}

/* How numbers stand to each other: over the wrap, and one short of half way, at half way and one past it. */
static void compare(void)
{
    same("the last TSN and 0", sctp_receive_tsn_compare(4294967295u, 0), SCTP_RECEIVE_EARLIER);
    same("a TSN and itself", sctp_receive_tsn_compare(7, 7), SCTP_RECEIVE_SAME);
    same("5 and 3", sctp_receive_tsn_compare(5, 3), SCTP_RECEIVE_LATER);
    same("TSNs half way round", sctp_receive_tsn_compare(0, 0x80000000u), SCTP_RECEIVE_OPPOSITE);
    same("SSNs one short of it", sctp_receive_ssn_compare(0, 0x7fff), SCTP_RECEIVE_EARLIER);
    same("SSNs half way round", sctp_receive_ssn_compare(0x8000, 0), SCTP_RECEIVE_OPPOSITE);
    same("SSNs one past it", sctp_receive_ssn_compare(0, 0x8001), SCTP_RECEIVE_LATER);
    same("an SSN and itself", sctp_receive_ssn_compare(65535, 65535), SCTP_RECEIVE_SAME);
}

/* The sender's side: two chunks of one message and one of another are sent; one is acknowledged, the other message abandoned, the rest sent again. */
static void in_flight(void)
{
    static uint32_t table[SCTP_RECEIVE_TSN_WORDS];
    static uint64_t messages[SCTP_RECEIVE_TSNS];
    size_t count, n_bytes, n = 7;
    bool found, u, b, e, i, acked, abandoned, retransmit;
    uint32_t tsn, ppi;
    uint16_t stream, ssn, size;
    uint64_t message;
    sctp_receive_inflight_queue_new(&count, &n_bytes);
    for (uint32_t k = 0; k < 3; k++)
        same("sent", sctp_receive_inflight_queue_push_no_check(&count, &n_bytes, table, messages, false, true, true, false, first_tsn + k, STREAM,
                                                               (uint16_t)k, SCTP_RECEIVE_BINARY, (uint16_t)(100 + k),
                                                               k == 1 ? UINT64_MAX : 5), SCTP_RECEIVE_OK);
    same("a TSN in flight", sctp_receive_inflight_queue_push_no_check(&count, &n_bytes, table, messages, false, true, true, false, first_tsn, STREAM, 9,
                                                                      SCTP_RECEIVE_BINARY, 9, 9), SCTP_RECEIVE_IN_FLIGHT);
    same("acknowledged", sctp_receive_inflight_queue_mark_as_acked(&count, &n_bytes, table, first_tsn, &n), SCTP_RECEIVE_OK);
    same("its bytes are released", (long long)n, 100);
    same("acknowledged again", sctp_receive_inflight_queue_mark_as_acked(&count, &n_bytes, table, first_tsn, &n), SCTP_RECEIVE_OK);
    same("and none are", (long long)n, 0);
    same("abandoned", sctp_receive_inflight_queue_abandon_message(&count, &n_bytes, table, messages, UINT64_MAX, &n), SCTP_RECEIVE_OK);
    same("its bytes are released", (long long)n, 101);
    same("to be sent again", sctp_receive_inflight_queue_mark_all_to_retransmit(&count, &n_bytes, table), SCTP_RECEIVE_OK);
    same("the last chunk", sctp_receive_inflight_queue_get(count, n_bytes, table, messages, first_tsn + 2, &found, &u, &b, &e, &i, &tsn, &stream, &ssn,
                                                           &ppi, &size, &acked, &abandoned, &retransmit, &message), SCTP_RECEIVE_OK);
    same("is marked", found && !acked && !abandoned && retransmit && message == 5 && size == 102 && ssn == 2, true);
    same("the first chunk", sctp_receive_inflight_queue_pop(&count, &n_bytes, table, messages, first_tsn, &found, &u, &b, &e, &i, &tsn, &stream, &ssn,
                                                            &ppi, &size, &acked, &abandoned, &retransmit, &message), SCTP_RECEIVE_OK);
    same("was acknowledged", found && acked && !retransmit && size == 0 && tsn == first_tsn, true);
    same("the rest", sctp_receive_inflight_queue_get_num_bytes(count, n_bytes, table, &n), SCTP_RECEIVE_OK);
    same("of the bytes", (long long)n, 102);
    same("all up to the second", sctp_receive_inflight_queue_pop_up_to(&count, &n_bytes, table, messages, first_tsn + 1), SCTP_RECEIVE_OK);
    same("one is left", sctp_receive_inflight_queue_len(count, n_bytes, table, &n) == SCTP_RECEIVE_OK && n == 1, true);
    same("not none", sctp_receive_inflight_queue_is_empty(count, n_bytes, table, &found) == SCTP_RECEIVE_OK && !found, true);
    same("a byte more than is held", sctp_receive_inflight_queue_len(count, n_bytes + 1, table, &n), SCTP_RECEIVE_UNSOUND);
    printf("in flight: %lu bytes of TSN %lu, message 5\n", (unsigned long)n_bytes, (unsigned long)(first_tsn + 2) & 0xFFFFFFFFul);
}

/* What must be refused, and leaves all as it was. */
static void refused(void)
{
    static const uint8_t half[] = {192, 0, 0, 10, 0, 0, 0, 3, 0, 2};
    static const uint8_t bare[] = {0, 3, 0, 16, 0, 0, 0, 10, 0, 2, 0, 5, 0, 0, 0, 51};
    uint8_t typ, flags;
    uint16_t size, blocks, duplicates;
    uint32_t cumulative, window;
    size_t n = 7;
    same("no bytes", sctp_receive_header_unmarshal(NULL, 0, &typ, &flags, &size), SCTP_RECEIVE_NO_HEADER);
    same("3 bytes", sctp_receive_header_unmarshal(wire[0], 3, &typ, &flags, &size), SCTP_RECEIVE_NO_HEADER);
    same("a length above what is lent", sctp_receive_header_unmarshal(wire[0], 16, &typ, &flags, &size), SCTP_RECEIVE_BAD_LENGTH);
    same("DATA, and a SACK is asked for", sctp_receive_sack_unmarshal(wire[0], CHUNK, &cumulative, &window, &blocks, &duplicates),
         SCTP_RECEIVE_OTHER_TYPE);
    size_t start = 7, bytes = 7;
    same("DATA without data", sctp_receive_data_user_data(bare, sizeof bare, &start, &bytes), SCTP_RECEIVE_NO_DATA);
    same("and 0 beside it", (long long)start + (long long)bytes, 0);
    same("half a pair", sctp_receive_forward_tsn_unmarshal(half, sizeof half, &cumulative, &blocks), SCTP_RECEIVE_BAD_FORWARD);
    same("and 0 beside it", (long long)cumulative + blocks, 0);
    bool is = true;
    same("a TSN half way round", sctp_receive_payload_queue_push(&q.count, &q.n_bytes, &q.dups, q.log, q.table, false, true, true, false,
         q.cumulative + 0x80000000u, 0, 0, 51, 1, q.cumulative, &is), SCTP_RECEIVE_OPPOSITE_TSN);
    same("and false beside it", is, 0);
    same("a count above the table",
         sctp_receive_payload_queue_len(SCTP_RECEIVE_TSNS + 1, q.n_bytes, q.dups, q.log, q.table, &n), SCTP_RECEIVE_UNSOUND);
    same("and 0 beside it", (long long)n, 0);
}

int main(void)
{
    static const struct told after[] = {
        {4294967293u, 1, 3, 3, 0, 0},
        {4294967294u, 1, 2, 2, 0, 0},
        {4294967294u, 1, 2, 2, 1, 4294967294u},
        {4294967294u, 1, 2, 3, 0, 0},
        {1, 0, 0, 0, 0, 0},
    };
    write_chunks();
    sctp_receive_payload_queue_new(&q.count, &q.n_bytes, &q.dups, q.log);
    q.cumulative = first_tsn - 1;
    sctp_receive_reassembly_queue_new(STREAM, MAX_MESSAGE, &r.si, &r.next_ssn, &r.max_message_size, &r.finished, &r.unordered,
                                      &r.ordered, &r.n_bytes);
    arrive(2, true, false, &after[0]);
    arrive(0, true, false, &after[1]);
    arrive(0, false, false, &after[2]);
    arrive(3, true, false, &after[3]);
    arrive(1, true, true, &after[4]);
    take();
    read_message();
    give_up();
    hold_back();
    walk_packet();
    read_causes();
    compare();
    in_flight();
    refused();
    printf("%u checks, %u wrong\n", checks, wrong);
    return wrong == 0 ? 0 : 1;
}
