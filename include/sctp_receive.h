/*
 * sctp_receive.h: the receive part of SCTP, proved, for C.
 *
 * Every function here is proved (crates/sctp_receive) to answer and to leave exactly what documents 01 and 02 say, for any
 * contents of what it is lent. It allocates nothing, keeps nothing between calls, always returns, and reads and writes only
 * what it is lent. Different data may be used from different threads at once.
 *
 * THE RESULT is an int32_t: SCTP_RECEIVE_OK (-1) where nothing was refused, else the number of the documents' refusal, below.
 * A refusal changes nothing that is lent, but for 7, which leaves what fits of the message in `out`. Out values (the last
 * parameters, `bool *is`, `size_t *n` and the like) are always written: beside a refusal they are 0 and false, and so
 * they are where a call answers "not found" (`*found` is false).
 *
 * WHAT THE CALLER OWES, and the proofs rest on:
 *   - a pointer and the length after it belong together: that many elements, aligned, may be read (const) or read and written;
 *   - an array parameter, uint32_t table[SCTP_RECEIVE_..], points to that many elements;
 *   - no two things that one call is lent overlap, if the call writes one of them: buffers, tables, and each out value;
 *   - no null pointer, but where the length after it is 0;
 *   - a bool holds 0 or 1, as C has it;
 *   - nothing else writes what is lent while the call runs.
 *
 * A QUEUE is its numbers and a table that you lend, all yours to keep where you like. A call that changes the queue takes each
 * number by reference, one that does not takes it by value. Hand on what a call left, unaltered. Numbers that no call left are
 * refused with 0 where document 01 can tell, and never make a call read or write outside what it is lent.
 */
#ifndef SCTP_RECEIVE_H
#define SCTP_RECEIVE_H

#include <stdbool.h>
#include <stddef.h>
#include <stdint.h>

#ifdef __cplusplus
extern "C" {
#endif

/* ---- results ---- */

#define SCTP_RECEIVE_OK (-1)            /* nothing was refused */
#define SCTP_RECEIVE_UNSOUND 0          /* a queue or message whose numbers contradict its table, pool or buffer */
#define SCTP_RECEIVE_NO_HEADER 1        /* fewer than 4 bytes lent, left at a place of a packet, or in a cause that holds a chunk */
#define SCTP_RECEIVE_BAD_LENGTH 2       /* chunk length below 4 or above these bytes */
#define SCTP_RECEIVE_OTHER_TYPE 3       /* not the chunk type asked for */
#define SCTP_RECEIVE_SHORT_DATA 4       /* DATA length below 16 */
#define SCTP_RECEIVE_SHORT_SACK 5       /* SACK length below 16, or below 16 + 4N + 4X */
#define SCTP_RECEIVE_TOO_LARGE 6        /* the message would be above the maximum */
#define SCTP_RECEIVE_SHORT_BUFFER 7     /* whole read: the buffer is too short; what fits was written */
#define SCTP_RECEIVE_FULL 8             /* no room is left in the table or the pool */
#define SCTP_RECEIVE_TOO_LONG 9         /* writers: more than a chunk can hold, or lists of unequal length */
#define SCTP_RECEIVE_NO_ROOM 10         /* write or take buffer, or a list of a gap report or of causes, too short */
#define SCTP_RECEIVE_PAST_THE_LIST 11   /* list index at or past its count; place below 12 or past the packet */
#define SCTP_RECEIVE_BAD_FORWARD 12     /* FORWARD TSN length below 8, or not 8 plus a multiple of 4 */
#define SCTP_RECEIVE_SHORT_PACKET 13    /* packet of fewer than 12 bytes */
#define SCTP_RECEIVE_BAD_CHECKSUM 14    /* packet with a wrong checksum */
#define SCTP_RECEIVE_NO_DATA 15         /* DATA without data: length 16, or nothing to write */
#define SCTP_RECEIVE_BAD_CAUSE 16       /* 1 to 3 bytes where a cause should start, or its length below 4 or past its chunk */
#define SCTP_RECEIVE_OPPOSITE_TSN 17    /* a TSN exactly 2^31 from the cumulative one: the sign of a corrupt peer */
#define SCTP_RECEIVE_IN_FLIGHT 18       /* in-flight queue: the TSN is held already */

/* ---- sizes ---- */

#define SCTP_RECEIVE_TSNS 1024           /* TSNs that a TSN queue holds, and an in-flight queue */
#define SCTP_RECEIVE_TSN_WORDS 4096      /* words of the table of either */
#define SCTP_RECEIVE_LOG 64              /* duplicates that it logs */
#define SCTP_RECEIVE_FRAGMENTS 512       /* fragments that a reassembly queue holds */
#define SCTP_RECEIVE_FRAGMENT_WORDS 2048 /* words of its table */
#define SCTP_RECEIVE_BYTES 65536         /* payload bytes that it holds: the least length of its pool */

/* ---- payload identifiers: the five that have names. Every number is told, kept and written as it was sent ---- */

#define SCTP_RECEIVE_DCEP 50
#define SCTP_RECEIVE_STRING 51
#define SCTP_RECEIVE_BINARY 53
#define SCTP_RECEIVE_STRING_EMPTY 56
#define SCTP_RECEIVE_BINARY_EMPTY 57

/* ---- numbers that wrap: TSNs of 32 bits, SSNs of 16 ----
 * Is i1 before, at or before, after, at or after, the same as i2? At a distance of exactly half way neither is before the other. */

bool sctp_receive_sna32lt(uint32_t i1, uint32_t i2);
bool sctp_receive_sna32lte(uint32_t i1, uint32_t i2);
bool sctp_receive_sna32gt(uint32_t i1, uint32_t i2);
bool sctp_receive_sna32gte(uint32_t i1, uint32_t i2);
bool sctp_receive_sna32eq(uint32_t i1, uint32_t i2);
bool sctp_receive_sna16lt(uint16_t i1, uint16_t i2);
bool sctp_receive_sna16lte(uint16_t i1, uint16_t i2);
bool sctp_receive_sna16gt(uint16_t i1, uint16_t i2);
bool sctp_receive_sna16gte(uint16_t i1, uint16_t i2);
bool sctp_receive_sna16eq(uint16_t i1, uint16_t i2);

/* How does a stand to b? One of these four. Opposite: exactly half way, as far one way as the other. Each of the questions above is answered by
 * it: before is EARLIER, at or before EARLIER or SAME, and so on. */

#define SCTP_RECEIVE_EARLIER 0
#define SCTP_RECEIVE_SAME 1
#define SCTP_RECEIVE_LATER 2
#define SCTP_RECEIVE_OPPOSITE 3

uint8_t sctp_receive_tsn_compare(uint32_t a, uint32_t b);
uint8_t sctp_receive_ssn_compare(uint16_t a, uint16_t b);

/* ---- chunks, read and written ----
 * A reader takes the bytes that a chunk begins; bytes past its length are ignored. A writer writes to the front of `out`, `*n` bytes;
 * the rest of `out` stays. */

/* Type, flags and length of a chunk. Refuses 1, 2. */
int32_t sctp_receive_header_unmarshal(const uint8_t *raw, size_t raw_len,
                                      uint8_t *typ, uint8_t *flags, uint16_t *size);

/* The fields of a DATA chunk. Refuses 1, 2, 3, 4, 15. */
int32_t sctp_receive_data_unmarshal(const uint8_t *raw, size_t raw_len,
                                    bool *unordered, bool *beginning_fragment, bool *ending_fragment, bool *immediate_sack,
                                    uint32_t *tsn, uint16_t *stream_identifier, uint16_t *stream_sequence_number,
                                    uint32_t *payload_type);

/* Where its user data stands: `*size` bytes from raw + *start on. Refuses 1, 2, 3, 4, 15. */
int32_t sctp_receive_data_user_data(const uint8_t *raw, size_t raw_len, size_t *start, size_t *size);

/* Writes a DATA chunk. Refuses 15 (no data), 9 (more than 65,519 bytes), 10. */
int32_t sctp_receive_data_marshal_to(uint8_t *out, size_t out_len,
                                     bool unordered, bool beginning_fragment, bool ending_fragment, bool immediate_sack,
                                     uint32_t tsn, uint16_t stream_identifier, uint16_t stream_sequence_number,
                                     uint32_t payload_type,
                                     const uint8_t *user, size_t user_len, size_t *n);

/* The fields of a SACK chunk, with the counts of its two lists. Refuses 1, 2, 3, 5. */
int32_t sctp_receive_sack_unmarshal(const uint8_t *raw, size_t raw_len,
                                    uint32_t *cumulative, uint32_t *window, uint16_t *blocks, uint16_t *duplicates);

/* Where its gap ack blocks, its duplicate TSNs stand: `*size` bytes from raw + *start on. Refuse 1, 2, 3, 5. */
int32_t sctp_receive_sack_gap_ack_blocks(const uint8_t *raw, size_t raw_len, size_t *start, size_t *size);
int32_t sctp_receive_sack_duplicate_tsns(const uint8_t *raw, size_t raw_len, size_t *start, size_t *size);

/* The gap ack block, the duplicate TSN at an index of such a part. Refuse 11. */
int32_t sctp_receive_sack_gap_ack_block_at(const uint8_t *part, size_t part_len, size_t i, uint16_t *start, uint16_t *end);
int32_t sctp_receive_sack_duplicate_tsn_at(const uint8_t *part, size_t part_len, size_t i, uint32_t *tsn);

/* Writes a SACK chunk. Refuses 9 (more than 16,379 entries, or lists of unequal length), 10. */
int32_t sctp_receive_sack_marshal_to(uint8_t *out, size_t out_len, uint32_t cumulative, uint32_t window,
                                     const uint16_t *starts, size_t starts_len, const uint16_t *ends, size_t ends_len,
                                     const uint32_t *duplicates, size_t duplicates_len, size_t *n);

/* The new cumulative TSN of a FORWARD TSN chunk (RFC 3758), and how many pairs of a stream and an SSN stand behind it. Its flags are
 * ignored. Refuses 1, 2, 3, 12. */
int32_t sctp_receive_forward_tsn_unmarshal(const uint8_t *raw, size_t raw_len, uint32_t *new_cumulative_tsn, uint16_t *streams);

/* Where its pairs stand: `*size` bytes from raw + *start on. Refuses 1, 2, 3, 12. */
int32_t sctp_receive_forward_tsn_streams(const uint8_t *raw, size_t raw_len, size_t *start, size_t *size);

/* The stream and the SSN at an index of such a part. Refuses 11. */
int32_t sctp_receive_forward_tsn_stream_at(const uint8_t *part, size_t part_len, size_t i, uint16_t *identifier, uint16_t *sequence);

/* Writes a FORWARD TSN chunk. Refuses 9 (more than 16,381 pairs, or lists of unequal length), 10. */
int32_t sctp_receive_forward_tsn_marshal_to(uint8_t *out, size_t out_len, uint32_t new_cumulative_tsn,
                                            const uint16_t *identifiers, size_t identifiers_len,
                                            const uint16_t *sequences, size_t sequences_len, size_t *n);

/* ---- ERROR and ABORT: why the peer reports an error or gives up ----
 * Each cause's code, its depth (0 for the chunk's own causes; under code 6 a cause may hold a chunk, and the causes of an ERROR or ABORT
 * chunk in there are one deeper), where its value starts in `raw`, and the value's length, to the front of four lists, outer before inner;
 * `*n` is how many causes there are, and the rest of each list stays. A chunk has at most 16,382 causes, at most 8,190 deep. Each depth is
 * a call of its own, of 144 bytes of stack on x86-64: the deepest chunk takes 1.2 MB. Refuse 1, 2, 3, then the first fault in reading
 * order: 16, or 1 or 2 of an enclosed chunk; and 10 where nothing else is wrong and a list is too short. */

int32_t sctp_receive_error_unmarshal(const uint8_t *raw, size_t raw_len, uint16_t *codes, size_t codes_len,
                                     uint16_t *depths, size_t depths_len, uint16_t *starts, size_t starts_len,
                                     uint16_t *sizes, size_t sizes_len, size_t *n);
int32_t sctp_receive_abort_unmarshal(const uint8_t *raw, size_t raw_len, uint16_t *codes, size_t codes_len,
                                     uint16_t *depths, size_t depths_len, uint16_t *starts, size_t starts_len,
                                     uint16_t *sizes, size_t sizes_len, size_t *n);

/* ---- packets: the common header of 12 bytes, with the checksum, and chunks behind it, each padded to a multiple of 4 bytes ----
 * A walk over the chunks is the packet and a place in it, and C keeps both: it starts at SCTP_RECEIVE_FIRST_CHUNK and goes on at
 * `*next` until nothing is found. The library's own walker keeps hold of the packet, so C has no call for it. */

#define SCTP_RECEIVE_FIRST_CHUNK 12     /* the place of a packet's first chunk, behind the common header */

/* CRC32c (RFC 4960, Appendix B). Of the text 123456789 it is 0xE3069283. Nothing is refused. */
uint32_t sctp_receive_crc32c(const uint8_t *bytes, size_t bytes_len);

/* Ports and verification tag of a packet, which is all of `raw`, if its checksum is right. Refuses 13, 14. The chunks are not looked at. */
int32_t sctp_receive_packet_unmarshal(const uint8_t *raw, size_t raw_len,
                                      uint16_t *source_port, uint16_t *destination_port, uint32_t *verification_tag);

/* The chunk at a place of a packet: its bytes go from packet + at up to packet + *end, without padding, and `*next` is the place to go
 * on at. Where the walk is over nothing is found. Refuses 11, 1, 2. The checksum is not looked at. */
int32_t sctp_receive_packet_chunk_at(const uint8_t *packet, size_t packet_len, size_t at, bool *found, size_t *end, size_t *next);

/* Writes a packet of these fields and of chunks lent back to back without padding: in order, each with zero padding, and the checksum.
 * Refuses 1, 2 (of a chunk), 10. */
int32_t sctp_receive_packet_marshal_to(uint8_t *out, size_t out_len,
                                       uint16_t source_port, uint16_t destination_port, uint32_t verification_tag,
                                       const uint8_t *chunks, size_t chunks_len, size_t *n);

/* ---- the TSN queue: which TSNs came, in which order they stand, and which came twice ----
 * Its numbers: TSNs held, the sum of their data lengths, logged duplicates; the log; the table. Every call refuses 0. */

/* A fresh queue. The table may hold anything. */
void sctp_receive_payload_queue_new(size_t *count, size_t *n_bytes, size_t *dups, uint32_t dup_tsn[SCTP_RECEIVE_LOG]);

/* Is the TSN neither held nor at or before the cumulative one? Yes too of a TSN that is not held and is opposite to the cumulative one, which
 * `push` refuses with 17. */
int32_t sctp_receive_payload_queue_can_push(size_t count, size_t n_bytes, size_t dups,
                                            const uint32_t dup_tsn[SCTP_RECEIVE_LOG],
                                            const uint32_t table[SCTP_RECEIVE_TSN_WORDS],
                                            uint32_t tsn, uint32_t cumulative, bool *is);

/* Stores a chunk of `size` data bytes by its TSN: true. Held, or at or before the cumulative TSN: false, and logged where the log
 * has room. Refuses 17, ahead of these and with no logging, where the TSN is opposite to the cumulative one; 8 where 1,024 are held. */
int32_t sctp_receive_payload_queue_push(size_t *count, size_t *n_bytes, size_t *dups, uint32_t dup_tsn[SCTP_RECEIVE_LOG],
                                        uint32_t table[SCTP_RECEIVE_TSN_WORDS],
                                        bool unordered, bool beginning_fragment, bool ending_fragment, bool immediate_sack,
                                        uint32_t tsn, uint16_t stream_identifier, uint16_t stream_sequence_number,
                                        uint32_t payload_type, uint16_t size, uint32_t cumulative, bool *is);

/* Removes and gives the first chunk, if its TSN is `wanted`; else nothing is found, and nothing changes. */
int32_t sctp_receive_payload_queue_pop(size_t *count, size_t *n_bytes, size_t *dups, uint32_t dup_tsn[SCTP_RECEIVE_LOG],
                                       uint32_t table[SCTP_RECEIVE_TSN_WORDS], uint32_t wanted, bool *found,
                                       bool *unordered, bool *beginning_fragment, bool *ending_fragment, bool *immediate_sack,
                                       uint32_t *tsn, uint16_t *stream_identifier, uint16_t *stream_sequence_number,
                                       uint32_t *payload_type, uint16_t *size);

/* Drops every TSN at or before this one. One that is opposite to it stays. */
int32_t sctp_receive_payload_queue_pop_up_to(size_t *count, size_t *n_bytes, size_t *dups, uint32_t dup_tsn[SCTP_RECEIVE_LOG],
                                             uint32_t table[SCTP_RECEIVE_TSN_WORDS], uint32_t tsn);

/* Applies a FORWARD TSN chunk: drops every TSN at or before its new cumulative TSN. Where that is at or before the cumulative TSN,
 * nothing changes. */
int32_t sctp_receive_forward_tsn_apply_to_tsns(size_t *count, size_t *n_bytes, size_t *dups, uint32_t dup_tsn[SCTP_RECEIVE_LOG],
                                               uint32_t table[SCTP_RECEIVE_TSN_WORDS],
                                               uint32_t cumulative_tsn, uint32_t new_cumulative_tsn);

/* Hands out the log: all 64 places, unused ones 0, and how many are used; and empties it. */
int32_t sctp_receive_payload_queue_pop_duplicates(size_t *count, size_t *n_bytes, size_t *dups,
                                                  uint32_t dup_tsn[SCTP_RECEIVE_LOG],
                                                  const uint32_t table[SCTP_RECEIVE_TSN_WORDS],
                                                  size_t *n, uint32_t tsns[SCTP_RECEIVE_LOG]);

/* The chunk that is held with this TSN, if there is one. */
int32_t sctp_receive_payload_queue_get(size_t count, size_t n_bytes, size_t dups, const uint32_t dup_tsn[SCTP_RECEIVE_LOG],
                                       const uint32_t table[SCTP_RECEIVE_TSN_WORDS], uint32_t wanted, bool *found,
                                       bool *unordered, bool *beginning_fragment, bool *ending_fragment, bool *immediate_sack,
                                       uint32_t *tsn, uint16_t *stream_identifier, uint16_t *stream_sequence_number,
                                       uint32_t *payload_type, uint16_t *size);

/* The gap report: starts and ends of its blocks, as offsets from the cumulative TSN, go to the front of the lists; `*n` is their
 * count. Lists of 1,024 places always do. Refuses 10. */
int32_t sctp_receive_payload_queue_get_gap_ack_blocks(size_t count, size_t n_bytes, size_t dups,
                                                      const uint32_t dup_tsn[SCTP_RECEIVE_LOG],
                                                      const uint32_t table[SCTP_RECEIVE_TSN_WORDS], uint32_t cumulative,
                                                      uint16_t *starts, size_t starts_len, uint16_t *ends, size_t ends_len,
                                                      size_t *n);

/* The TSN that stands last, if there is one. */
int32_t sctp_receive_payload_queue_get_last_tsn_received(size_t count, size_t n_bytes, size_t dups,
                                                         const uint32_t dup_tsn[SCTP_RECEIVE_LOG],
                                                         const uint32_t table[SCTP_RECEIVE_TSN_WORDS],
                                                         bool *found, uint32_t *tsn);

/* The sum of the held data lengths; how many TSNs are held; whether none is; whether a chunk of a stream is. */
int32_t sctp_receive_payload_queue_get_num_bytes(size_t count, size_t n_bytes, size_t dups,
                                                 const uint32_t dup_tsn[SCTP_RECEIVE_LOG],
                                                 const uint32_t table[SCTP_RECEIVE_TSN_WORDS], size_t *n);
int32_t sctp_receive_payload_queue_len(size_t count, size_t n_bytes, size_t dups, const uint32_t dup_tsn[SCTP_RECEIVE_LOG],
                                       const uint32_t table[SCTP_RECEIVE_TSN_WORDS], size_t *n);
int32_t sctp_receive_payload_queue_is_empty(size_t count, size_t n_bytes, size_t dups, const uint32_t dup_tsn[SCTP_RECEIVE_LOG],
                                            const uint32_t table[SCTP_RECEIVE_TSN_WORDS], bool *is);
int32_t sctp_receive_payload_queue_contains_stream(size_t count, size_t n_bytes, size_t dups,
                                                   const uint32_t dup_tsn[SCTP_RECEIVE_LOG],
                                                   const uint32_t table[SCTP_RECEIVE_TSN_WORDS], uint16_t stream, bool *is);

/* ---- the sender's in-flight queue: which chunks were sent, what became of each, and how many of their bytes are not released ----
 * Its numbers: TSNs held, the sum of their data lengths that are not released; the table; and for calls that need them the numbers of
 * the records' messages, one beside each record. Every call refuses 0. */

/* A fresh queue. The table and the messages' numbers may hold anything. */
void sctp_receive_inflight_queue_new(size_t *count, size_t *n_bytes);

/* Stores a chunk of `size` data bytes by its TSN, without a mark, and its message's number. Refuses 18 where the TSN is held, then 8
 * where 1,024 are held. */
int32_t sctp_receive_inflight_queue_push_no_check(size_t *count, size_t *n_bytes, uint32_t table[SCTP_RECEIVE_TSN_WORDS],
                                                  uint64_t messages[SCTP_RECEIVE_TSNS],
                                                  bool unordered, bool beginning_fragment, bool ending_fragment,
                                                  bool immediate_sack, uint32_t tsn, uint16_t stream_identifier,
                                                  uint16_t stream_sequence_number, uint32_t payload_type, uint16_t size,
                                                  uint64_t message);

/* Acknowledges the chunk with this TSN: it is not to be sent again, and as many bytes are released as it still held; 0 where none is
 * held with this TSN. */
int32_t sctp_receive_inflight_queue_mark_as_acked(size_t *count, size_t *n_bytes, uint32_t table[SCTP_RECEIVE_TSN_WORDS],
                                                  uint32_t tsn, size_t *released);

/* Marks every chunk to be sent again that is neither acknowledged nor abandoned. */
int32_t sctp_receive_inflight_queue_mark_all_to_retransmit(size_t *count, size_t *n_bytes,
                                                           uint32_t table[SCTP_RECEIVE_TSN_WORDS]);

/* Abandons every chunk of this message: they are not to be sent again, and as many bytes are released as they still held. */
int32_t sctp_receive_inflight_queue_abandon_message(size_t *count, size_t *n_bytes, uint32_t table[SCTP_RECEIVE_TSN_WORDS],
                                                    const uint64_t messages[SCTP_RECEIVE_TSNS], uint64_t message,
                                                    size_t *released);

/* Removes and gives the first chunk, if its TSN is `wanted`; else nothing is found, and nothing changes. `*size` is what is not
 * released of its data. */
int32_t sctp_receive_inflight_queue_pop(size_t *count, size_t *n_bytes, uint32_t table[SCTP_RECEIVE_TSN_WORDS],
                                        uint64_t messages[SCTP_RECEIVE_TSNS], uint32_t wanted, bool *found,
                                        bool *unordered, bool *beginning_fragment, bool *ending_fragment, bool *immediate_sack,
                                        uint32_t *tsn, uint16_t *stream_identifier, uint16_t *stream_sequence_number,
                                        uint32_t *payload_type, uint16_t *size, bool *acked, bool *abandoned, bool *retransmit,
                                        uint64_t *message_id);

/* Drops every TSN at or before this one. */
int32_t sctp_receive_inflight_queue_pop_up_to(size_t *count, size_t *n_bytes, uint32_t table[SCTP_RECEIVE_TSN_WORDS],
                                              uint64_t messages[SCTP_RECEIVE_TSNS], uint32_t tsn);

/* The chunk that is held with this TSN, if there is one. */
int32_t sctp_receive_inflight_queue_get(size_t count, size_t n_bytes, const uint32_t table[SCTP_RECEIVE_TSN_WORDS],
                                        const uint64_t messages[SCTP_RECEIVE_TSNS], uint32_t wanted, bool *found,
                                        bool *unordered, bool *beginning_fragment, bool *ending_fragment, bool *immediate_sack,
                                        uint32_t *tsn, uint16_t *stream_identifier, uint16_t *stream_sequence_number,
                                        uint32_t *payload_type, uint16_t *size, bool *acked, bool *abandoned, bool *retransmit,
                                        uint64_t *message_id);

/* The sum of the lengths that are not released; how many TSNs are held; whether none is. */
int32_t sctp_receive_inflight_queue_get_num_bytes(size_t count, size_t n_bytes, const uint32_t table[SCTP_RECEIVE_TSN_WORDS],
                                                  size_t *n);
int32_t sctp_receive_inflight_queue_len(size_t count, size_t n_bytes, const uint32_t table[SCTP_RECEIVE_TSN_WORDS], size_t *n);
int32_t sctp_receive_inflight_queue_is_empty(size_t count, size_t n_bytes, const uint32_t table[SCTP_RECEIVE_TSN_WORDS], bool *is);

/* ---- reassembly of one stream ----
 * Its numbers: the stream, the expected SSN, the maximum message size; fragments of finished unordered messages, loose unordered
 * fragments, fragments of ordered sets; the bytes held. Then the table and the pool. Every call refuses 0. */

/* A fresh queue of a stream, with this maximum message size. The table and the pool may hold anything. */
void sctp_receive_reassembly_queue_new(uint16_t stream, uint32_t most,
                                       uint16_t *si, uint16_t *next_ssn, uint32_t *max_message_size,
                                       size_t *finished, size_t *unordered, size_t *ordered, size_t *n_bytes);

/* Stores a chunk with its user data: true where that completes a message. False where it is of another stream, its SSN is before the
 * expected one, or its TSN is there already. Refuses 6, 8. */
int32_t sctp_receive_reassembly_queue_push(uint16_t *si, uint16_t *next_ssn, uint32_t *max_message_size,
                                           size_t *finished, size_t *unordered, size_t *ordered, size_t *n_bytes,
                                           uint32_t table[SCTP_RECEIVE_FRAGMENT_WORDS], uint8_t *pool, size_t pool_len,
                                           bool is_unordered, bool beginning_fragment, bool ending_fragment, bool immediate_sack,
                                           uint32_t tsn, uint16_t stream_identifier, uint16_t stream_sequence_number,
                                           uint32_t payload_type, const uint8_t *user_data, size_t user_data_len, bool *is);

/* Can a message be taken? */
int32_t sctp_receive_reassembly_queue_is_readable(uint16_t si, uint16_t next_ssn, uint32_t max_message_size,
                                                  size_t finished, size_t unordered, size_t ordered, size_t n_bytes,
                                                  const uint32_t table[SCTP_RECEIVE_FRAGMENT_WORDS],
                                                  const uint8_t *pool, size_t pool_len, bool *is);

/* Takes the oldest finished unordered message, else the first ordered set if it is complete and not after the expected one, to the
 * front of `buffer`: SSN (0 where unordered), payload identifier as sent, and the message in hand: its size, position 0, given false.
 * Nothing to take: not found, whatever the buffer. Refuses 10, and the message stays. */
int32_t sctp_receive_reassembly_queue_read(uint16_t *si, uint16_t *next_ssn, uint32_t *max_message_size,
                                           size_t *finished, size_t *unordered, size_t *ordered, size_t *n_bytes,
                                           uint32_t table[SCTP_RECEIVE_FRAGMENT_WORDS], uint8_t *pool, size_t pool_len,
                                           uint8_t *buffer, size_t buffer_len, bool *found,
                                           uint16_t *ssn, uint32_t *ppi, size_t *bytes, size_t *position, bool *given);

/* Skips: drops incomplete ordered sets at or before an SSN, and expects the one after it; drops loose unordered fragments from the
 * front up to the first one after a TSN. */
int32_t sctp_receive_reassembly_queue_forward_tsn_for_ordered(uint16_t *si, uint16_t *next_ssn, uint32_t *max_message_size,
                                                              size_t *finished, size_t *unordered, size_t *ordered,
                                                              size_t *n_bytes, uint32_t table[SCTP_RECEIVE_FRAGMENT_WORDS],
                                                              uint8_t *pool, size_t pool_len, uint16_t last_ssn);
int32_t sctp_receive_reassembly_queue_forward_tsn_for_unordered(uint16_t *si, uint16_t *next_ssn, uint32_t *max_message_size,
                                                                size_t *finished, size_t *unordered, size_t *ordered,
                                                                size_t *n_bytes, uint32_t table[SCTP_RECEIVE_FRAGMENT_WORDS],
                                                                uint8_t *pool, size_t pool_len, uint32_t new_cumulative_tsn);

/* A skip held over a stream reset, with the cumulative TSN that it came with: drops incomplete ordered sets at or before an SSN of which
 * a TSN at or before the new cumulative TSN is missing, and expects the first set at or before the SSN that is complete with a later TSN
 * or incomplete with none missing up to it, or the one after the SSN where there is no such set, if that is later than what is expected. */
int32_t sctp_receive_reassembly_queue_forward_tsn_for_ordered_bounded(
    uint16_t *si, uint16_t *next_ssn, uint32_t *max_message_size, size_t *finished, size_t *unordered, size_t *ordered,
    size_t *n_bytes, uint32_t table[SCTP_RECEIVE_FRAGMENT_WORDS], uint8_t *pool, size_t pool_len, uint16_t last_ssn,
    uint32_t new_cumulative_tsn);

/* How far such a skip applies by now, beside the peer's last TSN before the reset: `found`, and the SSN: the last, or that of a set before
 * it. Changes nothing. */
int32_t sctp_receive_reassembly_queue_applicable_forward_tsn_for_ordered_bounded(
    uint16_t si, uint16_t next_ssn, uint32_t max_message_size, size_t finished, size_t unordered, size_t ordered, size_t n_bytes,
    const uint32_t table[SCTP_RECEIVE_FRAGMENT_WORDS], const uint8_t *pool, size_t pool_len, uint16_t last_ssn,
    uint32_t new_cumulative_tsn, uint32_t peer_last_tsn, bool *found, uint16_t *ssn);

/* Applies a FORWARD TSN chunk: the ordered skip for each pair of its part `streams` that names the stream, in their order, then one
 * unordered skip. Bytes behind the last whole pair are ignored. Where its new cumulative TSN is at or before the cumulative TSN,
 * nothing changes. */
int32_t sctp_receive_forward_tsn_apply_to_stream(uint16_t *si, uint16_t *next_ssn, uint32_t *max_message_size,
                                                 size_t *finished, size_t *unordered, size_t *ordered, size_t *n_bytes,
                                                 uint32_t table[SCTP_RECEIVE_FRAGMENT_WORDS], uint8_t *pool, size_t pool_len,
                                                 uint32_t cumulative_tsn, uint32_t new_cumulative_tsn,
                                                 const uint8_t *streams, size_t streams_len);

/* The number of bytes held. */
int32_t sctp_receive_reassembly_queue_get_num_bytes(uint16_t si, uint16_t next_ssn, uint32_t max_message_size,
                                                    size_t finished, size_t unordered, size_t ordered, size_t n_bytes,
                                                    const uint32_t table[SCTP_RECEIVE_FRAGMENT_WORDS],
                                                    const uint8_t *pool, size_t pool_len, size_t *n);

/* ---- the message in hand ----
 * Its bytes stand at the front of the buffer that it was taken into. Its numbers: how many they are, the place of the next piece, and
 * whether an empty message's one piece was given. Every call refuses 0. */

/* How many bytes the message has; whether it has none. */
int32_t sctp_receive_chunks_len(size_t bytes, size_t position, bool given, const uint8_t *buffer, size_t buffer_len, size_t *n);
int32_t sctp_receive_chunks_is_empty(size_t bytes, size_t position, bool given, const uint8_t *buffer, size_t buffer_len, bool *is);

/* Copies the whole message to the front of `out`; moves nothing. Refuses 7 where `out` is too short, and leaves what fits in it. */
int32_t sctp_receive_chunks_read(size_t bytes, size_t position, bool given, const uint8_t *buffer, size_t buffer_len,
                                 uint8_t *out, size_t out_len, size_t *n);

/* The next piece, of at most `most` bytes, if one comes: `*piece_size` bytes from buffer + *piece_start on. */
int32_t sctp_receive_chunks_next(size_t *bytes, size_t *position, bool *given, const uint8_t *buffer, size_t buffer_len,
                                 size_t most, bool *found, size_t *piece_start, size_t *piece_size);

#ifdef __cplusplus
}
#endif

#endif
