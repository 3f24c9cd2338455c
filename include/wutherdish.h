/*
 * Wutherdish: verdicts on Tycho points, as calls for other languages.
 *
 * The library is target/staticlib/libwutherdish.a: ./setup has `rt lib` make it in crates/wutherdish_c, and copies it there.
 * From outside it needs memcpy and memset, and nothing else.
 * docs/FORMAT.md says what the bytes of settings, schedules, records, lists and books mean.
 *
 * The host's duties. The library judges what it is handed; whether that is true it can't tell. Before it hands a point
 * over, a host
 *
 *   1. checks signatures: the author's on the point's id, and every one of its evidence on the id of the author's
 *      previous point. A record only names the peers of the evidence. A point that names enough of them certifies its
 *      previous point and what lies below that, even if it is found invalid itself, and a child of any of these is then
 *      valid where it would be trans-invalid;
 *   2. computes the digest of the point and compares it with the one in its id;
 *   3. finds out who leads the point's round: the leader flag is 1 exactly for that peer;
 *   4. brings the network's schedule, with the peers of the point's round, of the two before it, of the rounds that
 *      its indirect links lead to, and with the span of the fourth after it;
 *   5. offers a point to a book after everything that it includes, witnesses or links to: a verdict stays when a parent
 *      comes late, and only a point that is kept by then can be marked certified;
 *   6. fills a list, where it judges by one, with all that belongs in it, and with the certified flags of the moment of
 *      judging (wutherdish_judge below).
 *
 * The library tests the form of what it gets, and none of these.
 */
#ifndef WUTHERDISH_H
#define WUTHERDISH_H

#include <stddef.h>
#include <stdint.h>

/*
 * Which library this header belongs to; docs/FORMAT.md, "Versions", says when each number changes.
 *
 *   ABI     the calls: their names, parameters and results
 *   FORMAT  the bytes that are lent and answered: 2 for point records whose includes and witness have their peers first and
 *           their digests after them (the arrangement `columns`); 1 was for pairs of peer and digest (`pairs`)
 *   VERSION the release, and, but for its patch, all of these in one number, a byte each: ABI, FORMAT, MAJOR, MINOR
 */
#define WUTHERDISH_ABI 1
#define WUTHERDISH_FORMAT 2
#define WUTHERDISH_VERSION_MAJOR 0
#define WUTHERDISH_VERSION_MINOR 1
#define WUTHERDISH_VERSION_PATCH 0
#define WUTHERDISH_VERSION (WUTHERDISH_ABI * 0x1000000u + WUTHERDISH_FORMAT * 0x10000u \
                            + WUTHERDISH_VERSION_MAJOR * 0x100u + WUTHERDISH_VERSION_MINOR)

/* A peer buffer of this many bytes or more is enough: 255 peers of 32 bytes. */
#define WUTHERDISH_PEER_BUFFER 8160

/*
 * The length of an answer in bytes. An answer, little-endian:
 *
 *   at  bytes  what
 *    0      1  0 valid, 1 trans-invalid, 2 invalid, 3 ill-formed, 4 fail, 5 verification passed
 *    1      1  the reason's number: 2 to 19 if invalid, 3 to 16 if ill-formed, else 0
 *    2     68  the point that an invalid reason names, or the root cause of trans-invalid: round (4), digest (32),
 *              author (32); zeros if none
 *   70      1  map: 0 evidence, 1 includes, 2 witness, 255 none; trans-invalid: the one that the root cause came
 *              through, 1 or 2
 *   71      1  role: 0 proof, 1 trigger, 255 none
 *   72      4  first number: ill-formed 6 the payload's bytes, 7 the StructureIssue as declared, 1 to 7, 8 the seq_no,
 *              14 the map's length, 16 the leader flag; invalid 16 the seq_no, 17 1 for the link's target and 0 for its
 *              source, 18 the dependency's ill-formed number; fail: the peer count; else 0
 *   76      4  second number: ill-formed 7 the flag of ExpectedGenesis, 14 the F of the peer count; invalid 16 the
 *              previous seq_no, or 2^32-1 if there is none; fail: the round; else 0
 *   80      1  trans-invalid: the number of the root cause's reason, 1 to 20; else 0
 *   81     32  trans-invalid: the peer that the root cause came through; else zeros
 *  113      1  how many unknown peers stand in the peer buffer (ill-formed 12; else 0)
 */
#define WUTHERDISH_ANSWER 114

#ifdef __cplusplus
extern "C" {
#endif

/*
 * The calls below return document 01's number, or 0 for a verdict. The numbers that verifying and judging test, in this
 * order; verifying has the first five:
 *
 *   1  settings are unreadable or outside their limits
 *   2  the schedule is unreadable
 *   3  the point record is unreadable
 *   4  the point's round or a time of it is outside the domain, or the leader flag is over 1, or the presence over 3
 *   5  the peer buffer is under 8,160 bytes
 *   6  a verified point above genesis: its round or the fourth after it is in no span of the schedule
 *   7  the list is needed, and unreadable or outside the domain
 *   8  the list is needed, and has an entry that is not the point's, or one twice, or lacks dependencies
 *   9  the list is needed, and the previous point's entry is not certified
 *
 * With a number no lent byte changes, the answer's included. With 0 the answer's 114 bytes are set, and the unknown
 * peers, if there are any, stand at the front of the peer buffer, 32 bytes each, rising; its other bytes keep what
 * they held. What is lent as const is never written.
 *
 * The caller's part: no pointer is null, not even with the length 0; each has as many bytes after it as its length
 * says, the answer 114, the id 68 and a link 102; and the peer buffer and the answer overlap neither each other nor
 * the rest.
 *
 * Stack, as measured on x86-64 (docs/RELIABILITY.md) with room added: verifying, converting and writing need at most 4 KB,
 * judging 48 KB, also with a trail, wutherdish_clearing and wutherdish_force 56 KB, opening 1 KB and an offer 72 KB. A call
 * takes no other memory.
 *
 * Threads: a call keeps nothing for the next one. Calls may be made from several threads at once, also on separate books
 * and on the same bytes where these are const. One book may be in one call at a time, and is not read by others
 * meanwhile.
 *
 * A process that is killed inside an offer can leave bytes that are no book, or marks without the entry: a book still,
 * and nothing tells that it was cut short. Opening can likewise be cut short. Where the book's memory outlives the
 * process, shared or mapped from a file, a host keeps a journal beside it, or offers to a copy that takes the book's
 * place when the call has returned.
 */

/* Verifies a point, as BasicVerifier::verify of the Rust: ill-formed with a reason up to 14, fail, or passed. */
uint8_t wutherdish_verify(const uint8_t *settings, size_t settings_len,
                          const uint8_t *schedule, size_t schedule_len,
                          const uint8_t *record, size_t record_len,
                          uint8_t *peers, size_t peers_len,
                          uint8_t answer[WUTHERDISH_ANSWER]);

/*
 * Judges a point, as BasicVerifier::verify and then Verifier::validate of the Rust: any answer but passed.
 *
 * leader: 1 if the point's author leads its round, else 0. presence: how many of the point's round and the two before
 * it, counted in that order, are in the DAG. list: needed if the point is verified, above genesis and not ill-formed,
 * and the presence is 2 or 3; else it is not read. In it belong, each as it was found and in the order of arrival,
 *
 *   - the points that it includes and, with presence 3, those that it witnesses. Where one lacks, and no dropped
 *     entry stands for it, 8 is returned;
 *   - if it includes no point of its author: every known point of that author in the round before;
 *   - with presence 3, after these: the target of each of its two links that is indirect.
 *
 * The last two may lack, and then what they would have given is lost in silence: reasons 9 and 10 without the author's
 * points; without the targets reason 14, their reasons 8, 11, 17, 18 and 19, and root causes that come through links.
 *
 * The certified flags are those of the moment of judging: a node certifies the point's previous point, and all that
 * this spreads to, before it judges. With the flags of arrival a point can be trans-invalid here and valid at a node.
 */
uint8_t wutherdish_judge(const uint8_t *settings, size_t settings_len,
                         const uint8_t *schedule, size_t schedule_len,
                         const uint8_t *record, size_t record_len,
                         uint8_t leader, uint8_t presence,
                         const uint8_t *list, size_t list_len,
                         uint8_t *peers, size_t peers_len,
                         uint8_t answer[WUTHERDISH_ANSWER]);

/*
 * Judges a point as above, and says all reasons that judging sets where an answer has the last one alone: the trail, a row of eight
 * bytes for each reason, in the order in which they are set.
 *
 *   at  bytes  what
 *    0      1  the list of the entry that set it: 1 direct, 2 indirect; 0 if it was a presence rule (reason 2), and no entry
 *    1      2  the entry's place in that list, from 0: direct and indirect entries are each counted by themselves; list 0: 0
 *    3      1  the reason's number, 2 to 19
 *    4      1  the role that it names: 0 proof, 1 trigger, 255 none
 *    5      3  zeros
 *
 * Only an invalid point has rows, and then the last one has the reason of the answer. Reason 2 stands alone. A dropped entry has a
 * row if it is direct and no entry before it has one, and ends the list; indirect entries have rows only where no direct one has.
 *
 * It tests what judging tests, in the same order, and at last
 *
 *   15  the trail has less than 8 bytes for each row
 *
 * A trail of list_len + 8 bytes has room for all rows, which is proved: an entry that can set more than one reason sets at most ten,
 * and its record alone has 188 bytes. With 0 the answer and the peer buffer are as judging sets them, *rows is how many rows there
 * are, and they stand at the front of the trail, whose bytes after them keep what they held. With a number *rows and all of the trail
 * keep what they held too. As above, trail and *rows overlap neither each other nor the rest; rows is aligned as a uint32_t.
 */
uint8_t wutherdish_trail(const uint8_t *settings, size_t settings_len,
                         const uint8_t *schedule, size_t schedule_len,
                         const uint8_t *record, size_t record_len,
                         uint8_t leader, uint8_t presence,
                         const uint8_t *list, size_t list_len,
                         uint8_t *peers, size_t peers_len,
                         uint8_t *trail, size_t trail_len, uint32_t *rows,
                         uint8_t answer[WUTHERDISH_ANSWER]);

/*
 * Says which certificate would clear a trans-invalid point. It takes and tests what judging does, but for the peer buffer: numbers 1 to
 * 4 and 6 to 9, in the same order. With a number the answer keeps what it held. With 0 its 69 bytes are set:
 *
 *   at  bytes  what
 *    0      1  0 the point is not waiting: its verdict is not trans-invalid
 *              1 no single mark clears it
 *              2 the mark of this point does, alone set wherever it stands in the list, and no other: the verdict is valid then
 *    1     68  2: the point's round (4), digest (32), author (32), little-endian; else zeros
 *
 * The point named is a dependency or a link's target, not the root cause that the verdict has. As above, the answer doesn't overlap the
 * rest.
 */
uint8_t wutherdish_clearing(const uint8_t *settings, size_t settings_len,
                            const uint8_t *schedule, size_t schedule_len,
                            const uint8_t *record, size_t record_len,
                            uint8_t leader, uint8_t presence,
                            const uint8_t *list, size_t list_len,
                            uint8_t answer[69]);

/*
 * Says which reasons the network can force: the author fixes the point and its entries, the network the order in which they arrive, of
 * the direct entries and of the indirect ones. Every reason that some order gives has one row of eight bytes:
 *
 *   at  bytes  what
 *    0      1  the list of the entry that gives it: 1 direct, 2 indirect; 0 if it is a presence rule (reason 2), and no entry
 *    1      2  the entry's place in that list, from 0, little-endian; of entries that give an equal reason the earliest; list 0: 0
 *    3      1  the reason's number, 2 to 19
 *    4      1  the role that it names: 0 proof, 1 trigger, 255 none
 *    5      3  zeros
 *
 * Rows stand by the reason's number, then by the place, and no reason has two; reasons are equal if all that they name is. A single row
 * is a reason that every order gives; no row means that no order makes the point invalid. It takes and tests what judging does, but for
 * the peer buffer: numbers 1 to 4 and 6 to 9, in the same order, and at last
 *
 *   17  out has less than 8 bytes for each row
 *
 * One of list_len + 8 bytes has room for all rows, which is proved. With 0 *rows is how many there are, and they stand at the front of
 * out, whose bytes after them keep what they held. With a number *rows and all of out keep what they held. As above, out and *rows
 * overlap neither each other nor the rest; rows is aligned as a uint32_t.
 */
uint8_t wutherdish_force(const uint8_t *settings, size_t settings_len,
                         const uint8_t *schedule, size_t schedule_len,
                         const uint8_t *record, size_t record_len,
                         uint8_t leader, uint8_t presence,
                         const uint8_t *list, size_t list_len,
                         uint8_t *out, size_t out_len, uint32_t *rows);

/*
 * A book keeps points with their verdicts in a slice of 47 to 16,777,216 bytes: settings, at most 4,096 entries, zeros.
 * Opening sets every byte of the slice. It tests, in this order:
 *
 *    1  settings are unreadable or outside their limits
 *    5  the slice is under 47 or over 16,777,216 bytes
 *
 * and returns 0 if the book is opened.
 */
uint8_t wutherdish_open(uint8_t *book, size_t book_len, const uint8_t *settings, size_t settings_len);

/*
 * Offers a point to a book: it is judged by the list that the book builds of its entries, with any answer but passed. An
 * offer tests, in this order:
 *
 *   10  the bytes are no book
 *    2, 3, 4, 5 as above
 *   11  the point is in the book already
 *   12  4,096 entries, or no room for the point
 *
 * and then 6 as above. Where the list is needed, the point's previous point, if the book keeps it, is marked certified,
 * whatever the verdict, and with it, as a certificate spreads at a node, what it includes and witnesses, what these do,
 * and so on: every entry that is reached so over entries above genesis that are not ill-formed, down to
 * commit_history_rounds below the previous point. Then the point is judged. Fail leaves the book as it is; any other
 * verdict is appended with the point, and is never taken back. As above, the book, the peer buffer and the answer overlap
 * neither each other nor the rest.
 */
uint8_t wutherdish_offer(uint8_t *book, size_t book_len,
                         const uint8_t *schedule, size_t schedule_len,
                         uint8_t leader,
                         const uint8_t *record, size_t record_len,
                         uint8_t *peers, size_t peers_len,
                         uint8_t answer[WUTHERDISH_ANSWER]);

/*
 * Converts a point record from the arrangement of FORMAT 1, `pairs`, to that of FORMAT 2, `columns`; the other call converts
 * back. A record keeps its length, and there and back gives the same bytes. Nothing in a record tells the two apart, and
 * where neither includes nor witness have two peers they are the same bytes: the caller says by the call which it hands
 * over. All other calls take `columns`. Converting tests, in this order:
 *
 *    3  the record can't be read in the arrangement that is handed over; one whose round or times are outside the domain
 *       is converted all the same
 *   14  out is shorter than the record
 *
 * and returns 0 if the converted record stands at the front of out: then *written is its length, and the bytes of out
 * after it keep what they held. With a number *written and all of out keep what they held. As above, out and *written
 * overlap neither each other nor the record; written is aligned as a uint32_t.
 */
uint8_t wutherdish_pairs_to_columns(const uint8_t *record, size_t record_len,
                                    uint8_t *out, size_t out_len, uint32_t *written);
uint8_t wutherdish_columns_to_pairs(const uint8_t *record, size_t record_len,
                                    uint8_t *out, size_t out_len, uint32_t *written);

/*
 * Writes the record of a point that a host composes itself, from its parts. It does not verify: links may name peers that
 * are in no map, and whatever else makes a point ill-formed is written too. A record whose round and times are inside the
 * domain, taken apart and handed over, gives the same bytes.
 *
 *   id         round (4), digest (32), author (32)
 *   includes,  n peers (32 each) in any order, and then n digests (32 each), the i-th of the i-th peer; they are written
 *   witness    by rising peers
 *   evidence   n peers (32 each) in any order; they are written rising
 *   proof,     links: kind (0 direct, 1 indirect), map (0 includes, 1 witness), peer (32), and the id of the target (68),
 *   trigger    which is not read of a direct one
 *   role       0 regular, 1 proof, 2 trigger, 3 genesis; seq_no and is_last are read of a proof alone
 *
 * Writing tests, in this order, each over all that is handed over before the next:
 *
 *    3  a map of over 255 rows, or not of whole rows: 64 bytes each in includes and witness, 32 in evidence
 *    4  the round, time or anchor_time is outside the domain; a link's kind or map is over 1, the role over 3, or is_last
 *       of a proof over 1
 *   13  a peer stands twice in a map, also with equal digests
 *   14  out is shorter than the record, which has 188 to 41,126 bytes
 *
 * and returns 0 if the record stands at the front of out. What becomes of out and *written is as with the two calls above,
 * and so is what they may not overlap: each other, and whatever else is handed over.
 */
uint8_t wutherdish_write(const uint8_t id[68], uint32_t payload_len, uint32_t payload_bytes,
                         const uint8_t *includes, size_t includes_len,
                         const uint8_t *witness, size_t witness_len,
                         const uint8_t *evidence, size_t evidence_len,
                         const uint8_t proof[102], const uint8_t trigger[102],
                         uint8_t role, uint8_t seq_no, uint8_t is_last,
                         uint64_t time, uint64_t anchor_time,
                         uint8_t *out, size_t out_len, uint32_t *written);

/*
 * The WUTHERDISH_VERSION of the linked library. Where it is not this header's in the upper 16 bits, ABI and FORMAT, no
 * other call may be made.
 */
uint32_t wutherdish_version(void);

#ifdef __cplusplus
}
#endif

#endif
