/*
 * The journal for C and C++: its fold into the pending park records, the frame of one, and the writers of its five records. The
 * library is target/staticlib/libjournal_exports.a, which links on x86-64 only and needs a processor of x86-64-v2 or later.
 * c/fold.c is an example.
 *
 * For each of the seven functions:
 *
 * - A slice is a pointer and a length. No pointer may be null, also where its length is 0.
 * - A slice that is written must not overlap another slice.
 * - Until the call returns, nothing else may write to a slice, or read a slice that is written.
 * - The call needs at most 128 KiB of stack, GAP_QUARANTINE_STACK.
 * - Nothing is kept from one call to the next, and several threads may call at once.
 */
#ifndef GAP_QUARANTINE_JOURNAL_H
#define GAP_QUARANTINE_JOURNAL_H

#include <stddef.h>
#include <stdint.h>

#ifdef __cplusplus
extern "C" {
#endif

/*
 * The stack that a thread needs at most for any of the calls, in bytes. It is measured (c/stack.c), not proved, and has a margin:
 * 124 KiB in all are enough for a thread that folds, and 16 KiB, the smallest stack that a thread can have, for each of the other
 * calls. No function recurses.
 */
#define GAP_QUARANTINE_STACK 131072

/* The longest journal that a fold takes. */
#define GAP_QUARANTINE_JOURNAL 65536

/* What the 64 pending records take at most, what the totals take, and what a frame takes. */
#define GAP_QUARANTINE_OUT 15360
#define GAP_QUARANTINE_TOTALS 40
#define GAP_QUARANTINE_FRAME 92

/* What each of the five records takes: QP, QT, QR, QL and QX. */
#define GAP_QUARANTINE_PARK 240
#define GAP_QUARANTINE_TENTATIVE 120
#define GAP_QUARANTINE_RESOLVE 47
#define GAP_QUARANTINE_LEGACY 256
#define GAP_QUARANTINE_OTHER 10

/*
 * Folds a journal. Returns 0 and writes the pending park records, 240 bytes each, to the front of `out`, and five numbers,
 * pending, skipped, migrated, degraded and end, as little-endian u64 to `totals`, which is 40 bytes long. Or returns a
 * refusal's number + 256 * its offset, and writes nothing.
 */
uint64_t gap_quarantine_fold(const uint8_t *journal, size_t journal_len, uint8_t *out, size_t out_len, uint8_t *totals,
                             size_t totals_len);

/*
 * Restores the frame of one park record. Returns 0 and writes to `frame`, which is 92 bytes long, the hash (32 bytes), the
 * address (20), and expected, claim, chain_id, gas and ticket as little-endian u64. Or returns a refusal's number, and writes
 * nothing.
 */
uint64_t gap_quarantine_restore(const uint8_t *record, size_t record_len, uint8_t *frame, size_t frame_len);

/*
 * The writers. Each writes one record to the front of `out`, leaves what lies past it as it was, and returns 256 * the
 * record's length. Or it writes nothing and returns 11, if an argument is not as said here, or else 13, if `out` is shorter
 * than the record.
 *
 * - `version` is at most 2.
 * - A hash is 32 bytes, an address (`from`, `sender`) 20. An optional one that is absent is given with length 0.
 * - `kind` is 1 if the nonce was consumed by the frame itself, mined, and 2 if its slot was taken; `block_hash` is a hash
 *   then, and `by` an optional one. It is 0 if neither is known; `block`, `block_hash` and `by` are not looked at then.
 * - `wire`, `list`, `rest` and each `has_` are 0 or 1. Where a `has_` is 0, the number after it is absent and is not looked
 *   at.
 */

/*
 * QP, a park. `text` is the hash's text as it was given, at most 66 bytes from 32 to 126. `from` and `sender` are optional.
 * `wire` is 1 if the frame's texts other than hash and from decode, `list` is 1 if its access list is an array. `fidelity`
 * is 0 full or 1 degraded.
 */
uint64_t gap_quarantine_write_park(uint32_t version, const uint8_t *text, size_t text_len, const uint8_t *from,
                                   size_t from_len, const uint8_t *sender, size_t sender_len, uint64_t chain_id,
                                   uint64_t gas, uint8_t wire, uint8_t list, uint64_t claimed_nonce, uint64_t expected_nonce,
                                   uint64_t parked_at, uint8_t fidelity, uint8_t kind, uint64_t block,
                                   const uint8_t *block_hash, size_t block_hash_len, const uint8_t *by, size_t by_len,
                                   uint64_t ticket, uint8_t *out, size_t out_len);

/* QT, a tentative entry: what consumed the nonce of the frame with this hash. `kind` is 1 or 2. */
uint64_t gap_quarantine_write_tentative(uint32_t version, const uint8_t *hash, size_t hash_len, uint8_t kind, uint64_t block,
                                        const uint8_t *block_hash, size_t block_hash_len, const uint8_t *by, size_t by_len,
                                        uint64_t entered_at, uint8_t *out, size_t out_len);

/*
 * QR, a resolution: what became of the frame with this hash. `resolution` is 1 mined and final, 2 taken and final, 3 rescued
 * and consumed, or 4 evicted.
 */
uint64_t gap_quarantine_write_resolve(uint32_t version, const uint8_t *hash, size_t hash_len, uint8_t resolution,
                                      uint64_t resolved_at, uint8_t *out, size_t out_len);

/*
 * QL, a park of the older form. `frame_hash`, `top_hash`, `sender` and `from` are optional. `rest` is 1 if the other wire
 * fields are sound, the access list is an array, and none but to and raw_signed_tx is absent.
 */
uint64_t gap_quarantine_write_legacy(const uint8_t *frame_hash, size_t frame_hash_len, const uint8_t *top_hash,
                                     size_t top_hash_len, uint8_t has_claimed, uint64_t claimed_nonce,
                                     uint8_t has_frame_nonce, uint64_t frame_nonce, uint8_t has_top_nonce,
                                     uint64_t top_nonce, const uint8_t *sender, size_t sender_len, const uint8_t *from,
                                     size_t from_len, uint8_t has_expected, uint64_t expected_nonce, uint8_t has_parked_at,
                                     uint64_t parked_at, uint8_t has_chain_id, uint64_t chain_id, uint8_t has_gas,
                                     uint64_t gas, uint8_t rest, uint8_t kind, uint64_t block, const uint8_t *block_hash,
                                     size_t block_hash_len, const uint8_t *by, size_t by_len, uint64_t ticket, uint8_t *out,
                                     size_t out_len);

/* QX, a line that is none of these. */
uint64_t gap_quarantine_write_other(uint64_t ticket, uint8_t *out, size_t out_len);

#ifdef __cplusplus
}
#endif

#endif
