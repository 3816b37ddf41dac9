/* The proved functions of the checking tool that a program in C can call. Link with libmta.a.
 *
 * A slice is a pointer and then its length; a pointer with length 0 is not read and may be NULL.
 * Every function takes any bytes and any numbers. It answers MTA_OK, or the number of its first
 * refusal, in the order in which its comment lists them; mta_refusal says it in words.
 *
 * A function that hashes takes the number of the hash first: MTA_SHA256 or MTA_SM3. Any other number
 * is MTA_ALGORITHM, before all else; all 64 bits count. Every hash has 32 bytes under both.
 *
 * A refusal changes nothing that is lent: no byte of out, pair, state or schedule, and *written and
 * *collided keep their values. Only *place is set by a refusal. written, collided and place are not
 * NULL.
 *
 * What a call may write (out, pair, state, schedule, *written, *collided, *place) must overlap
 * neither what it reads nor one another, as MTA_RESTRICT says; of overlapping buffers nothing is
 * promised (with out inside proof, mta_carry answers MTA_OK and leaves a wrong path). What is only
 * read may overlap.
 *
 * A path is its nodes joined, 32 bytes each, so a node of another length is not seen: one of 16 bytes
 * and one of 48 pass as two. A caller who holds a list of nodes checks each before joining them.
 *
 * A tree has 1 to 2^64 - 1 leaves, so that every size but 0 is in range. A path has at most 64 nodes
 * (2,048 bytes), a consistency path at most 65. */
#ifndef MTA_H
#define MTA_H

#include <stdbool.h>
#include <stddef.h>
#include <stdint.h>

#ifdef __cplusplus
#define MTA_RESTRICT __restrict
extern "C" {
#else
#define MTA_RESTRICT restrict
#endif

enum {
    MTA_OK = 0,          /* done, or accepted */
    MTA_LONG = 1,        /* input over the length limit */
    MTA_CUT = 2,         /* a field is cut short */
    MTA_EXTRA = 3,       /* bytes after the last field */
    MTA_TYPE = 4,        /* type not in the list */
    MTA_LENGTH = 5,      /* a length out of range */
    MTA_RANGE = 6,       /* size or place out of range, or first size above second */
    MTA_COUNT = 7,       /* wrong count of nodes */
    MTA_ROOT = 8,        /* a root disagrees */
    MTA_ROOM = 9,        /* a lent output or working buffer is too short, or a schedule isn't 64 or 132 words */
    MTA_JOINED = 10,     /* joined hashes not a multiple of 32, or leaves over the limit */
    MTA_OTHER_LOG = 11,  /* other log; 11 to 14 are numbers of the auditor, which no function below gives */
    MTA_EARLIER = 12,    /* earlier timestamp, or the same with another size or root */
    MTA_OTHER_ROOT = 13, /* same size, other root */
    MTA_NO_HEAD = 14,    /* no head yet */
    MTA_ORDER = 15,      /* extensions not in order */
    MTA_ALGORITHM = 16   /* no hash has this number; of the auditor also another number than before */
};

/* The hashes by number. */
enum {
    MTA_SHA256 = 0x00, /* FIPS 180-4; the number is that of RFC 9162, section 10.2.1 */
    MTA_SM3 = 0xF0     /* GB/T 32905-2016; the number is from that section's private range */
};

/* A number in words; every number has some. */
static inline const char *mta_refusal(uint32_t number)
{
    switch (number) {
    case MTA_OK: return "done, or accepted";
    case MTA_LONG: return "input over the length limit";
    case MTA_CUT: return "a field is cut short";
    case MTA_EXTRA: return "bytes after the last field";
    case MTA_TYPE: return "type not in the list";
    case MTA_LENGTH: return "a length out of range";
    case MTA_RANGE: return "size or place out of range, or first size above second";
    case MTA_COUNT: return "wrong count of nodes";
    case MTA_ROOT: return "a root disagrees";
    case MTA_ROOM: return "a lent output or working buffer is too short, or a schedule isn't 64 or 132 words";
    case MTA_JOINED: return "joined hashes not a multiple of 32, or leaves over the limit";
    case MTA_OTHER_LOG: return "other log";
    case MTA_EARLIER: return "earlier timestamp, or the same with another size or root";
    case MTA_OTHER_ROOT: return "same size, other root";
    case MTA_NO_HEAD: return "no head yet";
    case MTA_ORDER: return "extensions not in order";
    case MTA_ALGORITHM: return "no hash has this number, or another one than before";
    default: return "no number of a refusal";
    }
}

/* Whether a path shows the leaf hash at a place of the tree with this size and root (RFC 9162,
 * section 2.1.3). The path is its nodes, joined, 32 bytes each.
 * Refusals: MTA_ALGORITHM, MTA_LENGTH (a hash not of 32 bytes), MTA_JOINED, MTA_RANGE, MTA_COUNT, MTA_ROOT. */
uint32_t mta_inclusion(uint64_t algorithm, const uint8_t *leaf, size_t leaf_len, uint64_t place, uint64_t size,
                       const uint8_t *root, size_t root_len, const uint8_t *path, size_t path_len);

/* Whether a path shows the tree of the first size and root to be the start of the tree of the
 * second (RFC 9162, section 2.1.4). Equal sizes take an empty path and equal roots.
 * Refusals: MTA_ALGORITHM, MTA_LENGTH (a root not of 32 bytes), MTA_JOINED, MTA_RANGE, MTA_COUNT, MTA_ROOT. */
uint32_t mta_consistency(uint64_t algorithm, uint64_t first, uint64_t second, const uint8_t *root1, size_t root1_len,
                         const uint8_t *root2, size_t root2_len, const uint8_t *path, size_t path_len);

/* Carries an inclusion proof at the first size to the second by a consistency proof, both by one hash.
 * After MTA_OK one of two:
 * - *collided is false: the first *written bytes of out are the new path (0 of them where it is empty). The rest
 *   of out and pair are as before.
 * - *collided is true, where the two proofs contradict each other: *written is 0, and the first 130 bytes of pair
 *   are two different strings of 65 bytes with one value under that hash, the inclusion proof's first. The rest
 *   of pair and out are as before.
 * Refusals: MTA_ALGORITHM, mta_inclusion's, mta_consistency's, then MTA_ROOM (out shorter than the new path, or
 * pair under 130). */
uint32_t mta_carry(uint64_t algorithm, const uint8_t *leaf, size_t leaf_len, uint64_t place, uint64_t first,
                   uint64_t second, const uint8_t *root1, size_t root1_len, const uint8_t *root2, size_t root2_len,
                   const uint8_t *path, size_t path_len, const uint8_t *proof, size_t proof_len,
                   uint8_t *MTA_RESTRICT out, size_t out_len, uint8_t *MTA_RESTRICT pair, size_t pair_len,
                   uint64_t *MTA_RESTRICT written, bool *MTA_RESTRICT collided);

/* Compares two inclusion proofs for one place, size and root, both by one hash. After MTA_OK *collided is false
 * where leaf hashes and paths are the same, and pair is as before; it is true where they differ, and pair has two
 * different strings with one value under that hash, as mta_carry leaves them, the first proof's first.
 * Refusals: MTA_ALGORITHM, mta_inclusion's of the first, of the second, then MTA_ROOM (pair under 130). */
uint32_t mta_compare(uint64_t algorithm, uint64_t place, uint64_t size, const uint8_t *root, size_t root_len,
                     const uint8_t *leaf1, size_t leaf1_len, const uint8_t *path1, size_t path1_len,
                     const uint8_t *leaf2, size_t leaf2_len, const uint8_t *path2, size_t path2_len,
                     uint8_t *MTA_RESTRICT pair, size_t pair_len, bool *MTA_RESTRICT collided);

/* The root of joined leaf hashes, 32 bytes each, into the first 32 bytes of out; of no leaves, the
 * hash of the empty string.
 * Refusals: MTA_ALGORITHM, MTA_JOINED (not a multiple of 32, or over 2^32 leaves), MTA_ROOM. */
uint32_t mta_root(uint64_t algorithm, const uint8_t *leaves, size_t leaves_len, uint8_t *MTA_RESTRICT out,
                  size_t out_len);

/* Reads an item (RFC 9162, sections 4.5 to 4.12). After MTA_OK *place is 0. After a refusal it is where
 * the field or inner element at fault starts, of MTA_EXTRA the first extra byte, and of MTA_LONG 0.
 * Refusals: MTA_LONG (over 33,554,432 bytes), then left to right MTA_CUT, MTA_TYPE, MTA_LENGTH, MTA_ORDER (an
 * extension whose type is not above the one before it; MTA_CUT of its own comes first), MTA_EXTRA. */
uint32_t mta_item(const uint8_t *item, size_t item_len, uint64_t *MTA_RESTRICT place);

/* Reads a structure of an earlier edition: edition 1 is RFC 6962, the only one here. which is 1 for a
 * MerkleTreeLeaf (section 3.4), 2 for a SignedCertificateTimestamp (3.2), 3 for the signed portion of a tree
 * head (3.5), 50 bytes. Extensions and algorithms are not judged, and a signature may be empty. After MTA_OK
 * *place is 0. After a refusal it is where the field at fault starts, of MTA_EXTRA the first extra byte, and of
 * MTA_LONG and of a name that is none 0.
 * Refusals: MTA_LONG (over 33,554,432 bytes), MTA_TYPE (edition or which is none of these), then left to right
 * MTA_CUT, MTA_TYPE (a version, leaf type, entry type or signature type), MTA_LENGTH, MTA_EXTRA. */
uint32_t mta_first(uint16_t edition, uint16_t which, const uint8_t *bytes, size_t bytes_len,
                   uint64_t *MTA_RESTRICT place);

/* Writes a consistency item (type 0x0105) from a log id of 2 to 127 bytes, two sizes and a joined path.
 * After MTA_OK the first *written bytes of out are the item, and the rest of out is as before.
 * Refusals: MTA_LENGTH, MTA_JOINED, MTA_ROOM. */
uint32_t mta_consistency_item(const uint8_t *log, size_t log_len, uint64_t first, uint64_t second,
                              const uint8_t *path, size_t path_len, uint8_t *MTA_RESTRICT out, size_t out_len,
                              uint64_t *MTA_RESTRICT written);

/* The hash of the input into the first 32 bytes of out.
 * Refusals: MTA_ALGORITHM, MTA_LONG (over 33,554,433 bytes), MTA_ROOM (out under 32 bytes). */
uint32_t mta_digest(uint64_t algorithm, const uint8_t *input, size_t input_len, uint8_t *MTA_RESTRICT out,
                    size_t out_len);

/* The leaf hash of an item, that of 0x00 || item, into the first 32 bytes of out.
 * Refusals: MTA_ALGORITHM, MTA_LONG (over 33,554,432 bytes), MTA_ROOM (out under 32 bytes). */
uint32_t mta_leaf(uint64_t algorithm, const uint8_t *item, size_t item_len, uint8_t *MTA_RESTRICT out,
                  size_t out_len);

/* The hash of a node, that of 0x01 || left || right, into the first 32 bytes of out.
 * Refusals: MTA_ALGORITHM, MTA_LENGTH (a hash not of 32 bytes), MTA_ROOM (out under 32 bytes). */
uint32_t mta_node(uint64_t algorithm, const uint8_t *left, size_t left_len, const uint8_t *right, size_t right_len,
                  uint8_t *MTA_RESTRICT out, size_t out_len);

/* SHA-256's block step on the eight words of a hash value; the block's 64 schedule words are left
 * in schedule. Refusals: MTA_LENGTH (a block not of 64 bytes), MTA_ROOM (schedule not of 64 words,
 * or state not of eight). */
uint32_t mta_step(uint32_t *MTA_RESTRICT state, size_t state_len, const uint8_t *block, size_t block_len,
                  uint32_t *MTA_RESTRICT schedule, size_t schedule_len);

/* SM3's block step (GB/T 32905-2016, section 5.3) on the eight words of a hash value; the words that the block
 * is expanded to are left in schedule, W0 to W67 and then W'0 to W'63. Refusals: MTA_LENGTH (a block not of 64
 * bytes), MTA_ROOM (schedule not of 132 words, or state not of eight). */
uint32_t mta_sm3_step(uint32_t *MTA_RESTRICT state, size_t state_len, const uint8_t *block, size_t block_len,
                      uint32_t *MTA_RESTRICT schedule, size_t schedule_len);

#ifdef __cplusplus
}
#endif

#endif
