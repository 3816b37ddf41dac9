/* A host program: document 01's cases and those of requests 3 and 7 through the static library, by both hashes,
 * one line a check that fails. The last line is 'N passed, M failed'. */
#include "mta.h"

#include <stdio.h>
#include <string.h>

enum { HASH = 32, MOST = 66, PAIR = 130, BEFORE = 0xa5, ODD = 987654321 };

typedef struct {
    uint8_t bytes[HASH];
} Hash;

typedef struct {
    uint8_t bytes[HASH * MOST];
    size_t length;
} Path;

typedef struct {
    Hash leaf;
    uint64_t place, size;
    Hash root;
    Path path;
} Proof;

static const Path none;

static int passed, failed;

/* The number of the hash that what follows is done by. */
static uint64_t by = MTA_SHA256;

/* What a call answered. */
static void expect(const char *what, uint32_t got, uint32_t want)
{
    if (got == want) {
        passed++;
        return;
    }
    failed++;
    printf("FAILED: %s: %u (%s) where %u (%s) is right\n", what, (unsigned)got, mta_refusal(got), (unsigned)want,
           mta_refusal(want));
}

/* What it left in memory. */
static void holds_true(const char *what, bool is_right)
{
    if (is_right) {
        passed++;
        return;
    }
    failed++;
    printf("FAILED: %s: other memory\n", what);
}

static Hash leaf(uint8_t item)
{
    Hash h;
    expect("a leaf hash", mta_leaf(by, &item, 1, h.bytes, HASH), MTA_OK);
    return h;
}

static Hash node(Hash left, Hash right)
{
    Hash h;
    expect("a node hash", mta_node(by, left.bytes, HASH, right.bytes, HASH, h.bytes, HASH), MTA_OK);
    return h;
}

static Path join(size_t count, const Hash *nodes)
{
    Path p = {.length = HASH * count};
    for (size_t i = 0; i < count; i++)
        memcpy(p.bytes + HASH * i, nodes[i].bytes, HASH);
    return p;
}

#define PATH(...) join(sizeof((Hash[]){__VA_ARGS__}) / sizeof(Hash), (Hash[]){__VA_ARGS__})

static uint32_t included(Hash h, uint64_t place, uint64_t size, Hash root, Path p)
{
    return mta_inclusion(by, h.bytes, HASH, place, size, root.bytes, HASH, p.bytes, p.length);
}

static uint32_t consistent(uint64_t first, uint64_t second, Hash root1, Hash root2, Path p)
{
    return mta_consistency(by, first, second, root1.bytes, HASH, root2.bytes, HASH, p.bytes, p.length);
}

/* Whether a buffer starts with these bytes and is BEFORE after them. */
static bool holds(const uint8_t *buffer, size_t length, Path start)
{
    if (start.length > length || memcmp(buffer, start.bytes, start.length) != 0)
        return false;
    for (size_t i = start.length; i < length; i++)
        if (buffer[i] != BEFORE)
            return false;
    return true;
}

/* Carries a proof by a consistency path. The pair buffer stays; of a refusal, whose new path is none, the path
 * buffer and both results stay too. */
static void carries(const char *what, Proof p, uint64_t second, Hash root2, Path step, size_t out_length,
                    size_t pair_length, uint32_t want, Path new_path)
{
    for (int before = 0; before <= 1; before++) {
        uint8_t out[HASH * MOST], pair[PAIR];
        uint64_t written = ODD;
        bool collided = before;
        memset(out, BEFORE, sizeof out);
        memset(pair, BEFORE, sizeof pair);
        expect(what,
               mta_carry(by, p.leaf.bytes, HASH, p.place, p.size, second, p.root.bytes, HASH, root2.bytes, HASH,
                         p.path.bytes, p.path.length, step.bytes, step.length, out, out_length, pair, pair_length,
                         &written, &collided),
               want);
        holds_true(what, written == (want == MTA_OK ? new_path.length : ODD));
        holds_true(what, collided == (want == MTA_OK ? false : before));
        holds_true(what, holds(out, sizeof out, new_path) && holds(pair, sizeof pair, none));
    }
}

/* Compares a proof with another leaf and path. The pair buffer stays, and of a refusal the result too. */
static void compares(const char *what, Proof p, Hash leaf2, Path path2, size_t pair_length, uint32_t want)
{
    for (int before = 0; before <= 1; before++) {
        uint8_t pair[PAIR];
        bool collided = before;
        memset(pair, BEFORE, sizeof pair);
        expect(what,
               mta_compare(by, p.place, p.size, p.root.bytes, HASH, p.leaf.bytes, HASH, p.path.bytes,
                           p.path.length, leaf2.bytes, HASH, path2.bytes, path2.length, pair, pair_length, &collided),
               want);
        holds_true(what, collided == (want == MTA_OK ? false : before));
        holds_true(what, holds(pair, sizeof pair, none));
    }
}

/* Writes a consistency item with an empty path; of a refusal the buffer and the length stay. */
static void writes(const char *what, const uint8_t *log, size_t log_length, size_t path_length, size_t out_length,
                   uint32_t want)
{
    enum { ITEM = 23 };
    static const uint8_t zeros[HASH];
    uint8_t out[2 * HASH];
    uint64_t written = ODD, place = ODD;
    memset(out, BEFORE, sizeof out);
    expect(what, mta_consistency_item(log, log_length, 3, 7, zeros, path_length, out, out_length, &written), want);
    if (want != MTA_OK) {
        holds_true(what, written == ODD && holds(out, sizeof out, none));
        return;
    }
    holds_true(what, written == ITEM && out[ITEM] == BEFORE);
    expect("the item read", mta_item(out, ITEM, &place), MTA_OK);
    holds_true("its place", place == 0);
    expect("one byte more", mta_item(out, ITEM + 1, &place), MTA_EXTRA);
    holds_true("the extra byte's place", place == ITEM);
}

/* A receipt with two empty extensions: 13 bytes, their vector's length in 2, four bytes each, a signature. */
static void orders(uint8_t first, uint8_t second, uint32_t want, uint64_t want_place)
{
    const uint8_t receipt[] = {1, 2, 2, 42, 3, 0, 0, 0, 0, 0, 0, 0, 5, 0, 8, 0, first, 0, 0, 0, second, 0, 0, 0, 1, 's'};
    uint64_t place = ODD;
    expect("two extensions", mta_item(receipt, sizeof receipt, &place), want);
    holds_true("two extensions' place", place == want_place);
}

/* The first bytes of a structure of RFC 6962, read under a name. */
static void reads_first(const char *what, uint16_t edition, uint16_t which, const uint8_t *bytes, size_t length,
                        uint32_t want, uint64_t want_place)
{
    uint64_t place = ODD;
    expect(what, mta_first(edition, which, bytes, length, &place), want);
    holds_true(what, place == want_place);
}

/* A leaf of RFC 6962: version, leaf type, timestamp, entry type at 10, certificate at 12, extensions at 16. And a
 * head: version, signature type, timestamp, size, root at 18. */
static void first_edition(void)
{
    uint8_t entry[] = {0, 0, 0, 0, 0, 0, 0, 0, 0, 7, 0, 0, 0, 0, 1, 'c', 0, 0, 0}, head[51] = {0, 1};
    const size_t length = sizeof entry - 1;

    reads_first("a leaf of RFC 6962", 1, 1, entry, length, MTA_OK, 0);
    reads_first("cut in its entry type", 1, 1, entry, 11, MTA_CUT, 10);
    reads_first("cut in its extensions", 1, 1, entry, length - 1, MTA_CUT, 16);
    reads_first("one byte more", 1, 1, entry, length + 1, MTA_EXTRA, 18);
    reads_first("no bytes", 1, 1, NULL, 0, MTA_CUT, 0);
    reads_first("no structure of this name", 1, 4, entry, length, MTA_TYPE, 0);
    reads_first("no edition of this name", 2, 1, entry, length, MTA_TYPE, 0);
    reads_first("no bytes, no name", 0, 0, NULL, 0, MTA_TYPE, 0);
    reads_first("a leaf as a head", 1, 3, entry, length, MTA_TYPE, 1);
    entry[14] = 0;
    reads_first("a certificate without a byte", 1, 1, entry, length, MTA_LENGTH, 12);
    entry[11] = 2;
    reads_first("entry type 2", 1, 1, entry, length, MTA_TYPE, 10);
    entry[0] = 1;
    reads_first("version 1", 1, 1, entry, length, MTA_TYPE, 0);
    reads_first("a head of RFC 6962", 1, 3, head, 50, MTA_OK, 0);
    reads_first("a head of 49 bytes", 1, 3, head, 49, MTA_CUT, 18);
    reads_first("a head of 51 bytes", 1, 3, head, 51, MTA_EXTRA, 50);
    head[1] = 0;
    reads_first("the other signature type", 1, 3, head, 50, MTA_TYPE, 1);
    reads_first("a receipt of zeros", 1, 2, (const uint8_t[47]){0}, 47, MTA_OK, 0);
}

/* Every number has words, and no two of the table have the same. */
static void words(void)
{
    for (uint32_t n = MTA_OK; n <= MTA_ALGORITHM + 1; n++) {
        holds_true("words", mta_refusal(n)[0] != 0);
        for (uint32_t m = MTA_OK; m < n; m++)
            holds_true("words of two numbers", strcmp(mta_refusal(n), mta_refusal(m)) != 0);
    }
    holds_true("words of no number", strcmp(mta_refusal(UINT32_MAX), mta_refusal(MTA_ALGORITHM + 1)) == 0);
}

/* These nodes, and then a last one so often that there are so many. */
static Path extended(Path p, Hash last, size_t count)
{
    for (; p.length < HASH * count; p.length += HASH)
        memcpy(p.bytes + p.length, last.bytes, HASH);
    return p;
}

/* Sizes that 32 bits do not hold: the last leaf of 2^32 + 1 has all others in one node beside it. */
static void past_32_bits(Hash a, Hash b)
{
    uint64_t last = UINT64_C(1) << 32;

    expect("place 2^32 of 2^32 + 1", included(a, last, last + 1, node(b, a), PATH(b)), MTA_OK);
    expect("place 0 of 2^32 + 1 by one node", included(a, 0, last + 1, node(a, b), PATH(b)), MTA_COUNT);
    expect("place 2^32 + 1 of 2^32 + 1", included(a, last + 1, last + 1, node(b, a), PATH(b)), MTA_RANGE);
    expect("2^32 to 2^32 + 1", consistent(last, last + 1, a, node(a, b), PATH(b)), MTA_OK);
    expect("2^32 + 1 to 2^32 + 1", consistent(last + 1, last + 1, a, a, none), MTA_OK);
    expect("2^32 + 1 to 2^32", consistent(last + 1, last, a, a, none), MTA_RANGE);
}

/* The largest size, by place 2 of the first three leaves: a path of 64 nodes, a consistency path of 65. All further
 * nodes are the same. */
static void largest_size(Proof p, Hash d, Hash g, Hash k)
{
    Path step = extended(PATH(p.leaf, d, g), d, 65), longest = extended(PATH(d, g), d, 64);
    Path shorter = {.length = longest.length - HASH}, longer = extended(longest, d, 65);
    Hash root = k, end = d;

    memcpy(shorter.bytes, longest.bytes, shorter.length);
    for (int level = 2; level < 64; level++)
        root = node(root, d);
    for (int level = 1; level < 64; level++)
        end = node(g, end);
    expect("place 2 of 2^64 - 1", included(p.leaf, 2, UINT64_MAX, root, longest), MTA_OK);
    expect("by 63 nodes", included(p.leaf, 2, UINT64_MAX, root, shorter), MTA_COUNT);
    expect("by 65 nodes", included(p.leaf, 2, UINT64_MAX, root, longer), MTA_COUNT);
    expect("another leaf of 2^64 - 1", included(d, 2, UINT64_MAX, root, longest), MTA_ROOT);
    expect("place 2^64 - 2", included(d, UINT64_MAX - 1, UINT64_MAX, end, extended(none, g, 63)), MTA_OK);
    expect("place 2^64 - 1", included(p.leaf, UINT64_MAX, UINT64_MAX, root, longest), MTA_RANGE);
    expect("3 to 2^64 - 1", consistent(3, UINT64_MAX, p.root, root, step), MTA_OK);
    expect("by 66 nodes", consistent(3, UINT64_MAX, p.root, root, extended(step, d, 66)), MTA_COUNT);
    expect("2^64 - 1 to 2^64 - 1", consistent(UINT64_MAX, UINT64_MAX, root, root, none), MTA_OK);
    expect("2^64 - 1 to 2^64 - 1 with a node", consistent(UINT64_MAX, UINT64_MAX, root, root, PATH(d)), MTA_COUNT);
    expect("2^64 - 1 to 2^64 - 2", consistent(UINT64_MAX, UINT64_MAX - 1, root, root, none), MTA_RANGE);

    carries("place 2 from 3 to 2^64 - 1", p, UINT64_MAX, root, step, 2048, PAIR, MTA_OK, longest);
    carries("2,047 bytes for 64 nodes", p, UINT64_MAX, root, step, 2047, PAIR, MTA_ROOM, none);
    Proof last = {p.leaf, 2, UINT64_MAX, root, longest};
    carries("place 2 from 2^64 - 1 to itself", last, UINT64_MAX, root, none, 2048, PAIR, MTA_OK, longest);
    compares("two paths of 64 nodes", last, p.leaf, longest, PAIR, MTA_OK);
    compares("of 64 and of 65 nodes", last, p.leaf, longer, PAIR, MTA_COUNT);
}

/* A slice of length 0 may be NULL. */
static void empty_slices(Hash h)
{
    uint8_t digest[HASH], pair[PAIR];
    uint64_t written = ODD;
    bool collided = true;

    expect("the empty string", mta_digest(by, NULL, 0, digest, HASH), MTA_OK);
    expect("a digest into nothing", mta_digest(by, NULL, 0, NULL, 0), MTA_ROOM);
    expect("an empty path", mta_inclusion(by, h.bytes, HASH, 0, 1, h.bytes, HASH, NULL, 0), MTA_OK);
    expect("no leaf hash", mta_inclusion(by, NULL, 0, 0, 1, h.bytes, HASH, NULL, 0), MTA_LENGTH);
    expect("no root", mta_inclusion(by, h.bytes, HASH, 0, 1, NULL, 0, NULL, 0), MTA_LENGTH);
    expect("no roots", mta_consistency(by, 1, 1, NULL, 0, NULL, 0, NULL, 0), MTA_LENGTH);
    expect("no parts", mta_node(by, NULL, 0, NULL, 0, digest, HASH), MTA_LENGTH);
    expect("no block", mta_step(NULL, 0, NULL, 0, NULL, 0), MTA_LENGTH);
    expect("no block for SM3", mta_sm3_step(NULL, 0, NULL, 0, NULL, 0), MTA_LENGTH);
    expect("1 to 1, no path",
           mta_carry(by, h.bytes, HASH, 0, 1, 1, h.bytes, HASH, h.bytes, HASH, NULL, 0, NULL, 0, NULL, 0, pair,
                     PAIR, &written, &collided),
           MTA_OK);
    holds_true("nothing written", written == 0 && !collided);
    expect("nothing to carry",
           mta_carry(by, NULL, 0, 0, 0, 0, NULL, 0, NULL, 0, NULL, 0, NULL, 0, NULL, 0, NULL, 0, &written, &collided),
           MTA_LENGTH);
    expect("nothing to compare",
           mta_compare(by, 0, 0, NULL, 0, NULL, 0, NULL, 0, NULL, 0, NULL, 0, NULL, 0, &collided), MTA_LENGTH);
}

/* Whether a hash is written so, in hexadecimal digits. */
static bool is(const uint8_t *hash, const char *digits)
{
    char text[2 * HASH + 1];
    for (int i = 0; i < HASH; i++)
        snprintf(text + 2 * i, 3, "%02x", (unsigned)hash[i]);
    return strcmp(text, digits) == 0;
}

/* The digest of an input, the leaf hash of the empty item, the node of two hashes of zeros, and the root of none. */
static void hashes_to(const char *input, const char *digest, const char *leaf_of_none, const char *zeros,
                      const char *none_digits)
{
    uint8_t out[HASH + 1];
    static const uint8_t zero[HASH];

    out[HASH] = BEFORE;
    expect("a digest", mta_digest(by, (const uint8_t *)input, strlen(input), out, HASH + 1), MTA_OK);
    holds_true("its bytes", is(out, digest) && out[HASH] == BEFORE);
    expect("the digest of nothing", mta_digest(by, NULL, 0, out, HASH), MTA_OK);
    holds_true("its bytes", is(out, none_digits));
    expect("the leaf hash of nothing", mta_leaf(by, NULL, 0, out, HASH), MTA_OK);
    holds_true("its bytes", is(out, leaf_of_none));
    expect("the node of zeros", mta_node(by, zero, HASH, zero, HASH, out, HASH), MTA_OK);
    holds_true("its bytes", is(out, zeros));
    expect("the root of no leaves", mta_root(by, NULL, 0, out, HASH), MTA_OK);
    holds_true("its bytes", is(out, none_digits));
    expect("a root of 31 bytes", mta_inclusion(by, zero, HASH, 0, 1, zero, HASH - 1, NULL, 0), MTA_LENGTH);
}

/* SM3's block step on 'abc', padded to one block (GB/T 32905-2016, appendix A.1). */
static void sm3_block(void)
{
    enum { WORDS = 132 };
    static const uint32_t first[8] = {0x7380166f, 0x4914b2b9, 0x172442d7, 0xda8a0600,
                                      0xa96f30bc, 0x163138aa, 0xe38dee4d, 0xb0fb0e4e};
    static const uint32_t last[8] = {0x66c7f0f4, 0x62eeedd9, 0xd1f2d46b, 0xdc10e4e2,
                                     0x4167c487, 0x5cf2f7a2, 0x297da02b, 0x8f4ba8e0};
    uint8_t block[64] = {'a', 'b', 'c', 0x80};
    uint32_t state[8], words[WORDS + 1];

    block[63] = 24;
    memcpy(state, first, sizeof state);
    for (int i = 0; i <= WORDS; i++)
        words[i] = ODD;
    expect("a block of 63 bytes, 131 words", mta_sm3_step(state, 8, block, 63, words, WORDS - 1), MTA_LENGTH);
    expect("64 words", mta_sm3_step(state, 8, block, 64, words, 64), MTA_ROOM);
    expect("131 words", mta_sm3_step(state, 8, block, 64, words, WORDS - 1), MTA_ROOM);
    expect("133 words", mta_sm3_step(state, 8, block, 64, words, WORDS + 1), MTA_ROOM);
    expect("seven words of state", mta_sm3_step(state, 7, block, 64, words, WORDS), MTA_ROOM);
    holds_true("a step refused", memcmp(state, first, sizeof state) == 0 && words[0] == ODD && words[WORDS] == ODD);
    expect("a step of SM3", mta_sm3_step(state, 8, block, 64, words, WORDS), MTA_OK);
    holds_true("its state", memcmp(state, last, sizeof state) == 0);
    holds_true("its words", words[0] == 0x61626380 && words[15] == 0x18 && words[16] == 0x9092e200 &&
                                words[67] == 0xb99c0545 && words[68] == 0x61626380 && words[131] == 0x49e260d5 &&
                                words[WORDS] == ODD);
}

/* Numbers that no hash has: refused before all else, and nothing is changed. Any proof will do. */
static void unknown_numbers(Proof p, uint64_t second, Hash root2, Path step)
{
    static const uint64_t numbers[] = {0x01, 0xEF, 0xF1, 0x100, 0x1F0, UINT64_C(1) << 32, (UINT64_C(1) << 32) + 0xF0,
                                       UINT64_MAX};
    uint64_t before = by;

    for (size_t i = 0; i < sizeof numbers / sizeof *numbers; i++) {
        uint8_t out[HASH];
        memset(out, BEFORE, sizeof out);
        by = numbers[i];
        expect("an unknown number, a digest", mta_digest(by, p.leaf.bytes, HASH, NULL, 0), MTA_ALGORITHM);
        expect("an unknown number, a leaf", mta_leaf(by, NULL, 0, out, HASH), MTA_ALGORITHM);
        expect("an unknown number, a node", mta_node(by, NULL, 0, NULL, 0, out, HASH), MTA_ALGORITHM);
        expect("an unknown number, a root", mta_root(by, p.leaf.bytes, HASH - 1, out, HASH), MTA_ALGORITHM);
        expect("an unknown number, half a root", mta_inclusion(by, NULL, 0, 0, 0, out, 31, NULL, 0), MTA_ALGORITHM);
        expect("an unknown number, no roots", mta_consistency(by, 0, 0, NULL, 0, NULL, 0, NULL, 0), MTA_ALGORITHM);
        holds_true("an unknown number", holds(out, sizeof out, none));
        expect("an unknown number, included", included(p.leaf, p.place, p.size, p.root, p.path), MTA_ALGORITHM);
        expect("an unknown number, consistent", consistent(p.size, second, p.root, root2, step), MTA_ALGORITHM);
        carries("an unknown number, carried", p, second, root2, step, HASH * MOST, PAIR, MTA_ALGORITHM, none);
        carries("an unknown number, carried without room", p, second, root2, step, 0, 0, MTA_ALGORITHM, none);
        compares("an unknown number, compared", p, p.leaf, p.path, PAIR, MTA_ALGORITHM);
        compares("an unknown number, compared without room", p, root2, none, 0, MTA_ALGORITHM);
    }
    by = before;
}

/* Right proofs by the other hash. */
static void other_hash(Proof p, uint64_t second, Hash root2, Path step)
{
    uint64_t before = by;

    by = by == MTA_SHA256 ? MTA_SM3 : MTA_SHA256;
    expect("included by the other hash", included(p.leaf, p.place, p.size, p.root, p.path), MTA_ROOT);
    expect("consistent by the other hash", consistent(p.size, second, p.root, root2, step), MTA_ROOT);
    carries("carried by the other hash", p, second, root2, step, HASH * MOST, PAIR, MTA_ROOT, none);
    compares("compared by the other hash", p, p.leaf, p.path, PAIR, MTA_ROOT);
    by = before;
}

/* Document 01's cases, and those of request 3. */
static void by_one_hash(void)
{
    Hash a = leaf('a'), b = leaf('b'), c = leaf('c'), d = leaf('d'), e = leaf('e'), f = leaf('f'), j = leaf('j');
    Hash g = node(a, b), h = node(c, d), i = node(e, f), k = node(g, h), l = node(i, j), root = node(k, l);
    Hash root3 = node(g, c), root6 = node(k, i);

    expect("place 0 of 7", included(a, 0, 7, root, PATH(b, h, l)), MTA_OK);
    expect("place 3 of 7", included(d, 3, 7, root, PATH(c, g, l)), MTA_OK);
    expect("place 4 of 7", included(e, 4, 7, root, PATH(f, j, k)), MTA_OK);
    expect("place 6 of 7", included(j, 6, 7, root, PATH(i, k)), MTA_OK);
    expect("another leaf", included(b, 0, 7, root, PATH(b, h, l)), MTA_ROOT);
    expect("another place", included(a, 1, 7, root, PATH(b, h, l)), MTA_ROOT);
    expect("a node left over", included(j, 6, 7, root, PATH(i, k, k)), MTA_COUNT);
    expect("a place past the size", included(a, 7, 7, root, PATH(b, h, l)), MTA_RANGE);

    expect("3 to 7", consistent(3, 7, root3, root, PATH(c, d, g, l)), MTA_OK);
    expect("4 to 7", consistent(4, 7, k, root, PATH(l)), MTA_OK);
    expect("6 to 7", consistent(6, 7, root6, root, PATH(i, j, k)), MTA_OK);
    expect("6 to 7 without i", consistent(6, 7, root6, root, PATH(j, k)), MTA_COUNT);
    expect("roots exchanged", consistent(6, 7, root, root6, PATH(i, j, k)), MTA_ROOT);

    expect("size 1", included(a, 0, 1, a, none), MTA_OK);
    expect("size 1 with a node", included(a, 0, 1, a, PATH(b)), MTA_COUNT);
    expect("size 1, place 1", included(a, 1, 1, a, none), MTA_RANGE);
    expect("size 0", included(a, 0, 0, a, none), MTA_RANGE);
    expect("4 to 4", consistent(4, 4, k, k, none), MTA_OK);
    expect("4 to 4 with a node", consistent(4, 4, k, k, PATH(l)), MTA_COUNT);
    expect("4 to 4, another root", consistent(4, 4, k, root, none), MTA_ROOT);
    expect("0 to 7", consistent(0, 7, k, root, PATH(l)), MTA_RANGE);
    expect("7 to 3", consistent(7, 3, root, root3, none), MTA_RANGE);
    expect("half a node", mta_inclusion(by, a.bytes, HASH, 0, 7, root.bytes, HASH, root.bytes, 31),
           MTA_JOINED);

    Proof first3 = {a, 0, 3, root3, PATH(b, c)}, last3 = {c, 2, 3, root3, PATH(g)};
    Proof last6 = {f, 5, 6, root6, PATH(e, k)};
    Path to7 = PATH(c, d, g, l), carried3 = PATH(b, h, l);
    size_t room = carried3.length;
    carries("place 0 from 3 to 7", first3, 7, root, to7, room, PAIR, MTA_OK, carried3);
    carries("place 2 from 3 to 7", last3, 7, root, to7, room, PAIR, MTA_OK, PATH(d, g, l));
    carries("place 5 from 6 to 7", last6, 7, root, PATH(i, j, k), room, PAIR, MTA_OK, PATH(e, j, k));
    carries("place 0 from 3 to 3", first3, 3, root3, none, HASH * MOST, PAIR, MTA_OK, first3.path);
    carries("carried by another proof", first3, 7, root, PATH(c, d, g, k), room, PAIR, MTA_ROOT, none);
    carries("carried by a node too few", first3, 7, root, PATH(d, g, l), room, PAIR, MTA_COUNT, none);
    carries("carried back", last6, 3, root3, none, room, PAIR, MTA_RANGE, none);
    carries("a path buffer too short", first3, 7, root, to7, room - 1, PAIR, MTA_ROOM, none);
    carries("a pair buffer too short", first3, 7, root, to7, room, PAIR - 1, MTA_ROOM, none);

    compares("a proof with itself", first3, a, first3.path, PAIR, MTA_OK);
    compares("with another leaf", first3, b, first3.path, PAIR, MTA_ROOT);
    compares("with a longer path", first3, a, carried3, PAIR, MTA_COUNT);
    compares("a pair buffer too short to compare", first3, a, first3.path, PAIR - 1, MTA_ROOM);

    past_32_bits(a, b);
    largest_size(last3, d, g, k);
    empty_slices(a);
    unknown_numbers(first3, 7, root, to7);
    other_hash(first3, 7, root, to7);
}

int main(void)
{
    by_one_hash();
    hashes_to("abc", "ba7816bf8f01cfea414140de5dae2223b00361a396177a9cb410ff61f20015ad",
              "6e340b9cffb37a989ca544e6bb780a2c78901d3fb33738768511a30617afa01d",
              "ae0798d0ecaed2b778eddebf18f071a561c53658c05e76cedecc27cafbdbc577",
              "e3b0c44298fc1c149afbf4c8996fb92427ae41e4649b934ca495991b7852b855");
    by = MTA_SM3;
    by_one_hash();
    hashes_to("abc", "66c7f0f462eeedd9d1f2d46bdc10e4e24167c4875cf2f7a2297da02b8f4ba8e0",
              "2daef60e7a0b8f5e024c81cd2ab3109f2b4f155cf83adeb2ae5532f74a157fdf",
              "5ec1420cd14f308650cb6ac8dcd6bab89589f1f3dced7c1a17345f269e605291",
              "1ab21d8355cfa17f8e61194831e81a8f22bec8c728fefb747ed035eb5082aa2b");
    sm3_block();

    static const uint8_t log[] = {0x2a, 0x03};
    writes("a consistency item", log, sizeof log, 0, 23, MTA_OK);
    writes("a log id of one byte", log, 1, 0, 23, MTA_LENGTH);
    writes("half a node in an item", log, sizeof log, 31, 56, MTA_JOINED);
    writes("an item too long for its buffer", log, sizeof log, 0, 22, MTA_ROOM);
    orders(1, 2, MTA_OK, 0);
    orders(1, 1, MTA_ORDER, 19);
    orders(2, 1, MTA_ORDER, 19);
    first_edition();
    words();
    printf("%d passed, %d failed\n", passed, failed);
    return failed != 0;
}
