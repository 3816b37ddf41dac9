/* SHA-256 as FIPS 180-4 writes it: a schedule of 64 words, one round a turn; and SM3 as
   GB/T 32905-2016 does: W0 to W67, then W'0 to W'63, one round a turn. */

#include <stddef.h>
#include <stdint.h>
#include <string.h>

/* build.rs defines PLAIN(name), which puts a prefix of its own before the names of each build: with gcc's vectoriser
   and without it, and both with TABLE too, where SM3's constants are rotated beforehand. */

static const uint32_t K[64] = {
    0x428a2f98, 0x71374491, 0xb5c0fbcf, 0xe9b5dba5, 0x3956c25b, 0x59f111f1, 0x923f82a4, 0xab1c5ed5,
    0xd807aa98, 0x12835b01, 0x243185be, 0x550c7dc3, 0x72be5d74, 0x80deb1fe, 0x9bdc06a7, 0xc19bf174,
    0xe49b69c1, 0xefbe4786, 0x0fc19dc6, 0x240ca1cc, 0x2de92c6f, 0x4a7484aa, 0x5cb0a9dc, 0x76f988da,
    0x983e5152, 0xa831c66d, 0xb00327c8, 0xbf597fc7, 0xc6e00bf3, 0xd5a79147, 0x06ca6351, 0x14292967,
    0x27b70a85, 0x2e1b2138, 0x4d2c6dfc, 0x53380d13, 0x650a7354, 0x766a0abb, 0x81c2c92e, 0x92722c85,
    0xa2bfe8a1, 0xa81a664b, 0xc24b8b70, 0xc76c51a3, 0xd192e819, 0xd6990624, 0xf40e3585, 0x106aa070,
    0x19a4c116, 0x1e376c08, 0x2748774c, 0x34b0bcb5, 0x391c0cb3, 0x4ed8aa4a, 0x5b9cca4f, 0x682e6ff3,
    0x748f82ee, 0x78a5636f, 0x84c87814, 0x8cc70208, 0x90befffa, 0xa4506ceb, 0xbef9a3f7, 0xc67178f2,
};

static const uint32_t INITIAL[8] = {
    0x6a09e667, 0xbb67ae85, 0x3c6ef372, 0xa54ff53a, 0x510e527f, 0x9b05688c, 0x1f83d9ab, 0x5be0cd19,
};

#define ROTR(x, n) (((x) >> (n)) | ((x) << (32 - (n))))
#define ROTL(x, n) (((x) << (n)) | ((x) >> (-(n) & 31))) /* n from 0 to 31 */
#define CH(x, y, z) (((x) & (y)) ^ (~(x) & (z)))
#define MAJ(x, y, z) (((x) & (y)) ^ ((x) & (z)) ^ ((y) & (z)))
#define BIG0(x) (ROTR(x, 2) ^ ROTR(x, 13) ^ ROTR(x, 22))
#define BIG1(x) (ROTR(x, 6) ^ ROTR(x, 11) ^ ROTR(x, 25))
#define SMALL0(x) (ROTR(x, 7) ^ ROTR(x, 18) ^ ((x) >> 3))
#define SMALL1(x) (ROTR(x, 17) ^ ROTR(x, 19) ^ ((x) >> 10))

/* Section 6.2.2. */
void PLAIN(step)(uint32_t state[8], const uint8_t block[64], uint32_t w[64])
{
    for (int t = 0; t < 16; t++)
        w[t] = (uint32_t)block[4 * t] << 24 | (uint32_t)block[4 * t + 1] << 16 |
               (uint32_t)block[4 * t + 2] << 8 | (uint32_t)block[4 * t + 3];
    for (int t = 16; t < 64; t++)
        w[t] = SMALL1(w[t - 2]) + w[t - 7] + SMALL0(w[t - 15]) + w[t - 16];

    uint32_t a = state[0], b = state[1], c = state[2], d = state[3];
    uint32_t e = state[4], f = state[5], g = state[6], h = state[7];
    for (int t = 0; t < 64; t++) {
        uint32_t t1 = h + BIG1(e) + CH(e, f, g) + K[t] + w[t];
        uint32_t t2 = BIG0(a) + MAJ(a, b, c);
        h = g;
        g = f;
        f = e;
        e = d + t1;
        d = c;
        c = b;
        b = a;
        a = t1 + t2;
    }
    state[0] += a;
    state[1] += b;
    state[2] += c;
    state[3] += d;
    state[4] += e;
    state[5] += f;
    state[6] += g;
    state[7] += h;
}

static const uint32_t SM3_INITIAL[8] = {
    0x7380166f, 0x4914b2b9, 0x172442d7, 0xda8a0600, 0xa96f30bc, 0x163138aa, 0xe38dee4d, 0xb0fb0e4e,
};

/* Tj <<< (j mod 32), where Tj is 79cc4519 for the first 16 rounds and 7a879d8a for the others: as the standard writes
   it, rotated in each round; or out of a table, as of SHA-256. */
#ifndef TABLE
#define CONSTANT(j) ROTL((j) < 16 ? 0x79cc4519u : 0x7a879d8au, (j) % 32)
#else
#define CONSTANT(j) T[j]
static const uint32_t T[64] = {
    0x79cc4519, 0xf3988a32, 0xe7311465, 0xce6228cb, 0x9cc45197, 0x3988a32f, 0x7311465e, 0xe6228cbc,
    0xcc451979, 0x988a32f3, 0x311465e7, 0x6228cbce, 0xc451979c, 0x88a32f39, 0x11465e73, 0x228cbce6,
    0x9d8a7a87, 0x3b14f50f, 0x7629ea1e, 0xec53d43c, 0xd8a7a879, 0xb14f50f3, 0x629ea1e7, 0xc53d43ce,
    0x8a7a879d, 0x14f50f3b, 0x29ea1e76, 0x53d43cec, 0xa7a879d8, 0x4f50f3b1, 0x9ea1e762, 0x3d43cec5,
    0x7a879d8a, 0xf50f3b14, 0xea1e7629, 0xd43cec53, 0xa879d8a7, 0x50f3b14f, 0xa1e7629e, 0x43cec53d,
    0x879d8a7a, 0x0f3b14f5, 0x1e7629ea, 0x3cec53d4, 0x79d8a7a8, 0xf3b14f50, 0xe7629ea1, 0xcec53d43,
    0x9d8a7a87, 0x3b14f50f, 0x7629ea1e, 0xec53d43c, 0xd8a7a879, 0xb14f50f3, 0x629ea1e7, 0xc53d43ce,
    0x8a7a879d, 0x14f50f3b, 0x29ea1e76, 0x53d43cec, 0xa7a879d8, 0x4f50f3b1, 0x9ea1e762, 0x3d43cec5,
};
#endif

#define P0(x) ((x) ^ ROTL(x, 9) ^ ROTL(x, 17))
#define P1(x) ((x) ^ ROTL(x, 15) ^ ROTL(x, 23))
#define PARITY(x, y, z) ((x) ^ (y) ^ (z))
#define FF(x, y, z) (((x) & (y)) | ((x) & (z)) | ((y) & (z)))
#define GG(x, y, z) (((x) & (y)) | (~(x) & (z)))

/* Section 5.3.3, one round. */
#define SM3_ROUND(f1, g1)                                                                                              \
    do {                                                                                                               \
        uint32_t rotated = ROTL(a, 12);                                                                                \
        uint32_t sum = rotated + e + CONSTANT(j);                                                                      \
        uint32_t ss1 = ROTL(sum, 7);                                                                                   \
        uint32_t ss2 = ss1 ^ rotated;                                                                                  \
        uint32_t tt1 = f1(a, b, c) + d + ss2 + w[68 + j];                                                              \
        uint32_t tt2 = g1(e, f, g) + h + ss1 + w[j];                                                                   \
        d = c;                                                                                                         \
        c = ROTL(b, 9);                                                                                                \
        b = a;                                                                                                         \
        a = tt1;                                                                                                       \
        h = g;                                                                                                         \
        g = ROTL(f, 19);                                                                                               \
        f = e;                                                                                                         \
        e = P0(tt2);                                                                                                   \
    } while (0)

/* Sections 5.3.2 and 5.3.3. */
void PLAIN(sm3_step)(uint32_t state[8], const uint8_t block[64], uint32_t w[132])
{
    for (int j = 0; j < 16; j++)
        w[j] = (uint32_t)block[4 * j] << 24 | (uint32_t)block[4 * j + 1] << 16 |
               (uint32_t)block[4 * j + 2] << 8 | (uint32_t)block[4 * j + 3];
    for (int j = 16; j < 68; j++) {
        uint32_t x = w[j - 16] ^ w[j - 9] ^ ROTL(w[j - 3], 15);
        w[j] = P1(x) ^ ROTL(w[j - 13], 7) ^ w[j - 6];
    }
    for (int j = 0; j < 64; j++)
        w[68 + j] = w[j] ^ w[j + 4];

    uint32_t a = state[0], b = state[1], c = state[2], d = state[3];
    uint32_t e = state[4], f = state[5], g = state[6], h = state[7];
    for (int j = 0; j < 16; j++)
        SM3_ROUND(PARITY, PARITY);
    for (int j = 16; j < 64; j++)
        SM3_ROUND(FF, GG);
    state[0] ^= a;
    state[1] ^= b;
    state[2] ^= c;
    state[3] ^= d;
    state[4] ^= e;
    state[5] ^= f;
    state[6] ^= g;
    state[7] ^= h;
}

/* The digest of the first `before` bytes of `prefix` (0 or 1), then the message; both hashes pad alike. */
#define DIGEST_AFTER(name, step, initial, words)                                                                       \
    static void name(const uint8_t *prefix, size_t before, const uint8_t *message, size_t length, uint8_t out[32])     \
    {                                                                                                                  \
        uint32_t state[8], w[words];                                                                                   \
        uint8_t last[128];                                                                                             \
        uint64_t bits = ((uint64_t)before + length) * 8;                                                               \
        memcpy(state, initial, sizeof state);                                                                          \
                                                                                                                       \
        if (before > 0 && before + length >= 64) {                                                                     \
            memcpy(last, prefix, before);                                                                              \
            memcpy(last + before, message, 64 - before);                                                               \
            step(state, last, w);                                                                                      \
            message += 64 - before;                                                                                    \
            length -= 64 - before;                                                                                     \
            before = 0;                                                                                                \
        }                                                                                                              \
        for (; length >= 64; message += 64, length -= 64)                                                              \
            step(state, message, w);                                                                                   \
                                                                                                                       \
        /* FIPS 180-4, section 5.1.1; GB/T 32905-2016, section 5.2. */                                                 \
        size_t used = before + length;                                                                                 \
        size_t end = used < 56 ? 64 : 128;                                                                             \
        memset(last, 0, sizeof last);                                                                                  \
        memcpy(last, prefix, before);                                                                                  \
        if (length > 0)                                                                                                \
            memcpy(last + before, message, length);                                                                    \
        last[used] = 0x80;                                                                                             \
        for (int i = 0; i < 8; i++)                                                                                    \
            last[end - 1 - i] = (uint8_t)(bits >> (8 * i));                                                            \
        for (size_t at = 0; at < end; at += 64)                                                                        \
            step(state, last + at, w);                                                                                 \
                                                                                                                       \
        for (int i = 0; i < 8; i++) {                                                                                  \
            out[4 * i] = (uint8_t)(state[i] >> 24);                                                                    \
            out[4 * i + 1] = (uint8_t)(state[i] >> 16);                                                                \
            out[4 * i + 2] = (uint8_t)(state[i] >> 8);                                                                 \
            out[4 * i + 3] = (uint8_t)state[i];                                                                        \
        }                                                                                                              \
    }

DIGEST_AFTER(digest_after, PLAIN(step), INITIAL, 64)
DIGEST_AFTER(sm3_after, PLAIN(sm3_step), SM3_INITIAL, 132)

void PLAIN(digest)(const uint8_t *message, size_t length, uint8_t out[32])
{
    digest_after((const uint8_t *)"", 0, message, length, out);
}

void PLAIN(sm3_digest)(const uint8_t *message, size_t length, uint8_t out[32])
{
    sm3_after((const uint8_t *)"", 0, message, length, out);
}

/* RFC 9162, 2.1.1: H(0x00 || item). */
void PLAIN(leaf)(const uint8_t *item, size_t length, uint8_t out[32])
{
    digest_after((const uint8_t *)"", 1, item, length, out);
}

void PLAIN(sm3_leaf)(const uint8_t *item, size_t length, uint8_t out[32])
{
    sm3_after((const uint8_t *)"", 1, item, length, out);
}

static void both_parts(const uint8_t left[32], const uint8_t right[32], uint8_t both[65])
{
    both[0] = 1;
    memcpy(both + 1, left, 32);
    memcpy(both + 33, right, 32);
}

/* RFC 9162, 2.1.1: H(0x01 || left || right). */
void PLAIN(node)(const uint8_t left[32], const uint8_t right[32], uint8_t out[32])
{
    uint8_t both[65];
    both_parts(left, right, both);
    PLAIN(digest)(both, sizeof both, out);
}

void PLAIN(sm3_node)(const uint8_t left[32], const uint8_t right[32], uint8_t out[32])
{
    uint8_t both[65];
    both_parts(left, right, both);
    PLAIN(sm3_digest)(both, sizeof both, out);
}
