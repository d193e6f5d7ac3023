/* RIPEMD-160 written plainly from "RIPEMD-160: A Strengthened Version of RIPEMD" (H. Dobbertin,
   A. Bosselaers, B. Preneel, 1996): straight scalar code for a little-endian machine, to measure
   against. It hashes 4096 pieces of 64 KiB, and prints the digest and the milliseconds. */
#include <stdint.h>
#include <stdio.h>
#include <string.h>
#include <time.h>

#define ROL(x, n) (((x) << (n)) | ((x) >> (32 - (n))))

#define F1(x, y, z) ((x) ^ (y) ^ (z))
#define F2(x, y, z) (((x) & (y)) | (~(x) & (z)))
#define F3(x, y, z) (((x) | ~(y)) ^ (z))
#define F4(x, y, z) (((x) & (z)) | ((y) & ~(z)))
#define F5(x, y, z) ((x) ^ ((y) | ~(z)))

#define STEP(f, a, b, c, d, e, r, s, k)                 \
    a += f(b, c, d) + x[r] + (k);                       \
    a = ROL(a, s) + e;                                  \
    c = ROL(c, 10);

/* Five steps bring the five words back to their places. */
#define ROUND(f, k, a, b, c, d, e, r, s)                                                        \
    STEP(f, a, b, c, d, e, r[0], s[0], k) STEP(f, e, a, b, c, d, r[1], s[1], k)                 \
    STEP(f, d, e, a, b, c, r[2], s[2], k) STEP(f, c, d, e, a, b, r[3], s[3], k)                 \
    STEP(f, b, c, d, e, a, r[4], s[4], k) STEP(f, a, b, c, d, e, r[5], s[5], k)                 \
    STEP(f, e, a, b, c, d, r[6], s[6], k) STEP(f, d, e, a, b, c, r[7], s[7], k)                 \
    STEP(f, c, d, e, a, b, r[8], s[8], k) STEP(f, b, c, d, e, a, r[9], s[9], k)                 \
    STEP(f, a, b, c, d, e, r[10], s[10], k) STEP(f, e, a, b, c, d, r[11], s[11], k)             \
    STEP(f, d, e, a, b, c, r[12], s[12], k) STEP(f, c, d, e, a, b, r[13], s[13], k)             \
    STEP(f, b, c, d, e, a, r[14], s[14], k) STEP(f, a, b, c, d, e, r[15], s[15], k)

static const int R[5][16] = {
    {0, 1, 2, 3, 4, 5, 6, 7, 8, 9, 10, 11, 12, 13, 14, 15},
    {7, 4, 13, 1, 10, 6, 15, 3, 12, 0, 9, 5, 2, 14, 11, 8},
    {3, 10, 14, 4, 9, 15, 8, 1, 2, 7, 0, 6, 13, 11, 5, 12},
    {1, 9, 11, 10, 0, 8, 12, 4, 13, 3, 7, 15, 14, 5, 6, 2},
    {4, 0, 5, 9, 7, 12, 2, 10, 14, 1, 3, 8, 11, 6, 15, 13}};
static const int RR[5][16] = {
    {5, 14, 7, 0, 9, 2, 11, 4, 13, 6, 15, 8, 1, 10, 3, 12},
    {6, 11, 3, 7, 0, 13, 5, 10, 14, 15, 8, 12, 4, 9, 1, 2},
    {15, 5, 1, 3, 7, 14, 6, 9, 11, 8, 12, 2, 10, 0, 4, 13},
    {8, 6, 4, 1, 3, 11, 15, 0, 5, 12, 2, 13, 9, 7, 10, 14},
    {12, 15, 10, 4, 1, 5, 8, 7, 6, 2, 13, 14, 0, 3, 9, 11}};
static const int S[5][16] = {
    {11, 14, 15, 12, 5, 8, 7, 9, 11, 13, 14, 15, 6, 7, 9, 8},
    {7, 6, 8, 13, 11, 9, 7, 15, 7, 12, 15, 9, 11, 7, 13, 12},
    {11, 13, 6, 7, 14, 9, 13, 15, 14, 8, 13, 6, 5, 12, 7, 5},
    {11, 12, 14, 15, 14, 15, 9, 8, 9, 14, 5, 6, 8, 6, 5, 12},
    {9, 15, 5, 11, 6, 8, 13, 12, 5, 12, 13, 14, 11, 8, 5, 6}};
static const int SS[5][16] = {
    {8, 9, 9, 11, 13, 15, 15, 5, 7, 7, 8, 11, 14, 14, 12, 6},
    {9, 13, 15, 7, 12, 8, 9, 11, 7, 7, 12, 7, 6, 15, 13, 11},
    {9, 7, 15, 11, 8, 6, 6, 14, 12, 13, 5, 14, 13, 13, 7, 5},
    {15, 5, 8, 11, 14, 14, 6, 14, 6, 9, 12, 9, 12, 5, 15, 8},
    {8, 5, 12, 9, 12, 5, 14, 6, 8, 13, 6, 5, 15, 13, 11, 11}};

static void compress(uint32_t h[5], const uint8_t *block)
{
    uint32_t x[16];
    memcpy(x, block, 64);
    uint32_t a = h[0], b = h[1], c = h[2], d = h[3], e = h[4];
    uint32_t aa = a, bb = b, cc = c, dd = d, ee = e;
    /* Each round is sixteen steps, so the next begins one place further. */
    ROUND(F1, 0x00000000u, a, b, c, d, e, R[0], S[0])
    ROUND(F2, 0x5a827999u, e, a, b, c, d, R[1], S[1])
    ROUND(F3, 0x6ed9eba1u, d, e, a, b, c, R[2], S[2])
    ROUND(F4, 0x8f1bbcdcu, c, d, e, a, b, R[3], S[3])
    ROUND(F5, 0xa953fd4eu, b, c, d, e, a, R[4], S[4])
    ROUND(F5, 0x50a28be6u, aa, bb, cc, dd, ee, RR[0], SS[0])
    ROUND(F4, 0x5c4dd124u, ee, aa, bb, cc, dd, RR[1], SS[1])
    ROUND(F3, 0x6d703ef3u, dd, ee, aa, bb, cc, RR[2], SS[2])
    ROUND(F2, 0x7a6d76e9u, cc, dd, ee, aa, bb, RR[3], SS[3])
    ROUND(F1, 0x00000000u, bb, cc, dd, ee, aa, RR[4], SS[4])
    uint32_t t = h[1] + c + dd;
    h[1] = h[2] + d + ee;
    h[2] = h[3] + e + aa;
    h[3] = h[4] + a + bb;
    h[4] = h[0] + b + cc;
    h[0] = t;
}

static void digest(const uint8_t *piece, size_t length, size_t pieces, uint8_t out[20])
{
    uint32_t h[5] = {0x67452301u, 0xefcdab89u, 0x98badcfeu, 0x10325476u, 0xc3d2e1f0u};
    for (size_t i = 0; i < pieces; i++)
        for (size_t at = 0; at < length; at += 64)
            compress(h, piece + at);
    uint8_t last[64] = {0x80};
    uint64_t bits = (uint64_t)length * pieces * 8;
    memcpy(last + 56, &bits, 8);
    compress(h, last);
    memcpy(out, h, 20);
}

int main(void)
{
    static uint8_t piece[65536];
    for (size_t i = 0; i < sizeof piece; i++)
        piece[i] = (uint8_t)(i % 251);
    uint8_t out[20];
    struct timespec from, to;
    clock_gettime(CLOCK_MONOTONIC, &from);
    digest(piece, sizeof piece, 4096, out);
    clock_gettime(CLOCK_MONOTONIC, &to);
    for (int i = 0; i < 20; i++)
        printf("%02x", out[i]);
    printf(" %.0f ms\n", (to.tv_sec - from.tv_sec) * 1e3 + (to.tv_nsec - from.tv_nsec) / 1e6);
    return 0;
}
