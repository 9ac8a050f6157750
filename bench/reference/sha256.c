/* SHA-256 as FIPS 180-4 has it, and the car digest over it: the plain C that the benchmark compares with. */
#include <stddef.h>
#include <stdint.h>
#include <string.h>

#define ROTR(n, x) (((x) >> (n)) | ((x) << (32 - (n))))
#define CH(x, y, z) (((x) & (y)) ^ (~(x) & (z)))
#define MAJ(x, y, z) (((x) & (y)) ^ ((x) & (z)) ^ ((y) & (z)))
#define SUM0(x) (ROTR(2, x) ^ ROTR(13, x) ^ ROTR(22, x))
#define SUM1(x) (ROTR(6, x) ^ ROTR(11, x) ^ ROTR(25, x))
#define SIG0(x) (ROTR(7, x) ^ ROTR(18, x) ^ ((x) >> 3))
#define SIG1(x) (ROTR(17, x) ^ ROTR(19, x) ^ ((x) >> 10))

/* 4.2.2 */
static const uint32_t K[64] = {
    0x428a2f98, 0x71374491, 0xb5c0fbcf, 0xe9b5dba5, 0x3956c25b, 0x59f111f1, 0x923f82a4, 0xab1c5ed5,
    0xd807aa98, 0x12835b01, 0x243185be, 0x550c7dc3, 0x72be5d74, 0x80deb1fe, 0x9bdc06a7, 0xc19bf174,
    0xe49b69c1, 0xefbe4786, 0x0fc19dc6, 0x240ca1cc, 0x2de92c6f, 0x4a7484aa, 0x5cb0a9dc, 0x76f988da,
    0x983e5152, 0xa831c66d, 0xb00327c8, 0xbf597fc7, 0xc6e00bf3, 0xd5a79147, 0x06ca6351, 0x14292967,
    0x27b70a85, 0x2e1b2138, 0x4d2c6dfc, 0x53380d13, 0x650a7354, 0x766a0abb, 0x81c2c92e, 0x92722c85,
    0xa2bfe8a1, 0xa81a664b, 0xc24b8b70, 0xc76c51a3, 0xd192e819, 0xd6990624, 0xf40e3585, 0x106aa070,
    0x19a4c116, 0x1e376c08, 0x2748774c, 0x34b0bcb5, 0x391c0cb3, 0x4ed8aa4a, 0x5b9cca4f, 0x682e6ff3,
    0x748f82ee, 0x78a5636f, 0x84c87814, 0x8cc70208, 0x90befffa, 0xa4506ceb, 0xbef9a3f7, 0xc67178f2,
};

typedef struct {
    uint32_t hash[8];
    uint8_t block[64];
    size_t filled;
    uint64_t length;
} sha256;

/* 5.3.3 */
static void begin(sha256 *s) {
    static const uint32_t first[8] = {
        0x6a09e667, 0xbb67ae85, 0x3c6ef372, 0xa54ff53a, 0x510e527f, 0x9b05688c, 0x1f83d9ab, 0x5be0cd19,
    };
    memcpy(s->hash, first, sizeof first);
    s->filled = 0;
    s->length = 0;
}

/* 6.2.2 */
static void compress(uint32_t hash[8], const uint8_t *m) {
    uint32_t w[64];
    for (int t = 0; t < 16; t++)
        w[t] = (uint32_t)m[4 * t] << 24 | (uint32_t)m[4 * t + 1] << 16 | (uint32_t)m[4 * t + 2] << 8 | m[4 * t + 3];
    for (int t = 16; t < 64; t++)
        w[t] = SIG1(w[t - 2]) + w[t - 7] + SIG0(w[t - 15]) + w[t - 16];
    uint32_t a = hash[0], b = hash[1], c = hash[2], d = hash[3];
    uint32_t e = hash[4], f = hash[5], g = hash[6], h = hash[7];
    for (int t = 0; t < 64; t++) {
        uint32_t t1 = h + SUM1(e) + CH(e, f, g) + K[t] + w[t];
        uint32_t t2 = SUM0(a) + MAJ(a, b, c);
        h = g;
        g = f;
        f = e;
        e = d + t1;
        d = c;
        c = b;
        b = a;
        a = t1 + t2;
    }
    hash[0] += a;
    hash[1] += b;
    hash[2] += c;
    hash[3] += d;
    hash[4] += e;
    hash[5] += f;
    hash[6] += g;
    hash[7] += h;
}

static void update(sha256 *s, const uint8_t *data, size_t n) {
    s->length += n;
    if (s->filled > 0) {
        size_t room = 64 - s->filled;
        size_t part = n < room ? n : room;
        memcpy(s->block + s->filled, data, part);
        s->filled += part;
        data += part;
        n -= part;
        if (s->filled < 64)
            return;
        compress(s->hash, s->block);
        s->filled = 0;
    }
    for (; n >= 64; data += 64, n -= 64)
        compress(s->hash, data);
    memcpy(s->block, data, n);
    s->filled = n;
}

/* 5.1.1 and the bytes of the hash value */
static void finish(sha256 *s, uint8_t out[32]) {
    uint64_t bits = s->length * 8;
    s->block[s->filled++] = 0x80;
    if (s->filled > 56) {
        memset(s->block + s->filled, 0, 64 - s->filled);
        compress(s->hash, s->block);
        s->filled = 0;
    }
    memset(s->block + s->filled, 0, 56 - s->filled);
    for (int i = 0; i < 8; i++)
        s->block[56 + i] = (uint8_t)(bits >> (56 - 8 * i));
    compress(s->hash, s->block);
    for (int i = 0; i < 32; i++)
        out[i] = (uint8_t)(s->hash[i / 4] >> (24 - 8 * (i % 4)));
}

void reference_digest(uint32_t platform, const uint8_t *fingerprint, size_t n, uint8_t out[32]) {
    static const uint8_t domain[] = "opencar/can-rw-approval/v1";
    uint8_t number[4] = {(uint8_t)platform, (uint8_t)(platform >> 8), (uint8_t)(platform >> 16), (uint8_t)(platform >> 24)};
    sha256 s;
    begin(&s);
    update(&s, domain, 26);
    update(&s, number, 4);
    update(&s, fingerprint, n);
    finish(&s, out);
}
