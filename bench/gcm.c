// AES-256-GCM (FIPS 197, SP 800-38D) in portable C, to hold the speed of crates/gcm against: `gcm STREAM MESSAGES` encrypts
// and prints what crates/cipher_speed does. The algorithm is the same: one table of mixed columns, whose entries are rotated,
// and 32 tables of 16 products for the hash. No intrinsics, no assembly, no unrolling but the compiler's own.
#include <stdint.h>
#include <stdio.h>
#include <stdlib.h>
#include <string.h>

typedef struct {
    uint64_t high, low;
} Block;

static uint8_t sbox[256];
static uint32_t mixed[256]; // the column that a byte of the first row gives

typedef struct {
    uint32_t words[60];
    Block products[32][16];
} Gcm;

static uint32_t rotr(uint32_t x, int n) { return x >> n | x << (32 - n); }

static uint8_t twice(uint8_t b) { return b << 1 ^ (b >> 7) * 0x1b; }

// Goes through all bytes p as the powers of 3, and q as their inverses.
static void fill_tables(void) {
    uint8_t p = 1, q = 1;
    do {
        p ^= twice(p);
        q ^= q << 1, q ^= q << 2, q ^= q << 4, q ^= (q >> 7) * 0x09;
        uint8_t turned = q << 1 | q >> 7, sum = q;
        for (int i = 0; i < 4; i++) sum ^= turned, turned = turned << 1 | turned >> 7;
        sbox[p] = sum ^ 0x63;
    } while (p != 1);
    sbox[0] = 0x63;
    for (int i = 0; i < 256; i++) {
        uint32_t one = sbox[i], two = twice(one);
        mixed[i] = two << 24 | one << 16 | one << 8 | (two ^ one);
    }
}

static uint32_t load_word(const uint8_t *p) {
    return (uint32_t)p[0] << 24 | (uint32_t)p[1] << 16 | (uint32_t)p[2] << 8 | p[3];
}

static uint64_t load_half(const uint8_t *p) { return (uint64_t)load_word(p) << 32 | load_word(p + 4); }

static void store_half(uint8_t *p, uint64_t half) {
    for (int i = 0; i < 8; i++) p[i] = half >> (56 - 8 * i);
}

static Block load_block(const uint8_t *p) { return (Block){load_half(p), load_half(p + 8)}; }

static void store_block(uint8_t *p, Block b) { store_half(p, b.high), store_half(p + 8, b.low); }

static Block add(Block a, Block b) { return (Block){a.high ^ b.high, a.low ^ b.low}; }

static uint32_t sub_word(uint32_t w) {
    return (uint32_t)sbox[w >> 24] << 24 | (uint32_t)sbox[w >> 16 & 255] << 16 | (uint32_t)sbox[w >> 8 & 255] << 8 |
           sbox[w & 255];
}

static void expand(uint32_t words[60], const uint8_t key[32]) {
    for (int i = 0; i < 8; i++) words[i] = load_word(key + 4 * i);
    for (int i = 8; i < 60; i++) {
        uint32_t t = words[i - 1];
        if (i % 8 == 0)
            t = sub_word(rotr(t, 24)) ^ (uint32_t)1 << (23 + i / 8);
        else if (i % 8 == 4)
            t = sub_word(t);
        words[i] = words[i - 8] ^ t;
    }
}

static uint32_t column(uint32_t a, uint32_t b, uint32_t c, uint32_t d, uint32_t k) {
    return mixed[a >> 24] ^ rotr(mixed[b >> 16 & 255], 8) ^ rotr(mixed[c >> 8 & 255], 16) ^ rotr(mixed[d & 255], 24) ^ k;
}

static uint32_t last_column(uint32_t a, uint32_t b, uint32_t c, uint32_t d, uint32_t k) {
    return ((uint32_t)sbox[a >> 24] << 24 | (uint32_t)sbox[b >> 16 & 255] << 16 | (uint32_t)sbox[c >> 8 & 255] << 8 |
            sbox[d & 255]) ^ k;
}

static Block cipher(const uint32_t *k, Block in) {
    uint32_t a = (uint32_t)(in.high >> 32) ^ k[0], b = (uint32_t)in.high ^ k[1];
    uint32_t c = (uint32_t)(in.low >> 32) ^ k[2], d = (uint32_t)in.low ^ k[3];
    for (int round = 1; round < 14; round++) {
        k += 4;
        uint32_t p = column(a, b, c, d, k[0]), q = column(b, c, d, a, k[1]);
        uint32_t r = column(c, d, a, b, k[2]), s = column(d, a, b, c, k[3]);
        a = p, b = q, c = r, d = s;
    }
    k += 4;
    uint32_t p = last_column(a, b, c, d, k[0]), q = last_column(b, c, d, a, k[1]);
    uint32_t r = last_column(c, d, a, b, k[2]), s = last_column(d, a, b, c, k[3]);
    return (Block){(uint64_t)p << 32 | q, (uint64_t)r << 32 | s};
}

static Block halve(Block v) {
    return (Block){v.high >> 1 ^ (v.low & 1) * ((uint64_t)0xe1 << 56), v.high << 63 | v.low >> 1};
}

// The products of the hash key with each nibble at each of its 32 places.
static void start(Gcm *g, const uint8_t key[32]) {
    expand(g->words, key);
    Block v = cipher(g->words, (Block){0, 0});
    for (int j = 0; j < 32; j++) {
        Block *row = g->products[j];
        row[0] = (Block){0, 0};
        for (int bit = 8; bit > 0; bit /= 2, v = halve(v)) row[bit] = v;
        for (int n = 3; n < 16; n++) row[n] = add(row[n & (n - 1)], row[n & -n]);
    }
}

static Block times(const Gcm *g, Block y) {
    Block z = {0, 0};
    for (int j = 0; j < 16; j++) z = add(z, g->products[j][y.high >> (60 - 4 * j) & 15]);
    for (int j = 0; j < 16; j++) z = add(z, g->products[16 + j][y.low >> (60 - 4 * j) & 15]);
    return z;
}

static Block absorb(const Gcm *g, const uint8_t *bytes, size_t n, Block y) {
    for (; n >= 16; bytes += 16, n -= 16) y = times(g, add(y, load_block(bytes)));
    if (n) {
        uint8_t last[16] = {0};
        memcpy(last, bytes, n);
        y = times(g, add(y, load_block(last)));
    }
    return y;
}

// The key stream's block of that number under an IV that fills the first 12 bytes of base.
static Block stream(const Gcm *g, Block base, uint32_t number) {
    return cipher(g->words, (Block){base.high, base.low | number});
}

static void add_stream(const Gcm *g, Block base, uint8_t *text, size_t n) {
    uint32_t number = 2;
    for (; n >= 16; text += 16, n -= 16) store_block(text, add(load_block(text), stream(g, base, number++)));
    uint8_t last[16];
    store_block(last, stream(g, base, number));
    for (size_t i = 0; i < n; i++) text[i] ^= last[i];
}

static void encrypt(const Gcm *g, const uint8_t iv[12], const uint8_t *additional, size_t m, uint8_t *text, size_t n,
                    uint8_t tag[12]) {
    uint8_t bytes[16] = {0};
    memcpy(bytes, iv, 12);
    Block base = load_block(bytes);
    add_stream(g, base, text, n);
    Block y = absorb(g, text, n, absorb(g, additional, m, (Block){0, 0}));
    y = times(g, add(y, (Block){8 * (uint64_t)m, 8 * (uint64_t)n}));
    store_block(bytes, add(y, stream(g, base, 1)));
    memcpy(tag, bytes, 12);
}

static void show(const uint8_t tag[12]) {
    for (int i = 0; i < 12; i++) printf("%02x", tag[i]);
    printf("\n");
}

int main(int argc, char **argv) {
    static uint8_t piece[65536], message[1024], additional[32], key[32];
    static Gcm g;
    uint8_t tag[12] = {0};
    if (argc != 3) return 2;
    memset(piece, 0xa5, sizeof piece);
    memset(message, 0xa5, sizeof message);
    memset(additional, 0xa5, sizeof additional);
    memset(key, 0xa5, sizeof key);
    fill_tables();
    start(&g, key);
    for (long i = 16 * atol(argv[1]); i > 0; i--) encrypt(&g, tag, 0, 0, piece, sizeof piece, tag);
    show(tag);
    memset(tag, 0, sizeof tag);
    for (long i = 1024 * atol(argv[2]); i > 0; i--)
        encrypt(&g, tag, additional, sizeof additional, message, sizeof message, tag);
    show(tag);
    return 0;
}
