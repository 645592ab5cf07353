// A load sealed and opened by this repository, against the two SHAKE256 calls of OpenSSL that it takes at least: a
// keystream of 8 bytes over 45, and a tag of 16 bytes over 121. In one process.
//   bench time              compares the sealed loads with OpenSSL's, then prints the nanoseconds of each column
//   bench count COLUMN N    N loads, for callgrind
#define _POSIX_C_SOURCE 200809L
#include <openssl/evp.h>
#include <stdbool.h>
#include <stdint.h>
#include <stdio.h>
#include <stdlib.h>
#include <string.h>
#include <time.h>

size_t rattle_seal_load(uint64_t counter, uint64_t body, const uint8_t a[32], const uint8_t b[32], const uint8_t key[32],
                        uint8_t out[140]);
bool rattle_open_load(uint64_t counter, const uint8_t key[32], const uint8_t *bytes, size_t bytes_len,
                      const uint8_t tag[16], const uint8_t sealed[8], uint64_t *body);

enum { TAGGED = 85, TAG = 16, BODY = 8, BODY_AT = 10, KEY = 32, LOADS = 2000, RUNS = 25, CALLS = 1000 };

static EVP_MD *md;
static EVP_MD_CTX *ctx;
static uint8_t a[32], b[32], key[KEY];
static uint8_t frame[140], stream_input[45], tag_input[121], out[16];
static uint64_t body;

static void shake(const uint8_t *in, size_t n, uint8_t *to, size_t m) {
    EVP_DigestInit_ex2(ctx, md, NULL);
    EVP_DigestUpdate(ctx, in, n);
    EVP_DigestFinalXOF(ctx, to, m);
}

static void low_first(uint64_t n, uint8_t *to) {
    for (int i = 0; i < 8; i++) to[i] = (uint8_t)(n >> 8 * i);
}

// The keystream of a load down.
static void keystream(uint64_t counter, uint8_t to[BODY]) {
    memcpy(stream_input, "seal", 4);
    memcpy(stream_input + 4, key, KEY);
    stream_input[36] = 1;
    low_first(counter, stream_input + 37);
    shake(stream_input, sizeof stream_input, to, BODY);
}

static void tag(const uint8_t *bytes, uint8_t to[TAG]) {
    memcpy(tag_input, "mark", 4);
    memcpy(tag_input + 4, key, KEY);
    memcpy(tag_input + 36, bytes, TAGGED);
    shake(tag_input, sizeof tag_input, to, TAG);
}

// A load from gate 1 to handheld 7, as crates/octets/specs/Layout.antt lays it out.
static void openssl_load(uint64_t counter, uint64_t text, uint8_t to[TAGGED + TAG]) {
    uint8_t stream[BODY];
    to[0] = 5;
    to[1] = 1;
    low_first(counter, to + 2);
    low_first(text, to + BODY_AT);
    keystream(counter, stream);
    for (int i = 0; i < BODY; i++) to[BODY_AT + i] ^= stream[i];
    to[18] = 1;
    to[19] = 7;
    to[20] = 0;
    memcpy(to + 21, a, 32);
    memcpy(to + 53, b, 32);
    tag(to, to + TAGGED);
}

// Each call depends on the one before, so that none can be left out.
static void openssl_two_calls(uint64_t i) {
    stream_input[37] = (uint8_t)i;
    shake(stream_input, sizeof stream_input, out, BODY);
    tag_input[46] = out[0];
    shake(tag_input, sizeof tag_input, out, TAG);
    stream_input[40] ^= out[0];
}

static void rattle_seals(uint64_t i) {
    rattle_seal_load(i, body, a, b, key, frame);
    body ^= frame[90];
}

static void rattle_opens(uint64_t i) {
    (void)i;
    uint64_t opened = 0;
    if (!rattle_open_load(5, key, frame, TAGGED, frame + TAGGED, frame + BODY_AT, &opened)) abort();
    body ^= opened;
}

typedef void Load(uint64_t);

static Load *const columns[] = {openssl_two_calls, rattle_seals, rattle_opens};
enum { COLUMNS = sizeof columns / sizeof columns[0] };

static double now(void) {
    struct timespec t;
    clock_gettime(CLOCK_MONOTONIC, &t);
    return 1e9 * (double)t.tv_sec + (double)t.tv_nsec;
}

static void loads(int column, int n) {
    body = 42;
    rattle_seal_load(5, body, a, b, key, frame);
    for (int i = 0; i < n; i++) columns[column]((uint64_t)i);
}

static void differ(const char *what, uint64_t counter) {
    fprintf(stderr, "%s: counter %llu\n", what, (unsigned long long)counter);
    exit(1);
}

// Sealed loads are OpenSSL's byte for byte, open again, and are refused with any one byte changed.
static void agree(uint64_t counter, uint64_t text) {
    uint8_t expected[TAGGED + TAG];
    uint64_t opened = 0;
    openssl_load(counter, text, expected);
    if (rattle_seal_load(counter, text, a, b, key, frame) != sizeof expected) differ("not 101 bytes", counter);
    if (memcmp(expected, frame, sizeof expected) != 0) differ("the sealed loads differ", counter);
    if (!rattle_open_load(counter, key, frame, TAGGED, frame + TAGGED, frame + BODY_AT, &opened) || opened != text)
        differ("a sealed load does not open", counter);
    size_t at = (size_t)(counter % sizeof expected);
    frame[at] ^= (uint8_t)(1 + text % 255);
    if (rattle_open_load(counter, key, frame, TAGGED, frame + TAGGED, frame + BODY_AT, &opened))
        differ("a changed load opens", counter);
}

int main(int argc, char **argv) {
    md = EVP_MD_fetch(NULL, "SHAKE256", NULL);
    ctx = EVP_MD_CTX_new();
    if (md == NULL || ctx == NULL) {
        fprintf(stderr, "this OpenSSL has no SHAKE256\n");
        return 1;
    }
    for (int i = 0; i < 32; i++) {
        a[i] = (uint8_t)(i * 7 + 1);
        b[i] = (uint8_t)(i * 11 + 2);
        key[i] = (uint8_t)(i * 13 + 3);
    }
    if (argc == 4 && strcmp(argv[1], "count") == 0) {
        int c = atoi(argv[2]);
        if (c < 0 || c >= COLUMNS) return 2;
        loads(c, atoi(argv[3]));
        return 0;
    }
    if (argc != 2 || strcmp(argv[1], "time") != 0) {
        fprintf(stderr, "usage: bench time | bench count COLUMN N\n");
        return 2;
    }

    for (uint64_t i = 0; i < LOADS; i++) agree(i * 0x9e3779b97f4a7c15u, i * 0xbf58476d1ce4e5b9u);
    printf("# %d sealed loads are those of OpenSSL, open again, and are refused with a byte changed\n", LOADS);

    double best[COLUMNS];
    for (int c = 0; c < COLUMNS; c++) best[c] = 1e18;
    // The columns take turns, so that each meets the same load.
    for (int run = 0; run < RUNS; run++)
        for (int c = 0; c < COLUMNS; c++) {
            double start = now();
            loads(c, CALLS);
            double each = (now() - start) / CALLS;
            if (each < best[c]) best[c] = each;
        }
    for (int c = 0; c < COLUMNS; c++) printf("%s%.0f", c ? " " : "", best[c]);
    printf("\n");
    return 0;
}
