// SHAKE256 of this repository against OpenSSL's, in one process.
//   bench time                  compares the outputs at many lengths, then prints a line for each size: bytes in, bytes
//                               out, and the nanoseconds of a call for each column, the best of RUNS
//   bench count COLUMN SIZE N   N calls, for callgrind
#define _POSIX_C_SOURCE 200809L
#include <openssl/evp.h>
#include <stdint.h>
#include <stdio.h>
#include <stdlib.h>
#include <string.h>
#include <time.h>

void rattle_shake256(const uint8_t *input, size_t input_len, uint8_t *out, size_t out_len);
void rattle_shake256_parts3(const uint8_t *label, size_t label_len, const uint8_t *key, size_t key_len,
                            const uint8_t *bytes, size_t bytes_len, uint8_t *out, size_t out_len);

enum { LABEL = 5, KEY = 32, LONGEST = 2048, RUNS = 25, CALLS = 1000 };

static EVP_MD *md;
static EVP_MD_CTX *ctx;

static void openssl_whole(const uint8_t *in, size_t n, uint8_t *out, size_t m) {
    EVP_DigestInit_ex2(ctx, md, NULL);
    EVP_DigestUpdate(ctx, in, n);
    EVP_DigestFinalXOF(ctx, out, m);
}

static void openssl_parts(const uint8_t *in, size_t n, uint8_t *out, size_t m) {
    EVP_DigestInit_ex2(ctx, md, NULL);
    EVP_DigestUpdate(ctx, in, LABEL);
    EVP_DigestUpdate(ctx, in + LABEL, KEY);
    EVP_DigestUpdate(ctx, in + LABEL + KEY, n - LABEL - KEY);
    EVP_DigestFinalXOF(ctx, out, m);
}

static void rattle_parts(const uint8_t *in, size_t n, uint8_t *out, size_t m) {
    rattle_shake256_parts3(in, LABEL, in + LABEL, KEY, in + LABEL + KEY, n - LABEL - KEY, out, m);
}

typedef void Shake(const uint8_t *, size_t, uint8_t *, size_t);

static Shake *const columns[] = {openssl_whole, rattle_shake256, openssl_parts, rattle_parts};
enum { COLUMNS = sizeof columns / sizeof columns[0] };

static const struct {
    size_t in, out;
} sizes[] = {{45, 8}, {121, 16}, {100, 32}, {1100, 1024}};
enum { SIZES = sizeof sizes / sizeof sizes[0] };

static uint8_t input[LONGEST], expected[LONGEST], got[LONGEST];

static void agree(Shake *shake, size_t in, size_t out) {
    memset(expected, 0xaa, sizeof expected);
    memset(got, 0xaa, sizeof got);
    openssl_whole(input, in, expected, out);
    shake(input, in, got, out);
    if (memcmp(expected, got, sizeof got) != 0) {
        fprintf(stderr, "the outputs differ: %zu bytes in, %zu bytes out\n", in, out);
        exit(1);
    }
}

static double now(void) {
    struct timespec t;
    clock_gettime(CLOCK_MONOTONIC, &t);
    return 1e9 * (double)t.tv_sec + (double)t.tv_nsec;
}

// Each call's input depends on the output before, so that no call can be left out.
static void calls(Shake *shake, size_t in, size_t out, int n) {
    for (int i = 0; i < n; i++) {
        shake(input, in, got, out);
        input[0] ^= got[0];
    }
}

int main(int argc, char **argv) {
    md = EVP_MD_fetch(NULL, "SHAKE256", NULL);
    ctx = EVP_MD_CTX_new();
    if (md == NULL || ctx == NULL) {
        fprintf(stderr, "this OpenSSL has no SHAKE256\n");
        return 1;
    }
    for (int i = 0; i < LONGEST; i++) input[i] = (uint8_t)(i * 7 + i / 251);

    if (argc == 5 && strcmp(argv[1], "count") == 0) {
        int c = atoi(argv[2]), s = atoi(argv[3]);
        if (c < 0 || c >= COLUMNS || s < 0 || s >= SIZES) return 2;
        calls(columns[c], sizes[s].in, sizes[s].out, atoi(argv[4]));
        return 0;
    }
    if (argc != 2 || strcmp(argv[1], "time") != 0) {
        fprintf(stderr, "usage: bench time | bench count COLUMN SIZE N\n");
        return 2;
    }

    int pairs = 0;
    for (size_t in = 0; in <= 420; in++)
        for (size_t out = in % 3; out <= 420; out += out < 10 || out % 136 < 3 || out % 136 > 133 ? 1 : 31) {
            agree(rattle_shake256, in, out);
            if (in >= LABEL + KEY) agree(rattle_parts, in, out);
            pairs++;
        }
    printf("# outputs agree with OpenSSL's at %d pairs of lengths\n", pairs);

    static double best[SIZES][COLUMNS];
    for (int s = 0; s < SIZES; s++)
        for (int c = 0; c < COLUMNS; c++) best[s][c] = 1e18;
    // The columns take turns, so that each meets the same load.
    for (int run = 0; run < RUNS; run++)
        for (int s = 0; s < SIZES; s++)
            for (int c = 0; c < COLUMNS; c++) {
                double start = now();
                calls(columns[c], sizes[s].in, sizes[s].out, CALLS);
                double each = (now() - start) / CALLS;
                if (each < best[s][c]) best[s][c] = each;
            }
    for (int s = 0; s < SIZES; s++) {
        printf("%zu %zu", sizes[s].in, sizes[s].out);
        for (int c = 0; c < COLUMNS; c++) printf(" %.0f", best[s][c]);
        printf("\n");
    }
    return 0;
}
