/* ISA-L's encoders and memcpy, timed beside the program of crates/cb_bench by bench/encode. The words
 * are the encoder (sse, avx2, or own for the one that ISA-L picks by itself), k, r and how many slices
 * of four calls are timed. It prints the least time of a call in nanoseconds: of the encoder, of the
 * whole word from its last k rows, and of a copy of the data. */
#include <isa-l/erasure_code.h>
#include <stdint.h>
#include <stdio.h>
#include <stdlib.h>
#include <string.h>
#include <time.h>

enum { BYTES = 4096, MOST_DATA = 16, MOST_PARITIES = 4, CALLS = 4 };

typedef void encoder(int len, int k, int rows, unsigned char *tables, unsigned char **data, unsigned char **coding);

extern encoder ec_encode_data_sse, ec_encode_data_avx2;

static uint64_t now(void) {
    struct timespec t;
    clock_gettime(CLOCK_MONOTONIC, &t);
    return (uint64_t)t.tv_sec * 1000000000u + (uint64_t)t.tv_nsec;
}

/* The work of `solve`: the matrix of the lost rows, its tables, the lost rows, and the present rows. */
static void solve(encoder *encode, int k, int r, unsigned char *matrix, unsigned char **present, unsigned char **lost, unsigned char *word) {
    unsigned char rows[MOST_DATA * MOST_DATA], inverse[MOST_DATA * MOST_DATA], tables[32 * MOST_DATA * MOST_PARITIES];
    memcpy(rows, matrix + r * k, (size_t)k * (size_t)k);
    gf_invert_matrix(rows, inverse, k);
    ec_init_tables(k, r, inverse, tables);
    encode(BYTES, k, r, tables, present, lost);
    memcpy(word + r * BYTES, present[0], (size_t)k * BYTES);
}

int main(int argc, char **argv) {
    if (argc != 5) return 1;
    int k = atoi(argv[2]), r = atoi(argv[3]), slices = atoi(argv[4]);
    encoder *encode = ec_encode_data;
    if (strcmp(argv[1], "sse") == 0) encode = ec_encode_data_sse;
    if (strcmp(argv[1], "avx2") == 0) encode = ec_encode_data_avx2;
    unsigned char *block = malloc(MOST_DATA * BYTES), *parities = malloc(MOST_PARITIES * BYTES);
    unsigned char *copy = malloc(MOST_DATA * BYTES), *word = malloc((MOST_DATA + MOST_PARITIES) * BYTES);
    unsigned char *data[MOST_DATA], *coding[MOST_PARITIES], *lost[MOST_PARITIES];
    unsigned char matrix[(MOST_DATA + MOST_PARITIES) * MOST_DATA], tables[32 * MOST_DATA * MOST_PARITIES];
    uint64_t seed = 88172645463325252u, encoded = UINT64_MAX, solved = UINT64_MAX, copied = UINT64_MAX;
    if (!block || !parities || !copy || !word || k < 1 || k > MOST_DATA || r < 1 || r > MOST_PARITIES) return 1;
    for (int i = 0; i < MOST_DATA * BYTES; i++) {
        seed ^= seed << 13, seed ^= seed >> 7, seed ^= seed << 17;
        block[i] = (unsigned char)(seed >> 56);
    }
    for (int i = 0; i < k; i++) data[i] = block + i * BYTES;
    for (int j = 0; j < r; j++) coding[j] = parities + j * BYTES, lost[j] = word + j * BYTES;
    gf_gen_cauchy1_matrix(matrix, k + r, k);
    ec_init_tables(k, r, matrix + k * k, tables);
    for (int s = 0; s < slices; s++) {
        uint64_t start = now();
        for (int n = 0; n < CALLS; n++) encode(BYTES, k, r, tables, data, coding);
        uint64_t taken = (now() - start) / CALLS;
        if (taken < encoded) encoded = taken;
        start = now();
        for (int n = 0; n < CALLS; n++) solve(encode, k, r, matrix, data, lost, word);
        taken = (now() - start) / CALLS;
        if (taken < solved) solved = taken;
        start = now();
        for (int n = 0; n < CALLS; n++) {
            memcpy(copy, block, (size_t)k * BYTES);
            /* Keeps the compiler from leaving the copy out. */
            __asm__ volatile("" : : "r"(copy) : "memory");
        }
        taken = (now() - start) / CALLS;
        if (taken < copied) copied = taken;
    }
    printf("%llu %llu %llu\n", (unsigned long long)encoded, (unsigned long long)solved, (unsigned long long)copied);
    return 0;
}
