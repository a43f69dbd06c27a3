/* The library's calls, and ISA-L's encoder by its own dispatch where WITH_ISAL is set, timed by bench/lib. The words
 * are k, r, the bytes of a row and how many slices are timed. It prints the least time of a call in nanoseconds, over
 * slices of as many calls as have some 64 KB of data: encode, encode by an encoder, solve with r data rows lost, is_word and examine of a
 * code word, ISA-L's encode (0 without it) and a copy of the data. */
#include <carbink.h>
#include <stdio.h>
#include <stdlib.h>
#include <string.h>
#include <time.h>
#ifdef WITH_ISAL
#include <isa-l/erasure_code.h>
#endif

enum { ENCODE, PREPARED, SOLVE, IS_WORD, EXAMINE, ISAL, COPY, KINDS };

static uint32_t k, r, len;
static uint8_t *word, *lost, *copy, present[16];
static struct carbink_encoder encoder = CARBINK_NO_ENCODER_YET;
#ifdef WITH_ISAL
static unsigned char tables[32 * 16 * 4], *data_rows[16], *parity_rows[4];
#endif

static uint64_t now(void) {
    struct timespec t;
    clock_gettime(CLOCK_MONOTONIC, &t);
    return (uint64_t)t.tv_sec * 1000000000u + (uint64_t)t.tv_nsec;
}

static void call(int kind) {
    size_t data = (size_t)k * len, behind = (size_t)r * len;
    struct carbink_found found;
    uint32_t told, status = CARBINK_DONE;
    switch (kind) {
    case ENCODE: status = carbink_encode(k, r, len, word, data, word + data, behind); break;
    case PREPARED: status = carbink_encoder_encode(&encoder, word, data, word + data, behind); break;
    case SOLVE: status = carbink_solve(k, r, len, lost, data + behind, present, k); break;
    case IS_WORD: status = carbink_is_word(k, r, len, word, data + behind, &told); break;
    case EXAMINE: status = carbink_examine(k, r, len, word, data + behind, &found); break;
#ifdef WITH_ISAL
    case ISAL: ec_encode_data((int)len, (int)k, (int)r, tables, data_rows, parity_rows); break;
#endif
    case COPY: memcpy(copy, word, data); break;
    }
    /* Keeps the compiler from leaving a call out. */
    __asm__ volatile("" : : "r"(copy) : "memory");
    if (status != CARBINK_DONE) exit(1);
}

int main(int argc, char **argv) {
    if (argc != 5) return 1;
    k = (uint32_t)atoi(argv[1]), r = (uint32_t)atoi(argv[2]), len = (uint32_t)atoi(argv[3]);
    int slices = atoi(argv[4]);
    size_t data = (size_t)k * len, whole = data + (size_t)r * len;
    uint64_t seed = 88172645463325252u, calls = 65536 / data + 1, least[KINDS];
    if (k < 1 || k > 16 || r < 1 || r > 4 || len < 1) return 1;
    word = malloc(whole), lost = malloc(whole), copy = malloc(whole);
    if (!word || !lost || !copy) return 1;
    if (carbink_encoder_new(&encoder, k, r, len) != CARBINK_DONE) return 1;
    for (size_t i = 0; i < data; i++) {
        seed ^= seed << 13, seed ^= seed >> 7, seed ^= seed << 17;
        word[i] = (uint8_t)(seed >> 56);
    }
    for (uint32_t i = 0; i < k; i++) present[i] = (uint8_t)(r + i);
    call(ENCODE);
    memcpy(lost, word, whole);
#ifdef WITH_ISAL
    unsigned char matrix[20 * 16];
    gf_gen_cauchy1_matrix(matrix, (int)(k + r), (int)k);
    ec_init_tables((int)k, (int)r, matrix + k * k, tables);
    for (uint32_t i = 0; i < k; i++) data_rows[i] = word + (size_t)i * len;
    for (uint32_t j = 0; j < r; j++) parity_rows[j] = copy + (size_t)j * len;
#endif
    for (int kind = 0; kind < KINDS; kind++) {
        least[kind] = UINT64_MAX;
        for (int s = 0; s < slices; s++) {
            uint64_t start = now();
            for (uint64_t n = 0; n < calls; n++) call(kind);
            uint64_t taken = (now() - start) * 100 / calls;
            if (taken < least[kind]) least[kind] = taken;
        }
#ifndef WITH_ISAL
        if (kind == ISAL) least[kind] = 0;
#endif
    }
    /* Hundredths of a nanosecond. */
    for (int kind = 0; kind < KINDS; kind++) printf("%llu ", (unsigned long long)least[kind]);
    printf("\n");
    return 0;
}
