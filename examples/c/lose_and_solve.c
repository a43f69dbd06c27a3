/* A word of four data rows and two parities loses two rows and gets them back; then one row is written over
 * wrongly, found and mended. Build: cc lose_and_solve.c -I../../include ../../build/libcarbink.a */
#include <carbink.h>
#include <stdio.h>
#include <string.h>

enum { K = 4, R = 2, N = K + R, LEN = 16 };

static const char *const DATA[K] = {"far memory is  ", "cheap, and when", "a node is lost ", "nothing is lost"};

static void show(const char *title, const uint8_t *rows) {
    printf("%s\n", title);
    for (int i = 0; i < N; i++) {
        printf("  %d ", i);
        for (int c = 0; c < LEN; c++) printf("%02x", rows[i * LEN + c]);
        printf("\n");
    }
}

static int must(const char *call, uint32_t status) {
    if (status != CARBINK_DONE) printf("%s answered %u\n", call, (unsigned)status);
    return status == CARBINK_DONE;
}

int main(void) {
    uint8_t word[N * LEN], kept[N * LEN];
    struct carbink_found found;
    uint32_t is_word;
    for (int i = 0; i < K; i++) memcpy(word + i * LEN, DATA[i], LEN);
    if (!must("encode", carbink_encode(K, R, LEN, word, K * LEN, word + K * LEN, R * LEN))) return 1;
    show("data and parities", word);
    memcpy(kept, word, sizeof word);

    memset(word + 1 * LEN, 0, LEN);
    memset(word + 4 * LEN, 0, LEN);
    const uint8_t present[K] = {0, 2, 3, 5};
    if (!must("solve", carbink_solve(K, R, LEN, word, sizeof word, present, sizeof present))) return 1;
    printf("rows 1 and 4 lost and made again: %s\n", memcmp(word, kept, sizeof word) == 0 ? "the same" : "others");

    word[2 * LEN + 5] ^= 0x40;
    if (!must("is_word", carbink_is_word(K, R, LEN, word, sizeof word, &is_word))) return 1;
    if (!must("examine", carbink_examine(K, R, LEN, word, sizeof word, &found))) return 1;
    printf("a byte of row 2 changed: word %u, kind %u, row %u\n", (unsigned)is_word, (unsigned)found.kind,
           (unsigned)found.position);
    if (!must("mend", carbink_mend(K, R, LEN, word, sizeof word, found.position))) return 1;
    printf("mended: %s\n", memcmp(word, kept, sizeof word) == 0 ? "the same" : "others");
    return 0;
}
