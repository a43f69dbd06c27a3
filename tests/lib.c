/* Calls of the library over buffers of just the size that is told, so that a tool that watches memory sees each
 * byte that is read or written beside them. tests/lib compiles and runs it. */
#include <carbink.h>
#include <stdio.h>
#include <stdlib.h>
#include <string.h>

static int wrong = 0;

static void check(int holds, const char *what, uint32_t k, uint32_t r, uint32_t len) {
    if (holds) return;
    wrong++;
    printf("wrong: %s at k=%u r=%u len=%u\n", what, (unsigned)k, (unsigned)r, (unsigned)len);
}

static uint8_t *bytes(size_t size) {
    uint8_t *block = malloc(size);
    if (!block) exit(2);
    return block;
}

/* An encoder makes the same parities, however often it is asked, and answers each wrong call. */
static void prepared(uint32_t k, uint32_t r, uint32_t len, const uint8_t *data, size_t given, const uint8_t *wanted, size_t behind) {
    struct carbink_encoder encoder = CARBINK_NO_ENCODER_YET;
    uint8_t *made = bytes(behind);
    memset(made, 0xEE, behind);
    check(carbink_encoder_encode(&encoder, data, given, made, behind) == CARBINK_NO_ENCODER, "no encoder", k, r, len);
    check(carbink_encoder_new(&encoder, 17, r, 0) == CARBINK_BAD_CODE, "an encoder of no code", k, r, len);
    check(carbink_encoder_new(&encoder, k, r, 0) == CARBINK_BAD_LENGTH, "an encoder of no bytes", k, r, len);
    check(carbink_encoder_new(&encoder, k, r, len) == CARBINK_DONE, "an encoder", k, r, len);
    check(carbink_encoder_new(&encoder, 17, r, 0) == CARBINK_HAS_ENCODER, "a second encoder", k, r, len);
    check(carbink_encoder_encode(&encoder, data, given - 1, made, behind) == CARBINK_BAD_BUFFER, "short rows", k, r, len);
    check(carbink_encoder_encode(&encoder, data, given, made, behind - 1) == CARBINK_BAD_BUFFER, "short parities", k, r, len);
    check(made[0] == 0xEE && made[behind - 1] == 0xEE, "nothing is written", k, r, len);
    for (int time = 0; time < 2; time++) {
        memset(made, 0xEE, behind);
        check(carbink_encoder_encode(&encoder, data, given, made, behind) == CARBINK_DONE, "encode prepared", k, r, len);
        check(memcmp(made, wanted, behind) == 0, "what the encoder made", k, r, len);
    }
    carbink_encoder_free(&encoder);
    carbink_encoder_free(&encoder);
    check(carbink_encoder_encode(&encoder, data, given, made, behind) == CARBINK_NO_ENCODER, "behind its end", k, r, len);
    free(made);
}

static void one_code(uint32_t k, uint32_t r, uint32_t len) {
    size_t row = len, given = k * row, behind = r * row, whole = given + behind;
    uint8_t *data = bytes(given), *parities = bytes(behind), *word = bytes(whole), *lost = bytes(whole), *present = bytes(k);
    struct carbink_found found;
    uint32_t told = 9;
    for (size_t i = 0; i < given; i++) data[i] = (uint8_t)(i * 167 + k * 31 + r * 7 + 1);
    check(carbink_encode(k, r, len, data, given, parities, behind) == CARBINK_DONE, "encode", k, r, len);
    memcpy(word, data, given);
    memcpy(word + given, parities, behind);
    check(carbink_is_word(k, r, len, word, whole, &told) == CARBINK_DONE && told == 1, "is_word", k, r, len);
    check(carbink_examine(k, r, len, word, whole, &found) == CARBINK_DONE && found.kind == CARBINK_CLEAN, "clean", k, r, len);
    memcpy(lost, word, whole);
    for (uint32_t i = 0; i < k; i++) present[i] = (uint8_t)(r + i);
    memset(lost, 0xEE, behind);
    check(carbink_solve(k, r, len, lost, whole, present, k) == CARBINK_DONE, "solve", k, r, len);
    check(memcmp(lost, word, whole) == 0, "what solve made", k, r, len);
    uint32_t position = (k + r) / 2;
    lost[position * row + row / 2] ^= 0x5A;
    check(carbink_is_word(k, r, len, lost, whole, &told) == CARBINK_DONE && told == 0, "no word", k, r, len);
    check(carbink_examine(k, r, len, lost, whole, &found) == CARBINK_DONE, "examine", k, r, len);
    if (r >= 2) check(found.kind == CARBINK_ONE && found.position == position, "the wrong row", k, r, len);
    else check(found.kind == CARBINK_MANY && found.column == row / 2 && found.sum != 0, "the first syndrome", k, r, len);
    check(carbink_mend(k, r, len, lost, whole, position) == CARBINK_DONE, "mend", k, r, len);
    check(memcmp(lost, word, whole) == 0, "what mend made", k, r, len);
    check(carbink_encode(k, r, len, data, given - 1, parities, behind) == CARBINK_BAD_BUFFER, "a short buffer", k, r, len);
    prepared(k, r, len, data, given, word + given, behind);
    free(data), free(parities), free(word), free(lost), free(present);
}

int main(void) {
    static const uint32_t lengths[] = {1, 31, 32, 33, 64, 65, 100, 128, 4096};
    if (carbink_version() != CARBINK_VERSION) wrong++;
    for (uint32_t k = 1; k <= 16; k++)
        for (uint32_t r = 1; r <= 4; r++)
            for (size_t i = 0; i < sizeof lengths / sizeof lengths[0]; i++)
                if (lengths[i] < 4096 || k % 4 == 0) one_code(k, r, lengths[i]);
    if (!wrong) printf("all as it should be\n");
    return wrong != 0;
}
