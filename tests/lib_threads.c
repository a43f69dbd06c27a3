/* The library for C from several threads, for tests/lib, which runs it under helgrind too. The word says what they do:
 *   handed     a world and an encoder are made in one thread, used in others by turns, under a lock, and freed in one more
 *   beside     threads read the same rows, positions and events at the same time, and write each to its own
 *   positions  the same, while the positions are changed: this breaks what the caller owes, and helgrind must see it
 *   event      the same, while the event is changed */
#include "carbink.h"

#include <pthread.h>
#include <stdio.h>
#include <string.h>

enum { K = 4, R = 2, LEN = 200, DATA = K * LEN, PARITIES = R * LEN, WORD = DATA + PARITIES, OBJECTS = 40, THREADS = 4, TIMES = 20 };

static uint8_t word[WORD], present[K] = {1, 2, 3, 4};
static struct carbink_world world = CARBINK_NO_WORLD;
static struct carbink_encoder encoder = CARBINK_NO_ENCODER_YET;
static const struct carbink_config config = {2, 1, 4, 4, 16, 64};
static struct carbink_event reading = {CARBINK_READ, 0, 0, 0, 0};
static pthread_mutex_t lock = PTHREAD_MUTEX_INITIALIZER;
static int wrong[THREADS + 1];

/* Spans leave, and the object's comes back for the read. */
static int is_read(struct carbink_world *of) {
    struct carbink_reply reply;
    uint8_t room[CARBINK_ROOM], none = 0;
    return carbink_evict(of, 0, &reply) == CARBINK_DONE
        && carbink_world_step(of, &reading, &none, 0, &reply, room, sizeof room) == CARBINK_DONE
        && reply.kind == CARBINK_REPLY_BYTES && reply.count == LEN && memcmp(room, word, LEN) == 0;
}

static int is_filled(struct carbink_world *of) {
    struct carbink_reply reply;
    int done = carbink_world_new(of, &config) == CARBINK_DONE;
    for (int i = 0; i < OBJECTS; i++)
        done = carbink_make(of, 0, word + (i ? LEN : 0), LEN, &reply) == CARBINK_DONE && reply.kind == CARBINK_REPLY_MADE && done;
    return done;
}

static int is_encoded(void) {
    uint8_t parities[PARITIES];
    return carbink_encoder_encode(&encoder, word, DATA, parities, PARITIES) == CARBINK_DONE
        && memcmp(parities, word + DATA, PARITIES) == 0;
}

static int is_solved(void) {
    uint8_t rows[WORD];
    memcpy(rows, word, WORD);
    memset(rows, 0, LEN);
    memset(rows + WORD - LEN, 0, LEN);
    return carbink_solve(K, R, LEN, rows, WORD, present, K) == CARBINK_DONE && memcmp(rows, word, WORD) == 0;
}

static int is_a_word(void) {
    uint8_t parities[PARITIES];
    uint32_t told = 9;
    return carbink_encode(K, R, LEN, word, DATA, parities, PARITIES) == CARBINK_DONE && memcmp(parities, word + DATA, PARITIES) == 0
        && carbink_is_word(K, R, LEN, word, WORD, &told) == CARBINK_DONE && told == 1;
}

static void *make(void *mine) {
    *(int *)mine = !(is_filled(&world) && carbink_encoder_new(&encoder, K, R, LEN) == CARBINK_DONE);
    return 0;
}

static void *take_turns(void *mine) {
    for (int i = 0; i < TIMES; i++) {
        pthread_mutex_lock(&lock);
        if (!is_read(&world) || !is_encoded()) *(int *)mine = 1;
        pthread_mutex_unlock(&lock);
    }
    return 0;
}

static void *end(void *mine) {
    carbink_world_free(&world);
    carbink_encoder_free(&encoder);
    *(int *)mine = is_read(&world) || is_encoded();
    return 0;
}

static void *work_beside(void *mine) {
    struct carbink_world own = CARBINK_NO_WORLD;
    if (!is_filled(&own)) *(int *)mine = 1;
    for (int i = 0; i < TIMES; i++)
        if (!is_a_word() || !is_solved() || !is_read(&own)) *(int *)mine = 1;
    carbink_world_free(&own);
    return 0;
}

/* So many threads at once; what is changed meanwhile keeps its value. */
static void run(int threads, void *(*work)(void *), volatile void *changed) {
    pthread_t started[THREADS];
    for (int i = 0; i < threads; i++)
        if (pthread_create(&started[i], 0, work, &wrong[i])) wrong[THREADS] = 1;
    volatile uint8_t *byte = changed;
    for (int i = 0; byte && i < TIMES; i++) *byte = *byte;
    for (int i = 0; i < threads; i++) pthread_join(started[i], 0);
}

int main(int argc, char **argv) {
    if (argc != 2) return 2;
    for (int i = 0; i < DATA; i++) word[i] = (uint8_t)(i * 167 + i / LEN + 1);
    if (carbink_encode(K, R, LEN, word, DATA, word + DATA, PARITIES) != CARBINK_DONE) return 1;
    if (strcmp(argv[1], "handed") == 0) {
        run(1, make, 0);
        run(THREADS, take_turns, 0);
        run(1, end, 0);
    } else {
        int positions = strcmp(argv[1], "positions") == 0, event = strcmp(argv[1], "event") == 0;
        run(THREADS, work_beside, positions ? (void *)present : event ? (void *)&reading.handle : 0);
    }
    for (int i = 0; i <= THREADS; i++)
        if (wrong[i]) return 1;
    printf("all as it should be\n");
    return 0;
}
