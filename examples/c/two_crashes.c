/* A world of 64 pages in four frames loses two of its eight nodes, one after the other, and no byte of a page.
 * Build: cc two_crashes.c -I../../include ../../build/libcarbink.a */
#include <carbink.h>
#include <stdio.h>
#include <string.h>

enum { PAGES = 64, SIZE = 1000 };

static struct carbink_world world = CARBINK_NO_WORLD;
static uint8_t room[CARBINK_ROOM];

static struct carbink_reply reply;

static void done(uint32_t status) {
    if (status != CARBINK_DONE) printf("a call answered %u\n", (unsigned)status);
}

static void fill(uint8_t *page, uint32_t number) {
    for (uint32_t i = 0; i < SIZE; i++) page[i] = (uint8_t)(number * 7 + i);
}

static uint32_t whole_pages(const uint32_t *handles) {
    uint8_t page[SIZE];
    uint32_t whole = 0;
    for (uint32_t i = 0; i < PAGES; i++) {
        done(carbink_read(&world, 0, handles[i], &reply, room, sizeof room));
        fill(page, i);
        whole += reply.kind == CARBINK_REPLY_BYTES && reply.count == SIZE && memcmp(room, page, SIZE) == 0;
    }
    return whole;
}

int main(void) {
    const struct carbink_config config = {4, 2, 8, 4, 64, PAGES};
    uint8_t page[SIZE];
    uint32_t handles[PAGES];
    uint64_t given = 0;
    if (carbink_world_new(&world, &config) != CARBINK_DONE) return 1;
    for (uint32_t i = 0; i < PAGES; i++) {
        fill(page, i);
        done(carbink_make(&world, 0, page, SIZE, &reply));
        handles[i] = (uint32_t)carbink_reply_handle(&reply);
    }
    printf("%d pages of %d bytes in 4 frames: %u are whole\n", PAGES, SIZE, (unsigned)whole_pages(handles));
    for (uint32_t node = 1; node <= 3; node += 2) {
        done(carbink_crash(&world, 0, node, &reply));
        unsigned epoch = (unsigned)carbink_reply_epoch(&reply);
        printf("node %u crashed, epoch %u: %u are whole\n", (unsigned)node, epoch, (unsigned)whole_pages(handles));
    }
    carbink_world_given(&world, &given);
    printf("rows were given out: %s\n", given > 0 ? "yes" : "no");
    carbink_world_free(&world);
    return 0;
}
