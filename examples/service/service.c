/* A key-value service over a far-memory world: values of 1 to 4,096 bytes under keys of 1 to 64 characters. It reads
 * commands, one a line, and answers each with a line:
 *
 *     put KEY HEX      stored | too_long | full | no_room | unavailable
 *     get KEY          HEX | none | no_room | unavailable
 *     delete KEY       deleted | none
 *     crash NODE ..    crashed EPOCH    a batch of crashes, one behind another
 *     join NODE ..     joined EPOCH
 *     rebuild          rebuilt N lost L  lost rows are made again, until none can be; L sets have lost too many
 *     compact          joined N         sets become one, until no two can
 *     stats            keys K local L far F given G
 *
 * A key is hashed to a place of a table, which keeps its handle; a value of another length is freed and made anew, and
 * a handle is never used again, so there is an end of puts (65,536 makes).
 * Build: cc service.c -I../../include ../../build/libcarbink.a
 * Use: service K R NODES FRAMES ROOM < COMMANDS */
#include <carbink.h>
#include <stdio.h>
#include <stdlib.h>
#include <string.h>

enum { PLACES = 1 << 17, MOST_KEY = 64, HANDLES = 65536, LINE = 2 * 4096 + MOST_KEY + 16 };

/* A key that was deleted keeps its place, without a value: those behind it are found all the same. */
struct entry {
    char key[MOST_KEY + 1];
    uint32_t handle, size; /* size 0: no value */
};

static struct carbink_world world = CARBINK_NO_WORLD;
static struct carbink_reply reply;
static struct entry *table;
static uint32_t keys;
static uint8_t room[CARBINK_ROOM], bytes[4096];
static char line[LINE];

static void done(uint32_t status) {
    if (status == CARBINK_DONE) return;
    fprintf(stderr, "service: a call answered %u\n", (unsigned)status);
    exit(1);
}

/* The place of a key: where it stands, or the first free one (FNV-1a, and then the next places). */
static struct entry *place_of(const char *key) {
    uint32_t hash = 2166136261u;
    for (const char *at = key; *at; at++) hash = (hash ^ (uint8_t)*at) * 16777619u;
    for (uint32_t at = hash % PLACES;; at = (at + 1) % PLACES)
        if (!table[at].key[0] || strcmp(table[at].key, key) == 0) return &table[at];
}

static const char *refusal(void) {
    switch (reply.kind) {
    case CARBINK_REPLY_FULL: return "full";
    case CARBINK_REPLY_NO_ROOM: return "no_room";
    case CARBINK_REPLY_UNAVAILABLE: return "unavailable";
    default: return "refused";
    }
}

static uint32_t unhex(const char *hex) {
    uint32_t size = 0;
    for (unsigned byte; hex[0] && hex[1] && size < sizeof bytes && sscanf(hex, "%2x", &byte) == 1; hex += 2)
        bytes[size++] = (uint8_t)byte;
    return hex[0] ? 0 : size; /* 0 too where something is left over */
}

static const char *put(const char *key, const char *hex) {
    struct entry *entry = place_of(key);
    uint32_t size = unhex(hex);
    if (!size) return "too_long";
    if (entry->size == size) {
        done(carbink_write(&world, 0, entry->handle, 0, bytes, size, &reply));
        return reply.kind == CARBINK_REPLY_VERSION ? "stored" : refusal();
    }
    uint32_t old = entry->size ? entry->handle : HANDLES;
    done(carbink_make(&world, 0, bytes, size, &reply));
    if (reply.kind != CARBINK_REPLY_MADE) return refusal();
    if (!entry->size) keys++;
    strcpy(entry->key, key);
    entry->handle = (uint32_t)reply.first;
    entry->size = size;
    if (old != HANDLES) done(carbink_free(&world, 0, old, &reply));
    return "stored";
}

static void get(const char *key) {
    struct entry *entry = place_of(key);
    if (!entry->size) {
        puts("none");
        return;
    }
    done(carbink_read(&world, 0, entry->handle, &reply, room, sizeof room));
    if (reply.kind != CARBINK_REPLY_BYTES) {
        puts(refusal());
        return;
    }
    for (uint64_t at = 0; at < reply.count; at++) printf("%02x", room[at]);
    puts("");
}

static const char *delete(const char *key) {
    struct entry *entry = place_of(key);
    if (!entry->size) return "none";
    done(carbink_free(&world, 0, entry->handle, &reply));
    entry->size = 0;
    keys--;
    return "deleted";
}

/* Crashes or joins each node of the rest of the line; the last epoch. */
static void nodes(const char *what, uint32_t verb, char *rest, uint32_t most) {
    uint64_t epoch = 0;
    for (char *word = strtok(rest, " "); word; word = strtok(NULL, " ")) {
        uint32_t node = (uint32_t)strtoul(word, NULL, 10);
        if (node >= most) continue;
        done(carbink_world_bare(&world, verb, 0, 0, node, &reply));
        if (reply.kind == CARBINK_REPLY_EPOCH) epoch = reply.first;
    }
    printf("%s %u\n", what, (unsigned)epoch);
}

static void rebuild(void) {
    uint32_t count = 0;
    for (done(carbink_rebuild(&world, 0, &reply)); reply.kind == CARBINK_REPLY_REBUILT; count++)
        done(carbink_rebuild(&world, 0, &reply));
    printf("rebuilt %u lost %u\n", (unsigned)count, reply.kind == CARBINK_REPLY_WHOLE ? (unsigned)reply.first : 0u);
}

static void compact(void) {
    uint32_t count = 0;
    for (done(carbink_compact(&world, 0, &reply)); reply.kind == CARBINK_REPLY_MERGED; count++)
        done(carbink_compact(&world, 0, &reply));
    printf("joined %u\n", (unsigned)count);
}

/* Local is where a pin finds the value, and far where it does not. */
static void stats(void) {
    uint32_t local = 0;
    uint64_t given = 0;
    for (uint32_t at = 0; at < PLACES; at++) {
        if (!table[at].size) continue;
        done(carbink_pin(&world, 0, table[at].handle, &reply));
        if (reply.kind != CARBINK_REPLY_VERSION) continue;
        local++;
        done(carbink_unpin(&world, 0, table[at].handle, &reply));
    }
    done(carbink_world_given(&world, &given));
    printf("keys %u local %u far %u given %u\n", (unsigned)keys, (unsigned)local, (unsigned)(keys - local), (unsigned)given);
}

static void answer(char *text, uint32_t most) {
    char *verb = strtok(text, " "), *rest = strtok(NULL, "");
    char *key = rest, *hex = rest ? strchr(rest, ' ') : NULL;
    if (!verb) return;
    if (hex) *hex++ = 0;
    int has_key = key && strlen(key) >= 1 && strlen(key) <= MOST_KEY;
    if (!strcmp(verb, "put") && has_key && hex) puts(put(key, hex));
    else if (!strcmp(verb, "get") && has_key && !hex) get(key);
    else if (!strcmp(verb, "delete") && has_key && !hex) puts(delete(key));
    else if ((!strcmp(verb, "crash") || !strcmp(verb, "join")) && rest) {
        if (hex) *--hex = ' ';
        nodes(verb[0] == 'c' ? "crashed" : "joined", verb[0] == 'c' ? CARBINK_CRASH : CARBINK_JOIN, rest, most);
    } else if (!strcmp(verb, "rebuild") && !rest) rebuild();
    else if (!strcmp(verb, "compact") && !rest) compact();
    else if (!strcmp(verb, "stats") && !rest) stats();
    else puts("what");
}

int main(int count, char **words) {
    if (count != 6) {
        fprintf(stderr, "usage: service K R NODES FRAMES ROOM < COMMANDS\n");
        return 64;
    }
    uint32_t sizes[5];
    for (int at = 0; at < 5; at++) sizes[at] = (uint32_t)strtoul(words[at + 1], NULL, 10);
    const struct carbink_config config = {sizes[0], sizes[1], sizes[2], sizes[3], sizes[4], HANDLES};
    uint32_t status = carbink_world_new(&world, &config);
    table = calloc(PLACES, sizeof *table);
    if (status != CARBINK_DONE || !table) {
        fprintf(stderr, "service: no world of these sizes (%u)\n", (unsigned)status);
        return 64;
    }
    while (fgets(line, sizeof line, stdin)) {
        if (strlen(line) == sizeof line - 1 && line[sizeof line - 2] != '\n') {
            for (int c = getchar(); c != '\n' && c != EOF;) c = getchar();
            puts("too_long");
        } else {
            line[strcspn(line, "\n")] = 0;
            answer(line, config.nodes);
        }
        fflush(stdout);
    }
    carbink_world_free(&world);
    free(table);
    return 0;
}
