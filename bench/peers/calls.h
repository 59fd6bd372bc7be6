// The calls of `measure messages` over a peer: their messages, how their results are added up, and `PEER CALL COUNT` itself.
#include <errno.h>
#include <stdint.h>
#include <stdio.h>
#include <stdlib.h>
#include <string.h>

static const uint8_t QUERY[24] = "\x12\x34\x01\0\0\x01\0\0\0\0\0\0\x01" "a\x04test\0\0\x01\0\x01";
static const uint8_t REPLY[40] = "\x12\x34\x81\x80\0\x01\0\x01\0\0\0\0\x01" "a\x04test\0\0\x01\0\x01"
    "\xc0\x0c\0\x01\0\x01\0\0\x0e\x10\0\x04\xc0\0\x02\x01";
static uint8_t LONG[512];

static void fill_long(void) {
    memcpy(LONG, "\x12\x34\x81\x80\0\x01\0\x1e\0\0\0\0\x03www\x07" "example\x02to\0\0\x01\0\x01", 32);
    for (int i = 0; i < 30; i++) {
        memcpy(LONG + 32 + 16 * i, "\xc0\x0c\0\x01\0\x01\0\0\x0e\x10\0\x04\xc0\0\x02", 15);
        LONG[32 + 16 * i + 15] = (uint8_t)(i + 1);
    }
}

static inline void fail(const char *what) {
    fprintf(stderr, "%s: %s\n", program_invocation_short_name, what);
    exit(1);
}

static inline uint32_t added(uint32_t sum, size_t number) { return sum * 31 + (uint32_t)(number % 65536); }

// What a comparison adds: less, equal or greater.
static inline uint32_t added_order(uint32_t sum, int told) { return added(sum, told < 0 ? 1 : told == 0 ? 2 : 3); }

// How a peer makes each call so many times. One that it does not have is NULL.
struct peer {
    uint32_t (*decode)(const uint8_t *wire, size_t size, uint32_t count);
    uint32_t (*encode)(const uint8_t *wire, size_t size, uint32_t count);
    uint32_t (*read_question)(uint32_t count);
    uint32_t (*from_text)(uint32_t count);
    uint32_t (*to_text)(uint32_t count);
    uint32_t (*at_or_below)(uint32_t count);
    uint32_t (*compare)(uint32_t count);
};

static uint32_t called(const struct peer *peer, const char *call, uint32_t count) {
    const struct {
        const char *name;
        uint32_t (*run)(const uint8_t *wire, size_t size, uint32_t count);
        const uint8_t *wire;
        size_t size;
    } of_messages[] = {
        {"decode_query", peer->decode, QUERY, sizeof QUERY},
        {"decode_reply", peer->decode, REPLY, sizeof REPLY},
        {"decode_long", peer->decode, LONG, sizeof LONG},
        {"encode_query", peer->encode, QUERY, sizeof QUERY},
        {"encode_reply", peer->encode, REPLY, sizeof REPLY},
        {"encode_long", peer->encode, LONG, sizeof LONG},
    };
    const struct {
        const char *name;
        uint32_t (*run)(uint32_t count);
    } others[] = {
        {"read_question", peer->read_question}, {"from_text", peer->from_text}, {"to_text", peer->to_text},
        {"at_or_below", peer->at_or_below}, {"compare", peer->compare},
    };
    for (size_t i = 0; i < sizeof of_messages / sizeof of_messages[0]; i++)
        if (strcmp(call, of_messages[i].name) == 0) return of_messages[i].run(of_messages[i].wire, of_messages[i].size, count);
    for (size_t i = 0; i < sizeof others / sizeof others[0]; i++)
        if (strcmp(call, others[i].name) == 0 && others[i].run != NULL) return others[i].run(count);
    fail("there is no such call here");
    return 0;
}

static inline int run_peer(const struct peer *peer, int argc, char **argv) {
    if (argc != 3) fail("which call, and how many times?");
    fill_long();
    printf("%s %u\n", argv[1], called(peer, argv[1], (uint32_t)strtoul(argv[2], NULL, 10)));
    return 0;
}
