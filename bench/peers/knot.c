// The calls of `measure messages` over libknot (Knot DNS; Debian's libknot-dev): `knot CALL COUNT`.
#define _GNU_SOURCE
#include <libknot/libknot.h>

#include "calls.h"

static knot_pkt_t *parsed(const uint8_t *wire, size_t size) {
    knot_pkt_t *pkt = knot_pkt_new((void *)wire, (uint16_t)size, NULL);
    if (pkt == NULL || knot_pkt_parse(pkt, 0) != KNOT_EOK) fail("a message is not read");
    return pkt;
}

static uint32_t decode_many(const uint8_t *wire, size_t size, uint32_t count) {
    uint32_t sum = 0;
    for (uint32_t i = 0; i < count; i++) {
        knot_pkt_t *pkt = parsed(wire, size);
        sum = added(sum, knot_pkt_section(pkt, KNOT_ANSWER)->count);
        knot_pkt_free(pkt);
    }
    return sum;
}

// A message is written from one that was read: its question, and each record in turn.
static uint32_t encode_many(const uint8_t *wire, size_t size, uint32_t count) {
    knot_pkt_t *from = parsed(wire, size);
    const knot_pktsection_t *answer = knot_pkt_section(from, KNOT_ANSWER);
    uint32_t sum = 0;
    for (uint32_t i = 0; i < count; i++) {
        knot_pkt_t *pkt = knot_pkt_new(NULL, 512, NULL);
        if (pkt == NULL) fail("no memory");
        knot_wire_set_id(pkt->wire, knot_wire_get_id(from->wire));
        memcpy(pkt->wire + 2, from->wire + 2, 2);
        if (knot_pkt_put_question(pkt, knot_pkt_qname(from), knot_pkt_qclass(from), knot_pkt_qtype(from)) != KNOT_EOK) fail("no question");
        knot_pkt_begin(pkt, KNOT_ANSWER);
        for (uint16_t j = 0; j < answer->count; j++) {
            if (knot_pkt_put(pkt, KNOT_COMPR_HINT_QNAME, knot_pkt_rr(answer, j), 0) != KNOT_EOK) fail("no record");
        }
        if (pkt->size != size) fail("another size");
        sum = added(sum, pkt->size);
        knot_pkt_free(pkt);
    }
    knot_pkt_free(from);
    return sum;
}

static uint32_t read_question(uint32_t count) {
    uint32_t sum = 0;
    for (uint32_t i = 0; i < count; i++) {
        knot_pkt_t *pkt = knot_pkt_new((void *)QUERY, sizeof QUERY, NULL);
        if (pkt == NULL || knot_pkt_parse_question(pkt) != KNOT_EOK) fail("a query is not read");
        sum = added(sum, knot_wire_get_id(pkt->wire));
        knot_pkt_free(pkt);
    }
    return sum;
}

static uint32_t from_text(uint32_t count) {
    uint32_t sum = 0;
    for (uint32_t i = 0; i < count; i++) {
        knot_dname_t *name = knot_dname_from_str_alloc("www.example.to.");
        if (name == NULL) fail("a name is not read");
        sum = added(sum, knot_dname_size(name));
        knot_dname_free(name, NULL);
    }
    return sum;
}

static uint32_t to_text(uint32_t count) {
    knot_dname_t *name = knot_dname_from_str_alloc("www.example.to.");
    uint32_t sum = 0;
    for (uint32_t i = 0; i < count; i++) {
        char *text = knot_dname_to_str_alloc(name);
        if (text == NULL) fail("a name is not written");
        sum = added(sum, strlen(text));
        free(text);
    }
    return sum;
}

static uint32_t at_or_below(uint32_t count) {
    knot_dname_t *names[2] = {knot_dname_from_str_alloc("www.example.to."), knot_dname_from_str_alloc("mail.example.to.")};
    knot_dname_t *zone = knot_dname_from_str_alloc("example.to.");
    uint32_t sum = 0;
    for (uint32_t i = 0; i < count; i++) {
        sum = added(sum, knot_dname_in_bailiwick(names[sum % 2], zone) >= 0);
    }
    return sum;
}

static uint32_t compare(uint32_t count) {
    knot_dname_t *names[2] = {knot_dname_from_str_alloc("www.example.to."), knot_dname_from_str_alloc("mail.example.to.")};
    knot_dname_t *other = knot_dname_from_str_alloc("ns.example.to.");
    uint32_t sum = 0;
    for (uint32_t i = 0; i < count; i++) {
        int told = knot_dname_cmp(names[sum % 2], other);
        sum = added_order(sum, told);
    }
    return sum;
}

int main(int argc, char **argv) {
    const struct peer peer = {
        .decode = decode_many,
        .encode = encode_many,
        .read_question = read_question,
        .from_text = from_text,
        .to_text = to_text,
        .at_or_below = at_or_below,
        .compare = compare,
    };
    return run_peer(&peer, argc, argv);
}
