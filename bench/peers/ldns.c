// The calls of `measure messages` over ldns (NLnet Labs; Debian's libldns-dev): `ldns CALL COUNT`.
#define _GNU_SOURCE
#include <ldns/ldns.h>

#include "calls.h"

static ldns_pkt *parsed(const uint8_t *wire, size_t size) {
    ldns_pkt *pkt;
    if (ldns_wire2pkt(&pkt, wire, size) != LDNS_STATUS_OK) fail("a message is not read");
    return pkt;
}

static uint32_t decode_many(const uint8_t *wire, size_t size, uint32_t count) {
    uint32_t sum = 0;
    for (uint32_t i = 0; i < count; i++) {
        ldns_pkt *pkt = parsed(wire, size);
        sum = added(sum, ldns_pkt_ancount(pkt));
        ldns_pkt_free(pkt);
    }
    return sum;
}

static uint32_t encode_many(const uint8_t *wire, size_t size, uint32_t count) {
    ldns_pkt *pkt = parsed(wire, size);
    uint32_t sum = 0;
    for (uint32_t i = 0; i < count; i++) {
        uint8_t *out;
        size_t written;
        if (ldns_pkt2wire(&out, pkt, &written) != LDNS_STATUS_OK) fail("a message is not written");
        sum = added(sum, written);
        free(out);
    }
    ldns_pkt_free(pkt);
    return sum;
}

static ldns_rdf *name_of(const char *text) {
    ldns_rdf *name = ldns_dname_new_frm_str(text);
    if (name == NULL) fail("a name is not read");
    return name;
}

static uint32_t from_text(uint32_t count) {
    uint32_t sum = 0;
    for (uint32_t i = 0; i < count; i++) {
        ldns_rdf *name = name_of("www.example.to.");
        sum = added(sum, ldns_rdf_size(name));
        ldns_rdf_deep_free(name);
    }
    return sum;
}

static uint32_t to_text(uint32_t count) {
    ldns_rdf *name = name_of("www.example.to.");
    uint32_t sum = 0;
    for (uint32_t i = 0; i < count; i++) {
        char *text = ldns_rdf2str(name);
        sum = added(sum, strlen(text));
        free(text);
    }
    return sum;
}

static uint32_t at_or_below(uint32_t count) {
    ldns_rdf *names[2] = {name_of("www.example.to."), name_of("mail.example.to.")};
    ldns_rdf *zone = name_of("example.to.");
    uint32_t sum = 0;
    for (uint32_t i = 0; i < count; i++) sum = added(sum, ldns_dname_is_subdomain(names[sum % 2], zone));
    return sum;
}

static uint32_t compare(uint32_t count) {
    ldns_rdf *names[2] = {name_of("www.example.to."), name_of("mail.example.to.")};
    ldns_rdf *other = name_of("ns.example.to.");
    uint32_t sum = 0;
    for (uint32_t i = 0; i < count; i++) {
        int told = ldns_dname_compare(names[sum % 2], other);
        sum = added_order(sum, told);
    }
    return sum;
}

int main(int argc, char **argv) {
    const struct peer peer = {
        .decode = decode_many,
        .encode = encode_many,
        .from_text = from_text,
        .to_text = to_text,
        .at_or_below = at_or_below,
        .compare = compare,
    };
    return run_peer(&peer, argc, argv);
}
