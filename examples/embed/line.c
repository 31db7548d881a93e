/* SPDX-License-Identifier: MIT */
/* A line of four nodes in one program: their routers, and an array of datagrams between them. */
#include <inttypes.h>
#include <stdio.h>
#include <stdlib.h>
#include <tora.h>

enum { NODES = 4, DESTINATION = 4, MOST = 64, ROOM = TORA_LONGEST_DATAGRAM };

static tora_router routers[NODES + 1]; /* all are null at first; there is no node 0 */
static struct {
    uint32_t from, to;
    uint8_t bytes[ROOM];
    size_t length;
} sent[MOST];

/* Ends the program with a code as its status, unless it is TORA_OK. */
static void done(uint32_t code) {
    if (code != TORA_OK) exit((int)code);
}

static void make(uint32_t node) {
    const uint32_t beside[] = {node == 1 ? 2 : node - 1, node + 1}, destination = DESTINATION;
    const tora_times times = TORA_STANDARD_TIMES;
    size_t count = node == 1 || node == NODES ? 1 : 2;
    done(tora_router_new(&routers[node], node, beside, count, &destination, 1, TORA_PLAIN, &times, 1));
}

/* Hands each datagram that is due to the router that it is for. Returns how many there were, at most MOST. */
static size_t carry(uint64_t now) {
    size_t n = 0;
    uint32_t intake;
    for (uint32_t node = 1; node <= NODES; node++)
        while (n < MOST && tora_router_poll_datagram(&routers[node], now, &sent[n].to, sent[n].bytes, ROOM,
                                                     &sent[n].length) == TORA_OK)
            sent[n++].from = node;
    for (size_t at = 0; at < n; at++)
        done(tora_router_datagram(&routers[sent[at].to], sent[at].from, sent[at].bytes, sent[at].length, now, &intake));
    return n;
}

int main(void) {
    for (uint32_t node = 1; node <= NODES; node++) make(node);
    for (uint64_t now = 0; now < 2; now++) {
        for (uint32_t node = 1; node <= NODES; node++) done(tora_router_tick(&routers[node], now));
        if (now == 1) done(tora_router_need(&routers[1], DESTINATION, now)); /* all links are up */
        while (carry(now) > 0) continue;
    }
    for (uint32_t node = 1; node <= NODES; node++) {
        tora_height h;
        uint32_t hop;
        done(tora_router_height(&routers[node], DESTINATION, &h));
        printf("node %" PRIu32 " (%" PRIu64 ",%" PRIu32 ",%" PRIu32, node, h.tau, h.oid, h.r);
        printf(",%" PRId32 ",%" PRIu32 ") hop ", h.delta, h.id);
        if (tora_router_next_hop(&routers[node], DESTINATION, &hop) == TORA_OK) printf("%" PRIu32 "\n", hop);
        else printf("-\n");
        tora_router_free(&routers[node]);
    }
    return 0;
}
