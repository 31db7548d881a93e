/* SPDX-License-Identifier: MIT */
/* Each call of tora.h, with handles that are null, freed, of cores, routers and worlds, and each allocation refused in
   turn: for dev/check-lib.sh. */
#include <stdio.h>
#include <stdlib.h>
#include <string.h>
#include <tora.h>

void *__real_malloc(size_t size);
void *__real_realloc(void *block, size_t size);
void *__wrap_malloc(size_t size);
void *__wrap_realloc(void *block, size_t size);

static long left = -1; /* allocations until one is refused; -1 for none */
static int failures;

static int refused(void) {
    if (left < 0) return 0;
    return left-- == 0;
}

void *__wrap_malloc(size_t size) { return refused() ? NULL : __real_malloc(size); }
void *__wrap_realloc(void *block, size_t size) { return refused() ? NULL : __real_realloc(block, size); }

#define IS(wanted, call)                                                                                   \
    do {                                                                                                   \
        uint32_t code = (call);                                                                            \
        if (code != (wanted)) {                                                                            \
            failures++;                                                                                    \
            printf("line %d: %s answers %u, and not %u\n", __LINE__, #call, (unsigned)code, (unsigned)(wanted)); \
        }                                                                                                  \
    } while (0)

static const uint32_t LINKS[] = {2, 4}, TABLE[] = {4, 9};
static const uint8_t QUERY[] = {1, 1, 0, 0, 0, 0, 0, 4};

/* Every call answers that a handle is null. */
static void all_are_null(tora_core *core) {
    tora_core other = TORA_CORE_NULL;
    tora_height height;
    uint32_t number;
    size_t size;
    IS(TORA_NULL, tora_core_clone(core, &other));
    IS(TORA_NULL, tora_core_link_up(core, 2, 1));
    IS(TORA_NULL, tora_core_link_down(core, 2, 1));
    IS(TORA_NULL, tora_core_packet(core, 2, QUERY, sizeof QUERY, 1));
    IS(TORA_NULL, tora_core_need(core, 4, 1));
    IS(TORA_NULL, tora_core_sent_count(core, &size));
    IS(TORA_NULL, tora_core_sent(core, 0, NULL, 0, &size));
    IS(TORA_NULL, tora_core_height(core, 4, &height));
    IS(TORA_NULL, tora_core_entry(core, 4, 2, &height));
    IS(TORA_NULL, tora_core_next_hop(core, 4, &number));
    IS(TORA_NULL, tora_core_flag(core, 4, &number));
    IS(TORA_NULL, tora_core_is_up(core, 2, &number));
    IS(TORA_NULL, tora_core_show(core, NULL, 0, &size));
    tora_core_free(core);
}

/* The same of a router. */
static void all_router_calls_are_null(tora_router *router) {
    tora_height height;
    tora_change change;
    tora_tally tally;
    uint32_t number;
    uint64_t tick;
    size_t size;
    IS(TORA_NULL, tora_router_datagram(router, 2, QUERY, sizeof QUERY, 1, &number));
    IS(TORA_NULL, tora_router_tick(router, 1));
    IS(TORA_NULL, tora_router_need(router, 4, 1));
    IS(TORA_NULL, tora_router_cut(router, 2, 1));
    IS(TORA_NULL, tora_router_poll_datagram(router, 1, &number, NULL, 0, &size));
    IS(TORA_NULL, tora_router_poll_change(router, &change));
    IS(TORA_NULL, tora_router_next_due(router, &tick));
    IS(TORA_NULL, tora_router_next_life(router, &tick));
    IS(TORA_NULL, tora_router_height(router, 4, &height));
    IS(TORA_NULL, tora_router_entry(router, 4, 2, &height));
    IS(TORA_NULL, tora_router_next_hop(router, 4, &number));
    IS(TORA_NULL, tora_router_flag(router, 4, &number));
    IS(TORA_NULL, tora_router_is_up(router, 2, &number));
    IS(TORA_NULL, tora_router_tally(router, 2, &tally));
    IS(TORA_NULL, tora_router_show(router, NULL, 0, &size));
    tora_router_free(router);
}

/* What a core answers in turn. */
static void answers(tora_core *core) {
    tora_height height = {7, 7, 7, 7, 7};
    uint8_t bytes[TORA_LONGEST_PACKET], text[512];
    uint32_t number = 7;
    size_t size = 7;
    IS(TORA_OK, tora_core_link_up(core, 2, 1));
    IS(TORA_OK, tora_core_link_up(core, 4, 1));
    IS(TORA_ALREADY_UP, tora_core_link_up(core, 4, 1));
    IS(TORA_UNKNOWN_NEIGHBOUR, tora_core_link_up(core, 0, 1));
    IS(TORA_ABSENT, tora_core_height(core, 4, &height));
    IS(TORA_UNKNOWN, tora_core_height(core, 5, &height));
    IS(7, height.id);
    IS(TORA_PACKET_SHORT, tora_core_packet(core, 2, NULL, 0, 2));
    IS(TORA_PACKET_LONG, tora_core_packet(core, 2, (const uint8_t *)"\1\1\0\0\0\0\0\4\0", 9, 2));
    IS(TORA_OK, tora_core_packet(core, 2, QUERY, sizeof QUERY, 2));
    IS(TORA_OK, tora_core_sent_count(core, &size));
    IS(1, (uint32_t)size);
    IS(TORA_UNKNOWN_DESTINATION, tora_core_need(core, 5, 2));
    IS(TORA_ROOM, tora_core_sent(core, 0, bytes, 31, &size));
    IS(32, (uint32_t)size);
    IS(TORA_OK, tora_core_sent(core, 0, bytes, 32, &size));
    IS(TORA_ABSENT, tora_core_sent(core, 1, bytes, 32, &size));
    IS(TORA_OK, tora_core_height(core, 4, &height));
    IS(1, (uint32_t)height.delta);
    IS(3, height.id);
    IS(TORA_OK, tora_core_entry(core, 4, 4, &height));
    IS(4, height.id);
    IS(TORA_OK, tora_core_next_hop(core, 4, &number));
    IS(4, number);
    IS(TORA_ABSENT, tora_core_next_hop(core, 9, &number));
    IS(TORA_OK, tora_core_flag(core, 4, &number));
    IS(0, number);
    IS(TORA_OK, tora_core_is_up(core, 2, &number));
    IS(1, number);
    IS(TORA_ROOM, tora_core_show(core, NULL, 0, &size));
    IS(TORA_OK, tora_core_show(core, text, sizeof text, &size));
    if (size < 3 || memcmp(text, "to ", 3) != 0) failures++;
}

/* Whether every step of a use is done, with the allocation after so many refused; what is refused leaves all as it was. */
static int uses(long after) {
    tora_core core = TORA_CORE_NULL, second = TORA_CORE_NULL;
    uint8_t text[512];
    uint32_t code;
    size_t size;
    int done = 0;
    left = after;
    code = tora_core_new(&core, 3, LINKS, 2, TABLE, 2, TORA_PLAIN);
    if (code == TORA_OK) {
        IS(TORA_OK, tora_core_link_up(&core, 2, 1));
        code = tora_core_clone(&core, &second);
        if (code == TORA_OK) code = tora_core_show(&second, text, sizeof text, &size);
        else if (second.at) failures++;
        done = code == TORA_OK;
    } else if (core.at) failures++;
    left = -1;
    if (!done && code != TORA_MEMORY) failures++;
    tora_core_free(&core);
    tora_core_free(&second);
    return done;
}

/* Hands each datagram of one router to the other one, and answers how many there were. */
static int carried(tora_router *from, tora_router *to, uint32_t sender, uint64_t now) {
    uint8_t bytes[TORA_LONGEST_DATAGRAM];
    uint32_t peer = 0, intake = 0;
    size_t length = 7;
    int count = 0;
    IS(TORA_ROOM, tora_router_poll_datagram(from, now, &peer, bytes, sizeof bytes - 1, &length));
    IS(TORA_LONGEST_DATAGRAM, (uint32_t)length);
    IS(0, peer);
    while (tora_router_poll_datagram(from, now, &peer, bytes, sizeof bytes, &length) == TORA_OK) {
        IS(TORA_OK, tora_router_datagram(to, sender, bytes, length, now, &intake));
        IS(TORA_INTAKE_ACCEPTED, intake);
        IS(3 - sender, peer);
        count++;
    }
    return count;
}

/* What two routers answer that find a route, and lose it. */
static void router_answers(tora_router *one, tora_router *two) {
    tora_height height = {7, 7, 7, 7, 7};
    tora_change change;
    tora_tally tally;
    uint8_t text[512];
    uint32_t number = 7;
    uint64_t tick = 7;
    size_t size = 7;
    IS(TORA_UNKNOWN_DESTINATION, tora_router_need(one, 9, 1));
    IS(TORA_UNKNOWN_NEIGHBOUR, tora_router_cut(one, 9, 1));
    IS(TORA_UNKNOWN_NEIGHBOUR, tora_router_tally(one, 9, &tally));
    IS(TORA_ABSENT, tora_router_poll_change(one, &change));
    IS(TORA_OK, tora_router_next_due(one, &tick));
    IS(0, (uint32_t)tick);
    IS(TORA_OK, tora_router_tick(one, 1));
    IS(TORA_OK, tora_router_tick(two, 1));
    IS(TORA_OK, tora_router_need(one, 2, 1));
    IS(TORA_ABSENT, tora_router_height(one, 2, &height));
    IS(TORA_UNKNOWN, tora_router_entry(one, 2, 2, &height));
    IS(TORA_OK, tora_router_flag(one, 2, &number));
    IS(1, number);
    while (carried(one, two, 1, 1) + carried(two, one, 2, 1) > 0) continue;
    IS(TORA_OK, tora_router_height(one, 2, &height));
    IS(1, (uint32_t)height.delta);
    IS(TORA_OK, tora_router_entry(one, 2, 2, &height));
    IS(2, height.id);
    IS(TORA_OK, tora_router_next_hop(one, 2, &number));
    IS(2, number);
    IS(TORA_OK, tora_router_is_up(one, 2, &number));
    IS(1, number);
    IS(TORA_OK, tora_router_next_life(one, &tick));
    IS(8, (uint32_t)tick);
    IS(TORA_OK, tora_router_next_due(one, &tick));
    IS(11, (uint32_t)tick);
    IS(TORA_OK, tora_router_poll_change(one, &change));
    IS(1, change.kind == TORA_CHANGE_LINK_UP && change.node == 2 && change.hop == 0 && change.reason == 0);
    IS(TORA_OK, tora_router_cut(one, 2, 2));
    IS(TORA_OK, tora_router_poll_change(one, &change));
    IS(1, change.kind == TORA_CHANGE_LINK_DOWN && change.node == 2 && change.reason == TORA_REASON_CUT);
    IS(TORA_ABSENT, tora_router_poll_change(one, &change));
    IS(TORA_ABSENT, tora_router_next_hop(one, 2, &number));
    IS(TORA_OK, tora_router_datagram(one, 9, QUERY, sizeof QUERY, 2, &number));
    IS(TORA_INTAKE_NO_NEIGHBOUR, number);
    IS(TORA_OK, tora_router_datagram(one, 2, NULL, 0, 2, &number));
    IS(TORA_INTAKE_SHORT, number);
    IS(TORA_OK, tora_router_tally(one, 2, &tally));
    IS(1, tally.bad == 1 && tally.accepted > 0 && tally.stale == 0);
    IS(TORA_ROOM, tora_router_show(one, NULL, 0, &size));
    IS(TORA_OK, tora_router_show(one, text, sizeof text, &size));
    if (size < 3 || memcmp(text, "to ", 3) != 0) failures++;
}

/* Routers that are refused, and two that are not. */
static void routers(void) {
    const uint32_t one[] = {1}, two[] = {2};
    const tora_times times = TORA_STANDARD_TIMES, none = {1, 1, 1, 0};
    tora_router router = TORA_ROUTER_NULL, other = TORA_ROUTER_NULL;
    all_router_calls_are_null(&router);
    IS(TORA_CHOICE, tora_router_new(&router, 0, LINKS, 2, TABLE, 2, 2, &times, 0));
    IS(TORA_ZERO, tora_router_new(&router, 0, LINKS, 2, TABLE, 2, TORA_PLAIN, &times, 0));
    IS(TORA_LIFE, tora_router_new(&router, 2, LINKS, 2, TABLE, 2, TORA_PLAIN, &times, 0));
    IS(TORA_OWN_ID, tora_router_new(&router, 2, LINKS, 2, TABLE, 2, TORA_PLAIN, &times, 1));
    all_router_calls_are_null(&router);
    IS(TORA_OK, tora_router_new(&router, 3, NULL, 0, NULL, 0, TORA_REMEMBERED, &none, 1));
    IS(TORA_OK, tora_router_new(&router, 1, two, 1, two, 1, TORA_PLAIN, &times, 7));
    IS(TORA_OK, tora_router_new(&other, 2, one, 1, two, 1, TORA_PLAIN, &none, (uint64_t)1 << 62));
    router_answers(&router, &other);
    tora_router_free(&router);
    all_router_calls_are_null(&router);
    tora_router_free(&other);
}

/* As `uses`, of a router. */
static int uses_router(long after) {
    const tora_times times = TORA_STANDARD_TIMES;
    tora_router router = TORA_ROUTER_NULL;
    uint8_t text[512];
    uint32_t code;
    size_t size;
    int done = 0;
    left = after;
    code = tora_router_new(&router, 3, LINKS, 2, TABLE, 2, TORA_PLAIN, &times, 1);
    if (code == TORA_OK) {
        IS(TORA_OK, tora_router_tick(&router, 1));
        code = tora_router_show(&router, text, sizeof text, &size);
        done = code == TORA_OK;
    } else if (router.at) failures++;
    left = -1;
    if (!done && code != TORA_MEMORY) failures++;
    tora_router_free(&router);
    return done;
}

/* The same of a world. */
static void all_world_calls_are_null(tora_world *world) {
    size_t size = 7;
    IS(TORA_NULL, tora_world_line(world, (const uint8_t *)"step", 4, &size));
    IS(TORA_NULL, tora_world_answer(world, NULL, 0, &size));
    IS(7, (uint32_t)size);
    tora_world_free(world);
}

/* Hands a world a line, and tests that this is the answer. */
static void line_is(tora_world *world, const char *line, const char *wanted) {
    uint8_t text[128];
    size_t said = 7, size = 7, length = strlen(wanted);
    IS(TORA_OK, tora_world_line(world, (const uint8_t *)line, strlen(line), &said));
    if (length) IS(TORA_ROOM, tora_world_answer(world, text, length - 1, &size));
    IS(TORA_OK, tora_world_answer(world, text, length, &size));
    if (said != length || size != length || memcmp(text, wanted, length) != 0) {
        failures++;
        printf("%s: the answer is %.*s, and not %s\n", line, (int)size, (const char *)text, wanted);
    }
}

static const char FIRST_STEP[] = "sent 1 2 1 28\nsent 1 2 2 28\nsent 2 1 3 28\nsent 2 1 4 28\nok\n";

/* What a world answers in turn. */
static void world_answers(tora_world *world) {
    static uint8_t line[TORA_LONGEST_LINE + 1];
    size_t size = 7;
    IS(TORA_OK, tora_world_answer(world, NULL, 0, &size));
    IS(0, (uint32_t)size);
    line_is(world, "", "fault 1 the first line is `dests LIST`, the destinations\n");
    line_is(world, "dests 2", "ok\n");
    line_is(world, "link 1 2", "ok\n");
    line_is(world, "step", FIRST_STEP);
    line_is(world, "deliver 5", "refused 3\n");
    line_is(world, "deliver 1\n", "fault 6 it is no line that may stand here\n");
    line_is(world, "forget 1", "ok\n");
    line_is(world, "deliver 1", "refused 3\n");
    memset(line, ' ', sizeof line);
    IS(TORA_OK, tora_world_line(world, line, sizeof line, &size));
    IS(42, (uint32_t)size);
}

/* Worlds that are refused, and two that are not. */
static void worlds(void) {
    const tora_times times = TORA_STANDARD_TIMES, quick = {1, 2, 1, 1};
    tora_world world = TORA_WORLD_NULL;
    all_world_calls_are_null(&world);
    IS(TORA_CHOICE, tora_world_new(&world, 2, TORA_PLAIN, &times));
    IS(TORA_CHOICE, tora_world_new(&world, TORA_LARGE_LIMITS, 2, &times));
    all_world_calls_are_null(&world);
    IS(TORA_OK, tora_world_new(&world, TORA_LARGE_LIMITS, TORA_REMEMBERED, &quick));
    line_is(&world, "dests 2", "ok\n");
    IS(TORA_OK, tora_world_new(&world, TORA_STANDARD_LIMITS, TORA_PLAIN, &times));
    world_answers(&world);
    tora_world_free(&world);
    all_world_calls_are_null(&world);
}

/* As `uses`, of a world: one whose line was refused memory is as it was made. */
static int uses_world(long after) {
    static const char *const LINES[] = {"dests 2", "link 1 2", "step", "deliver 1", "step"};
    const tora_times times = TORA_STANDARD_TIMES;
    tora_world world = TORA_WORLD_NULL;
    size_t at = 0, size = 7;
    uint32_t code;
    left = after;
    code = tora_world_new(&world, TORA_STANDARD_LIMITS, TORA_PLAIN, &times);
    if (code != TORA_OK && world.at) failures++;
    for (; code == TORA_OK && at < sizeof LINES / sizeof *LINES; at++)
        code = tora_world_line(&world, (const uint8_t *)LINES[at], strlen(LINES[at]), &size);
    left = -1;
    if (code != TORA_OK && code != TORA_MEMORY) failures++;
    if (code == TORA_MEMORY && world.at) world_answers(&world);
    tora_world_free(&world);
    return code == TORA_OK;
}

int main(void) {
    tora_core core = TORA_CORE_NULL, other = TORA_CORE_NULL;
    uint8_t text[16];
    size_t size;
    long after = 0, after_router = 0, after_world = 0;
    if (tora_abi_version() != TORA_ABI_VERSION) failures++;
    IS(TORA_ROOM, tora_version(text, 1, &size));
    IS(TORA_OK, tora_version(text, sizeof text, &size));
    all_are_null(&core);
    IS(TORA_CHOICE, tora_core_new(&core, 3, LINKS, 2, TABLE, 2, 2));
    IS(TORA_ZERO, tora_core_new(&core, 0, LINKS, 2, TABLE, 2, TORA_PLAIN));
    IS(TORA_OWN_ID, tora_core_new(&core, 2, LINKS, 2, TABLE, 2, TORA_PLAIN));
    all_are_null(&core);
    IS(TORA_OK, tora_core_new(&core, 3, NULL, 0, NULL, 0, TORA_PLAIN));
    IS(TORA_OK, tora_core_new(&core, 3, LINKS, 2, TABLE, 2, TORA_REMEMBERED));
    answers(&core);
    IS(TORA_OK, tora_core_clone(&core, &other));
    tora_core_free(&core);
    all_are_null(&core);
    IS(TORA_OK, tora_core_link_down(&other, 2, 3));
    tora_core_free(&other);
    routers();
    worlds();
    while (!uses(after)) after++;
    while (!uses_router(after_router)) after_router++;
    while (!uses_world(after_world)) after_world++;
    printf("calls: %ld allocations are refused in turn, %d failures\n", after + after_router + after_world, failures);
    return failures != 0;
}
