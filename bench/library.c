/* SPDX-License-Identifier: MIT */
/* Times calls of libtora, for bench/library.sh; each line is a name and nanoseconds an operation.
 *
 *   library router N           a HELLO out of one router and into another; and each datagram of queries that two
 *                              exchange
 *   library core N             an update that changes no height, as the mix core-quiet of `tora_bench`: 8 neighbours,
 *                              16 destinations
 *   library world FILE         a line of FILE by a large tora_world, with its answer
 *   library pipe FILE PROGRAM  the same line by `PROGRAM drive --large` over two pipes; the answer is read before the
 *                              next line
 */
#define _POSIX_C_SOURCE 200809L
#include <stdio.h>
#include <stdlib.h>
#include <string.h>
#include <time.h>
#include <tora.h>
#include <unistd.h>

static void must(int holds, const char *what) {
    if (holds) return;
    fprintf(stderr, "library: %s\n", what);
    exit(1);
}

static double nanoseconds(void) {
    struct timespec now;
    clock_gettime(CLOCK_MONOTONIC, &now);
    return 1e9 * (double)now.tv_sec + (double)now.tv_nsec;
}

/* ---- routers */

/* Hands each datagram of one router to the other, and answers how many there were. */
static long carried(tora_router *from, tora_router *to, uint32_t sender, uint64_t now) {
    uint8_t bytes[TORA_LONGEST_DATAGRAM];
    uint32_t peer, intake;
    size_t length;
    long count = 0;
    while (tora_router_poll_datagram(from, now, &peer, bytes, sizeof bytes, &length) == TORA_OK) {
        must(tora_router_datagram(to, sender, bytes, length, now, &intake) == TORA_OK, "a datagram is not taken");
        count++;
    }
    return count;
}

static long exchanged(tora_router *one, tora_router *two, uint64_t now) {
    long count = 0, more;
    do {
        more = carried(one, two, 1, now) + carried(two, one, 2, now);
        count += more;
    } while (more > 0);
    return count;
}

/* Two routers with 64 destinations, whose link is up. */
static void make_routers(tora_router *one, tora_router *two) {
    const tora_times times = TORA_STANDARD_TIMES;
    const uint32_t first = 1, second = 2;
    uint32_t table[64], place;
    for (place = 0; place < 64; place++) table[place] = 3 + place;
    must(tora_router_new(one, 1, &second, 1, table, 64, TORA_PLAIN, &times, 1) == TORA_OK, "there is no router");
    must(tora_router_new(two, 2, &first, 1, table, 64, TORA_PLAIN, &times, 1) == TORA_OK, "there is no router");
    tora_router_tick(one, 0);
    tora_router_tick(two, 0);
    exchanged(one, two, 0);
}

static void time_routers(long count) {
    tora_router one = TORA_ROUTER_NULL, two = TORA_ROUTER_NULL;
    double start, passed = 0;
    uint64_t now = 0;
    long done = 0;
    uint32_t d;
    make_routers(&one, &two);
    start = nanoseconds();
    while (done < count) {
        now += 10;
        done += carried(&one, &two, 1, now) + carried(&two, &one, 2, now);
    }
    printf("router-hello %.2f\n", (nanoseconds() - start) / (double)done);
    for (done = 0; done < count;) {
        make_routers(&one, &two);
        start = nanoseconds();
        for (d = 3; d < 67; d++) {
            must(tora_router_need(&one, d, 1) == TORA_OK, "a need is refused");
            done += exchanged(&one, &two, 1);
        }
        passed += nanoseconds() - start;
    }
    printf("router-query %.2f\n", passed / (double)done);
    tora_router_free(&one);
    tora_router_free(&two);
}

/* ---- a core */

#define UPDATES 420 /* 12 destinations, 5 values of delta, 7 neighbours */

static void put(uint8_t *at, uint32_t number) {
    at[0] = (uint8_t)(number >> 24);
    at[1] = (uint8_t)(number >> 16);
    at[2] = (uint8_t)(number >> 8);
    at[3] = (uint8_t)number;
}

/* The update of neighbour `k` of a height (0,0,0,delta,k). */
static void update(uint8_t *bytes, uint32_t d, uint32_t delta, uint32_t k) {
    memset(bytes, 0, 32);
    bytes[0] = 1;
    bytes[1] = 2;
    put(bytes + 4, d);
    put(bytes + 24, delta);
    put(bytes + 28, k);
}

/* A core whose heights for the destinations 9 to 20 are one above those of neighbour 1. */
static void make_core(tora_core *core) {
    uint32_t neighbours[8], table[16], k, d;
    uint8_t bytes[32];
    for (k = 0; k < 8; k++) neighbours[k] = 1 + k;
    for (d = 0; d < 16; d++) table[d] = 5 + d;
    must(tora_core_new(core, 100, neighbours, 8, table, 16, TORA_PLAIN) == TORA_OK, "there is no core");
    for (k = 1; k < 9; k++) tora_core_link_up(core, k, 0);
    for (d = 9; d < 21; d++) {
        update(bytes, d, 1, 1);
        must(tora_core_need(core, d, 0) == TORA_OK, "a need is refused");
        must(tora_core_packet(core, 1, bytes, 32, 0) == TORA_OK, "an update is refused");
    }
}

static void time_core(long count) {
    static uint8_t bytes[UPDATES][32];
    tora_core core = TORA_CORE_NULL;
    size_t sent, all = 0;
    double start;
    long i;
    make_core(&core);
    for (i = 0; i < UPDATES; i++)
        update(bytes[i], 9 + (uint32_t)(i % 12), 2 + (uint32_t)(i % 5), 2 + (uint32_t)(i % 7));
    start = nanoseconds();
    for (i = 0; i < count; i++) {
        const uint8_t *next = bytes[i % UPDATES];
        must(tora_core_packet(&core, next[31], next, 32, 1) == TORA_OK, "an update is refused");
        tora_core_sent_count(&core, &sent);
        all += sent;
    }
    printf("core-quiet %.2f\n", (nanoseconds() - start) / (double)count);
    must(all == 0, "an update changed a height");
    tora_core_free(&core);
}

/* ---- lines */

/* The lines of a file, each ended by LF; the caller frees them. */
static char *lines_of(const char *path, size_t *length) {
    FILE *file = fopen(path, "rb");
    char *text;
    must(file != NULL, "the file cannot be opened");
    fseek(file, 0, SEEK_END);
    *length = (size_t)ftell(file);
    rewind(file);
    text = malloc(*length + 1);
    must(text != NULL && fread(text, 1, *length, file) == *length, "the file cannot be read");
    fclose(file);
    return text;
}

static void time_world(const char *path) {
    static uint8_t answer[1 << 20];
    const tora_times times = TORA_STANDARD_TIMES;
    tora_world world = TORA_WORLD_NULL;
    size_t length, told, all = 0;
    char *text = lines_of(path, &length), *line, *end;
    long count = 0;
    double start = nanoseconds();
    must(tora_world_new(&world, TORA_LARGE_LIMITS, TORA_PLAIN, &times) == TORA_OK, "there is no world");
    for (line = text; (end = memchr(line, '\n', (size_t)(text + length - line))) != NULL; line = end + 1) {
        must(tora_world_line(&world, (const uint8_t *)line, (size_t)(end - line), &told) == TORA_OK, "a line fails");
        must(tora_world_answer(&world, answer, sizeof answer, &told) == TORA_OK, "an answer is too long");
        all += told;
        count++;
    }
    tora_world_free(&world);
    printf("world-line %.2f\n", (nanoseconds() - start) / (double)count);
    fprintf(stderr, "%ld lines, %zu bytes of answers\n", count, all);
    free(text);
}

/* Reads an answer, whose last line is `ok`, `refused N` or `fault N CAUSE`. */
static void read_answer(FILE *from, char **room, size_t *size) {
    do must(getline(room, size, from) > 0, "the program answers no more");
    while (strcmp(*room, "ok\n") != 0 && strncmp(*room, "refused ", 8) != 0 && strncmp(*room, "fault ", 6) != 0);
}

static void time_pipe(const char *path, const char *program) {
    int to[2], from[2];
    size_t length, size = 0;
    char *text = lines_of(path, &length), *line, *end, *room = NULL;
    long count = 0;
    double start = nanoseconds();
    FILE *answers;
    must(pipe(to) == 0 && pipe(from) == 0, "there is no pipe");
    if (fork() == 0) {
        dup2(to[0], 0);
        dup2(from[1], 1);
        close(to[1]);
        close(from[0]);
        execl(program, program, "drive", "--large", (char *)NULL);
        _exit(127);
    }
    close(to[0]);
    close(from[1]);
    answers = fdopen(from[0], "r");
    must(answers != NULL && getline(&room, &size, answers) > 0, "the program does not greet");
    for (line = text; (end = memchr(line, '\n', (size_t)(text + length - line))) != NULL; line = end + 1) {
        size_t part = (size_t)(end + 1 - line);
        must(write(to[1], line, part) == (ssize_t)part, "a line cannot be written");
        read_answer(answers, &room, &size);
        count++;
    }
    close(to[1]);
    printf("drive-line %.2f\n", (nanoseconds() - start) / (double)count);
    fclose(answers);
    free(room);
    free(text);
}

int main(int count, char **words) {
    if (count == 3 && strcmp(words[1], "router") == 0) time_routers(atol(words[2]));
    else if (count == 3 && strcmp(words[1], "core") == 0) time_core(atol(words[2]));
    else if (count == 3 && strcmp(words[1], "world") == 0) time_world(words[2]);
    else if (count == 4 && strcmp(words[1], "pipe") == 0) time_pipe(words[2], words[3]);
    else must(0, "usage: library router N | core N | world FILE | pipe FILE PROGRAM");
    return 0;
}
