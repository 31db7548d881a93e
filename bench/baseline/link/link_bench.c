/* SPDX-License-Identifier: MIT
 *
 * Small packets over the loopback, reliable and in order, from one process to another. The receiver checks the numbers.
 * usage: link_bench MODE PACKETS
 *   enet   a reliable channel of ENet, in ENet's batches
 *   tcp    TCP without delay, a write for each packet; the receiver reads what is there
 *   sw     a DATA frame of 76 bytes and an ACK of 36 bytes for each packet, one packet under way
 *   w32    the same frames, up to 32 packets under way, an ACK for every DATA frame
 * It prints packets per second, microseconds per packet, and processor time of both processes per packet.
 * build: gcc -O2 -o link_bench link_bench.c -lenet     (Debian: libenet-dev)
 */
#define _GNU_SOURCE
#include <arpa/inet.h>
#include <enet/enet.h>
#include <netinet/tcp.h>
#include <stdint.h>
#include <stdio.h>
#include <stdlib.h>
#include <string.h>
#include <sys/mman.h>
#include <sys/resource.h>
#include <sys/socket.h>
#include <sys/wait.h>
#include <time.h>
#include <unistd.h>
enum { PK = 32, DATA = 76, ACK = 36 };
static double now(void) {
    struct timespec t;
    clock_gettime(CLOCK_MONOTONIC, &t);
    return t.tv_sec + t.tv_nsec * 1e-9;
}
static void die(const char *s) {
    perror(s);
    exit(1);
}
static int pa, pb; /* ports */
static struct sockaddr_in addr(int p) {
    struct sockaddr_in a = {0};
    a.sin_family = AF_INET;
    a.sin_port = htons(p);
    a.sin_addr.s_addr = htonl(INADDR_LOOPBACK);
    return a;
}
static int usock(int p) {
    int s = socket(AF_INET, SOCK_DGRAM, 0);
    struct sockaddr_in a = addr(p);
    if (bind(s, (void *)&a, sizeof a))
        die("bind");
    struct timeval tv = {0, 100000};
    setsockopt(s, SOL_SOCKET, SO_RCVTIMEO, &tv, sizeof tv);
    return s;
}
static void put(unsigned char *b, uint64_t n) {
    memcpy(b, &n, 8);
}
static uint64_t get(const unsigned char *b) {
    uint64_t n;
    memcpy(&n, b, 8);
    return n;
}
struct shared {
    volatile double done;
    volatile uint64_t got;
    volatile int ready;
} * sh;

/* The receiver has all packets. */
static void done(uint64_t got) {
    sh->got = got;
    sh->done = now();
}
/* The packet has the number that is expected. */
static void check(const unsigned char *b, uint64_t number) {
    if (get(b) != number) {
        fprintf(stderr, "order\n");
        exit(1);
    }
}

/* ---- frames over UDP, w packets under way ---- */
static void arq_send(long n, int w) {
    int s = usock(pa);
    struct sockaddr_in to = addr(pb);
    unsigned char b[2048];
    uint64_t base = 0, next = 0;
    double last = now();
    while (base < (uint64_t)n) {
        while (next < (uint64_t)n && next < base + w) {
            memset(b, 1, DATA);
            put(b + 44, ++next);
            sendto(s, b, DATA, 0, (void *)&to, sizeof to);
        }
        ssize_t r = recv(s, b, sizeof b, 0);
        if (r == ACK) {
            uint64_t a = get(b + 28);
            if (a > base) {
                base = a;
                last = now();
            }
        } else if (now() - last > 0.5) {
            next = base;
            last = now();
        }
    }
    close(s);
}
static void arq_recv(long n) {
    int s = usock(pb);
    struct sockaddr_in to = addr(pa);
    unsigned char b[2048];
    uint64_t a = 0;
    sh->ready = 1;
    while (a < (uint64_t)n) {
        ssize_t r = recv(s, b, sizeof b, 0);
        if (r != DATA)
            continue;
        uint64_t k = get(b + 44);
        if (k == a + 1)
            a++;
        put(b + 28, a);
        sendto(s, b, ACK, 0, (void *)&to, sizeof to);
    }
    done(a);
    double t = now();
    while (now() - t < 0.05) {
        ssize_t r = recv(s, b, sizeof b, MSG_DONTWAIT);
        if (r == DATA) {
            put(b + 28, a);
            sendto(s, b, ACK, 0, (void *)&to, sizeof to);
        } else
            usleep(1000);
    }
    close(s);
}
/* ---- TCP ---- */
static int tcp_listen(void) {
    int l = socket(AF_INET, SOCK_STREAM, 0), one = 1;
    setsockopt(l, SOL_SOCKET, SO_REUSEADDR, &one, sizeof one);
    struct sockaddr_in a = addr(pb);
    if (bind(l, (void *)&a, sizeof a))
        die("bind");
    listen(l, 1);
    return l;
}
static int tcp_conn(void) {
    int s = socket(AF_INET, SOCK_STREAM, 0), one = 1;
    struct sockaddr_in a = addr(pb);
    if (connect(s, (void *)&a, sizeof a))
        die("connect");
    setsockopt(s, IPPROTO_TCP, TCP_NODELAY, &one, sizeof one);
    return s;
}
static void tcp_send(long n) {
    int s = tcp_conn();
    unsigned char b[PK] = {0};
    for (long i = 1; i <= n; i++) {
        put(b, i);
        if (write(s, b, PK) != PK)
            die("write");
    }
    if (read(s, b, 1) != 1)
        die("read");
    close(s);
}
static void tcp_recv(long n) {
    int l = tcp_listen();
    sh->ready = 1;
    int s = accept(l, 0, 0);
    unsigned char b[65536];
    uint64_t got = 0;
    size_t have = 0;
    while (got < (uint64_t)n) {
        ssize_t r = read(s, b + have, sizeof b - have);
        if (r <= 0)
            die("read");
        have += r;
        size_t at = 0;
        for (; have - at >= PK; at += PK)
            check(b + at, ++got);
        memmove(b, b + at, have - at);
        have -= at;
    }
    done(got);
    if (write(s, b, 1) != 1)
        die("write");
    close(s);
    close(l);
}

/* ---- ENet ---- */
static ENetHost *ehost(int p) {
    ENetAddress a;
    enet_address_set_host(&a, "127.0.0.1");
    a.port = p;
    ENetHost *h = enet_host_create(&a, 1, 1, 0, 0);
    if (!h)
        die("enet");
    return h;
}
static ENetPeer *econn(ENetHost *h) {
    ENetAddress a;
    enet_address_set_host(&a, "127.0.0.1");
    a.port = pb;
    ENetPeer *p = enet_host_connect(h, &a, 1, 0);
    ENetEvent e;
    if (enet_host_service(h, &e, 3000) <= 0 || e.type != ENET_EVENT_TYPE_CONNECT)
        die("connect");
    return p;
}
static void enet_send(long n) {
    ENetHost *h = ehost(pa);
    ENetPeer *p = econn(h);
    unsigned char b[PK] = {0};
    ENetEvent e;
    for (long i = 1; i <= n; i++) {
        put(b, i);
        enet_peer_send(p, 0, enet_packet_create(b, PK, ENET_PACKET_FLAG_RELIABLE));
        if (i % 64 == 0)
            for (;;) {
                if (enet_host_service(h, &e, 0) < 0)
                    die("enet");
                if (enet_list_size(&p->outgoingCommands) < 4096)
                    break;
                enet_host_service(h, &e, 1);
            }
    }
    do {
        e.type = ENET_EVENT_TYPE_NONE;
        enet_host_service(h, &e, 1);
    } while (e.type != ENET_EVENT_TYPE_RECEIVE && e.type != ENET_EVENT_TYPE_DISCONNECT);
    enet_host_destroy(h);
}
static void enet_recv(long n) {
    ENetHost *h = ehost(pb);
    sh->ready = 1;
    ENetEvent e;
    uint64_t got = 0;
    unsigned char b[1] = {0};
    while (got < (uint64_t)n)
        if (enet_host_service(h, &e, 100) > 0 && e.type == ENET_EVENT_TYPE_RECEIVE) {
            check(e.packet->data, ++got);
            enet_packet_destroy(e.packet);
        }
    done(got);
    enet_peer_send(&h->peers[0], 0, enet_packet_create(b, 1, ENET_PACKET_FLAG_RELIABLE));
    for (double t = now(); now() - t < 0.1;)
        enet_host_service(h, &e, 5);
    enet_host_destroy(h);
}

/* ---- the modes ---- */
static void sw_send(long n) {
    arq_send(n, 1);
}
static void w32_send(long n) {
    arq_send(n, 32);
}
static const struct mode {
    const char *name;
    void (*send)(long), (*receive)(long);
} modes[] = {{"enet", enet_send, enet_recv},
             {"tcp", tcp_send, tcp_recv},
             {"sw", sw_send, arq_recv},
             {"w32", w32_send, arq_recv}};

static double cpu(int who) {
    struct rusage r;
    getrusage(who, &r);
    return r.ru_utime.tv_sec + r.ru_stime.tv_sec + (r.ru_utime.tv_usec + r.ru_stime.tv_usec) * 1e-6;
}
/* Runs the receiver in a process of its own, and prints what was measured. */
static int run(const struct mode *m, long n) {
    pid_t k = fork();
    if (!k) {
        m->receive(n);
        _exit(0);
    }
    while (!sh->ready)
        usleep(500);
    usleep(20000);
    double t = now(), before = cpu(RUSAGE_SELF);
    m->send(n);
    int status;
    waitpid(k, &status, 0);
    if (status)
        return 1;
    double seconds = sh->done - t, spent = cpu(RUSAGE_SELF) - before + cpu(RUSAGE_CHILDREN);
    printf("%-7s %9.0f packets/s  %6.2f us/packet  cpu %6.2f us/packet  got %llu/%ld\n", m->name, sh->got / seconds,
           seconds / sh->got * 1e6, spent / sh->got * 1e6, (unsigned long long)sh->got, n);
    return 0;
}
int main(int c, char **v) {
    long n = c == 3 ? atol(v[2]) : 0;
    pa = 20000 + getpid() % 20000;
    pb = pa + 1;
    sh = mmap(0, sizeof *sh, PROT_READ | PROT_WRITE, MAP_SHARED | MAP_ANONYMOUS, -1, 0);
    if (sh == MAP_FAILED || enet_initialize())
        die("start");
    for (size_t i = 0; n > 0 && i < sizeof modes / sizeof *modes; i++)
        if (!strcmp(v[1], modes[i].name))
            return run(&modes[i], n);
    fprintf(stderr, "usage: link_bench enet|tcp|sw|w32 PACKETS\n");
    return 2;
}
