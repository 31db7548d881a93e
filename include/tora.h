/* SPDX-License-Identifier: MIT */
/*
 * tora.h - a node of TORA, as a library without sockets, threads or clocks
 *
 * LINK
 *   cc program.c $(pkg-config --cflags --libs tora)
 *
 * WHICH OF THE THREE
 *   A `tora_router` is a whole node: the rules, and a link end for each neighbour. Its host carries datagrams, which
 *   may be lost, repeated, reordered and delayed. A `tora_core` is the rules alone, for a host whose links lose
 *   nothing, keep the order, and tell when they come up and go down. A `tora_world` is a simulated network, which
 *   its host controls by lines.
 *
 * A ROUTER
 *   A `tora_router` keeps the heights and next hops of its node, and finds out itself which of its neighbours are
 *   there: it sends HELLOs, numbers its packets, sends again what is not acknowledged, and takes a link down where
 *   nothing is heard. It takes in what happens, one after the other: a datagram came, time passed, a route is
 *   needed, a link was lost. Then it gives out the datagrams to be sent, each for one neighbour, and what changed.
 *   Whatever comes in is worked off before a call returns. Only `tora_router_new` and `tora_router_show` take
 *   memory.
 *
 * ORDER OF CALLS OF A ROUTER
 *   tora_router router = TORA_ROUTER_NULL;
 *   tora_router_new(&router, ..);                 once, and then again and again, with the tick `now`:
 *   tora_router_datagram(&router, peer, ..);      1. each datagram that came;
 *   tora_router_tick(&router, now);               2. the tick, at the tick of `tora_router_next_due` at the latest;
 *   tora_router_need(&router, d, now);            3. where a route is wanted,
 *   tora_router_cut(&router, peer, now);             or a link was lost;
 *   tora_router_poll_datagram(&router, now, ..);  4. until it answers TORA_ABSENT: send each of them;
 *   tora_router_poll_change(&router, ..);         5. until it answers TORA_ABSENT: what changed, where that matters;
 *   tora_router_next_due(&router, &tick);         6. wait until that tick, or until a datagram comes.
 *   tora_router_free(&router);                    in the end
 *   Any other order is safe. The readers stand anywhere.
 *
 * WHAT THE HOST OF A ROUTER OWES
 *   - Numbers of nodes are distinct, and two nodes that hear each other are neighbours of each other.
 *   - A datagram that is handed in as one of `peer` was given out by the router of `peer` for this node. It may be
 *     lost, come late, twice, or in any order; none is invented or changed. Other bytes are refused where they spell
 *     no frame of this link, but nothing tells a forged frame.
 *   - Life numbers: each time a link opens, the router gives it a number that it never gave before. A router that is
 *     made anew for the same node starts at a number that was never reached: `tora_router_next_life` says it. Keep
 *     it where it outlives the program, before the datagrams of that life are sent.
 *
 * A CORE
 *   A `tora_core` keeps a node's own height for each destination of its table, the heights that its neighbours
 *   told, and which links are up. It takes inputs, one after the other: a link came up, a link went down, a packet
 *   came from a neighbour, a route is needed. Each has the moment at which it came. After an input that was not
 *   refused it has a list of packets: the host broadcasts each of them to every neighbour whose link is up. The
 *   library sends nothing itself.
 *
 * ORDER OF CALLS OF A CORE
 *   tora_core core = TORA_CORE_NULL;
 *   tora_core_new(&core, ..);                     once
 *   tora_core_link_up(&core, k, now);             and each further input, then
 *   tora_core_sent_count(&core, &count);          the packets of that input,
 *   tora_core_sent(&core, place, ..);             before the next one; the readers at any time
 *   tora_core_free(&core);                        in the end
 *
 * A WORLD
 *   A `tora_world` is a simulated network: nodes, links, life files, and datagrams that come late, twice or never. It
 *   takes the lines of `tora drive`, and answers each with the same bytes; formats.md, "External control", defines
 *   them. A line that is refused or a fault has an answer that says so, and is no error of the call. The memory of a
 *   world grows with the lines.
 *
 * ORDER OF CALLS OF A WORLD
 *   tora_world world = TORA_WORLD_NULL;
 *   tora_world_new(&world, ..);                   once
 *   tora_world_line(&world, line, ..);            a line, which keeps its answer until the next one, and
 *   tora_world_answer(&world, ..);                that answer, as often as it is wanted
 *   tora_world_free(&world);                      in the end
 *
 * UNITS
 *   `now`, `tau` and times count ticks of 100 ms, from any start. `now` should not fall from one call to the next; a
 *   handle is safe where it does. The number of a node is from 1 to 2^32 - 1, a life number from 1 to 2^62. Lengths
 *   and rooms are in bytes, places count from 0.
 *   The bytes of a packet are 8 (a query), 32 (an update) or 20 (a clear), in network byte order. A datagram has at
 *   most 560.
 *
 * OWNERSHIP
 *   A `tora_core`, `tora_router` or `tora_world` holds one pointer, and is made, read and freed by these calls
 *   alone. It begins as TORA_CORE_NULL, TORA_ROUTER_NULL or TORA_WORLD_NULL. What it holds is freed by
 *   `tora_core_free`, `tora_router_free` or `tora_world_free`, which leaves it null, and by a call that puts another
 *   one in its place. A copy of the struct is no second core, router or world: never use both copies
 *   (`tora_core_clone` makes a second core). The library keeps no pointer to what a caller hands in, and memory
 *   comes from `malloc`, `realloc` and `free`.
 *
 * ERRORS
 *   Each call answers a code, TORA_OK (0) where it did what it says; `tora_abi_version` answers a version, and the
 *   three that free answer nothing. Where a call answers another code it changed nothing: neither what the handle
 *   holds nor what the pointers lead to, but for the `length` of TORA_ROOM, and for the world of a line for which
 *   there is not enough memory. A handle that is null is answered by TORA_NULL, also after it was freed. Each call
 *   names its codes in the order in which they are tested. A pointer is never NULL, but that to an array may be where
 *   its count is 0. What pointers lead to does not overlap.
 *
 * THREADS
 *   The library has no state of its own. Threads may use different handles at once. One handle is used by one thread
 *   at a time; it may go to another thread by whatever orders the two, as a lock. No call is made from a signal
 *   handler.
 *
 * PROVED
 *   For any calls with pointers as above: what each call answers and changes is what the rules of TORA, of its links
 *   and of simulated worlds say, no memory is read or written outside of what it is given, nothing overflows, and
 *   each call ends. The header itself, the C compiler and the C library are not part of the proof.
 */
#ifndef TORA_H
#define TORA_H

#include <stddef.h>
#include <stdint.h>

#ifdef __cplusplus
extern "C" {
#endif

/* The version of these calls and structs. It rises where one is changed or goes, and not where one comes. */
#define TORA_ABI_VERSION 1u

/* Codes. They keep their numbers. */
#define TORA_OK 0u                    /* it is done */
#define TORA_MEMORY 1u                /* there is not enough memory */
#define TORA_TOO_MANY 2u              /* more than 255 neighbours, or more than 64 destinations */
#define TORA_REPEATED 3u              /* a neighbour or a destination is named twice */
#define TORA_OWN_ID 4u                /* the node itself is among its neighbours */
#define TORA_NULL 5u                  /* the handle is null */
#define TORA_ZERO 6u                  /* the number of a node is 0 */
#define TORA_CHOICE 7u                /* there is no such choice */
#define TORA_ABSENT 8u                /* there is none: a height that is NULL, no next hop, no packet at this place */
#define TORA_ROOM 9u                  /* the buffer is too short; `length` says what is needed */
#define TORA_UNKNOWN 10u              /* the table does not have the destination, or the link is not up */
#define TORA_UNKNOWN_NEIGHBOUR 11u    /* the input is refused: the node is no neighbour */
#define TORA_ALREADY_UP 12u           /* the input is refused: the link that comes up is up */
#define TORA_NOT_UP 13u               /* the input is refused: the link is not up */
#define TORA_WRONG_SENDER 14u         /* the input is refused: the height of the update is not that of its sender */
#define TORA_UNKNOWN_DESTINATION 15u  /* the input is refused: the table does not have the needed destination */
#define TORA_LIFE 16u                 /* the first life number is 0 or above 2^62 */
#define TORA_PACKET_SHORT 21u         /* the bytes spell no packet: there are too few */
#define TORA_PACKET_LONG 22u          /* .. there are too many */
#define TORA_PACKET_VERSION 23u       /* .. the version is not 1 */
#define TORA_PACKET_KIND 24u          /* .. the kind is not 1, 2 or 3 */
#define TORA_PACKET_RESERVED 25u      /* .. a byte that has to be zero is not */
#define TORA_PACKET_HEIGHT 26u        /* .. the destination, the height or the level is out of range */

/* What becomes of erased reference levels. Nodes of both choices may be neighbours: their packets are the same. */
#define TORA_PLAIN 0u       /* a clear erases heights of its level (the default of the program) */
#define TORA_REMEMBERED 1u  /* an update of the level that was erased last is withdrawn, too */

/* How large a world may be: nodes, neighbours of a node, and destinations. */
#define TORA_STANDARD_LIMITS 0u  /* 64, 32 and 64 */
#define TORA_LARGE_LIMITS 1u     /* 1024, 255 and 64, as `tora drive --large` */

/* The longest line of a world that is no fault, in bytes. */
#define TORA_LONGEST_LINE 4096u

/* The longest packet, in bytes. */
#define TORA_LONGEST_PACKET 32u

/* The longest datagram, in bytes. */
#define TORA_LONGEST_DATAGRAM 560u

/* A core, or null. */
typedef struct {
    void *at;
} tora_core;

#define TORA_CORE_NULL { NULL }

/* A router, or null. */
typedef struct {
    void *at;
} tora_router;

#define TORA_ROUTER_NULL { NULL }

/* A driven world, or null. */
typedef struct {
    void *at;
} tora_world;

#define TORA_WORLD_NULL { NULL }

/* A height. Of two, the lower one is the first in the order of tau, oid, r, delta and id. */
typedef struct {
    uint64_t tau;   /* when the reference level was defined, in ticks; 0 for the level of the destination */
    uint32_t oid;   /* the node that defined it; 0 with a tau of 0 */
    uint32_t r;     /* 0 for an original level, 1 for a reflected one */
    int32_t delta;  /* the order within the level */
    uint32_t id;    /* the node whose height it is */
} tora_height;

/* The times of links. A part that is 0 stands for the standard one. */
typedef struct {
    uint64_t hello;   /* how many ticks after a HELLO the next one is due; standard: 10 */
    uint64_t silent;  /* after how many ticks without hearing the neighbour a link goes down; standard: 50 */
    uint64_t retry;   /* how many ticks after its last try a packet is due again, or is given up; standard: 5 */
    uint64_t tries;   /* how many times a packet is sent before it is given up; standard: 8 */
} tora_times;

#define TORA_STANDARD_TIMES { 0, 0, 0, 0 }

/* What a router made of a datagram. */
#define TORA_INTAKE_ACCEPTED 1u        /* it told something new, or was a HELLO of the life */
#define TORA_INTAKE_REPEATED 2u        /* it told nothing new */
#define TORA_INTAKE_AHEAD 3u           /* its packets came before one with a lesser number, which they wait for */
#define TORA_INTAKE_STALE 4u           /* it is of another life, or the link is closed */
#define TORA_INTAKE_FOREIGN 5u         /* it is a frame that this neighbour never sends to this node */
#define TORA_INTAKE_BUSY 6u            /* it was not looked at, since too many events wait */
#define TORA_INTAKE_SHORT 11u          /* its bytes spell no frame: there are too few */
#define TORA_INTAKE_LONG 12u           /* .. there are too many */
#define TORA_INTAKE_VERSION 13u        /* .. the version is neither 1 nor 2 */
#define TORA_INTAKE_KIND 14u           /* .. the kind is not 1, 2 or 3 */
#define TORA_INTAKE_LENGTH 15u         /* .. the length of the payload is none that the kind has */
#define TORA_INTAKE_ID 16u             /* .. the sender or the receiver is 0, or the two are equal */
#define TORA_INTAKE_LIFE 17u           /* .. a life number is out of range */
#define TORA_INTAKE_NUMBER 18u         /* .. the number of a packet or a count of packets is out of range */
#define TORA_INTAKE_PACKET 19u         /* .. the bytes of a packet spell none */
#define TORA_INTAKE_COUNT 20u          /* .. how many packets there are is out of range */
#define TORA_INTAKE_NO_NEIGHBOUR 30u   /* the node that it came from is no neighbour; nothing is changed */

/* What changed at a router. */
#define TORA_CHANGE_LINK_UP 1u    /* the link to a neighbour is up */
#define TORA_CHANGE_LINK_DOWN 2u  /* the link to a neighbour is down */
#define TORA_CHANGE_NEXT_HOP 3u   /* the next hop to a destination is another one, or there is none now */

/* Why a link is down. */
#define TORA_REASON_SILENT 1u    /* the neighbour was not heard, or did not acknowledge a packet */
#define TORA_REASON_NEW_PEER 2u  /* the neighbour began a newer life */
#define TORA_REASON_FULL 3u      /* too many packets waited to be sent */
#define TORA_REASON_CUT 4u       /* the host cut it */
#define TORA_REASON_SPENT 5u     /* the numbers of packets were used up */

/* A change. */
typedef struct {
    uint32_t kind;    /* TORA_CHANGE_LINK_UP, TORA_CHANGE_LINK_DOWN or TORA_CHANGE_NEXT_HOP */
    uint32_t node;    /* the neighbour, or the destination */
    uint32_t hop;     /* of TORA_CHANGE_NEXT_HOP: the next hop, or 0 where there is none; else 0 */
    uint32_t reason;  /* of TORA_CHANGE_LINK_DOWN: TORA_REASON_SILENT to TORA_REASON_SPENT; else 0 */
} tora_change;

/* How many datagrams of a neighbour came to what. Each count stays at 2^64 - 1 once there. */
typedef struct {
    uint64_t accepted;
    uint64_t repeated;
    uint64_t ahead;
    uint64_t stale;
    uint64_t foreign;
    uint64_t busy;
    uint64_t bad;  /* those whose bytes spell no frame */
} tora_tally;

/* The version of the calls of the library that is loaded: TORA_ABI_VERSION where it is that of this header. */
uint32_t tora_abi_version(void);

/*
 * Writes the version of the library, as "1.0.0", and its length. It ends with no zero byte.
 * TORA_ROOM where `room` is less than the length.
 */
uint32_t tora_version(uint8_t *text, size_t room, size_t *length);

/*
 * Makes the core of node `me`: no link is up, and no height is known but that of `me` for itself. The neighbours
 * are those to which there may ever be a link, at most 255; the destinations are at most 64, and `me` may be one.
 * They stand in any order. What `core` held is freed.
 * In this order: TORA_CHOICE, TORA_ZERO, TORA_TOO_MANY, TORA_REPEATED, TORA_OWN_ID, TORA_MEMORY.
 */
uint32_t tora_core_new(tora_core *core, uint32_t me, const uint32_t *neighbours, size_t neighbour_count,
                       const uint32_t *destinations, size_t destination_count, uint32_t erasure);

/* Frees what the core holds, and leaves it null. A core that is null stays so. */
void tora_core_free(tora_core *core);

/*
 * Makes a second core at `out` with the state of `core`, and what it sent last. What `out` held is freed; `out` is
 * another handle than `core`.
 * TORA_NULL where `core` is null, TORA_MEMORY.
 */
uint32_t tora_core_clone(tora_core *core, tora_core *out);

/*
 * The link to neighbour `k` came up at the tick `now`.
 * TORA_NULL, TORA_UNKNOWN_NEIGHBOUR, TORA_ALREADY_UP.
 */
uint32_t tora_core_link_up(tora_core *core, uint32_t k, uint64_t now);

/*
 * The link to neighbour `k` went down at the tick `now`.
 * TORA_NULL, TORA_UNKNOWN_NEIGHBOUR, TORA_NOT_UP.
 */
uint32_t tora_core_link_down(tora_core *core, uint32_t k, uint64_t now);

/*
 * These bytes, all of one packet, came from neighbour `k` at the tick `now`. Between two nodes packets keep their
 * order, and none is lost or repeated while the link is up: the host owes it. A packet for a destination that the
 * table does not have changes nothing, and is no error.
 * TORA_NULL, TORA_PACKET_SHORT to TORA_PACKET_HEIGHT, TORA_UNKNOWN_NEIGHBOUR, TORA_NOT_UP, TORA_WRONG_SENDER.
 */
uint32_t tora_core_packet(tora_core *core, uint32_t k, const uint8_t *bytes, size_t length, uint64_t now);

/*
 * A route to destination `d` is needed at the tick `now`. It stays required until one is found (`tora_core_flag`).
 * From then on the rules mend it where links change. A route that is lost, since no path is left, comes back only
 * after a further need. A need too many sends nothing, and is no error.
 * TORA_NULL, TORA_UNKNOWN_DESTINATION.
 */
uint32_t tora_core_need(tora_core *core, uint32_t d, uint64_t now);

/* How many packets the last input gave that was not refused: at most one for each destination. TORA_NULL. */
uint32_t tora_core_sent_count(tora_core *core, size_t *count);

/*
 * Writes the bytes of one of these packets, and their count. A buffer of TORA_LONGEST_PACKET is long enough for any.
 * TORA_NULL, TORA_ABSENT where there is none at this place, TORA_ROOM.
 */
uint32_t tora_core_sent(tora_core *core, size_t place, uint8_t *bytes, size_t room, size_t *length);

/*
 * Writes the own height for destination `d`.
 * TORA_NULL, TORA_UNKNOWN where the table does not have it, TORA_ABSENT where the height is NULL.
 */
uint32_t tora_core_height(tora_core *core, uint32_t d, tora_height *height);

/*
 * Writes the height that neighbour `k` told for destination `d`.
 * TORA_NULL, TORA_UNKNOWN where the table does not have it or the link is not up, TORA_ABSENT where the height is
 * NULL.
 */
uint32_t tora_core_entry(tora_core *core, uint32_t d, uint32_t k, tora_height *height);

/*
 * Writes the next hop to destination `d`: the downstream neighbour with the lowest height.
 * TORA_NULL, TORA_ABSENT where no neighbour is downstream.
 */
uint32_t tora_core_next_hop(tora_core *core, uint32_t d, uint32_t *hop);

/* Writes 1 where a route to destination `d` is required, and else 0. TORA_NULL. */
uint32_t tora_core_flag(tora_core *core, uint32_t d, uint32_t *flag);

/* Writes 1 where the link to neighbour `k` is up, and else 0. TORA_NULL. */
uint32_t tora_core_is_up(tora_core *core, uint32_t k, uint32_t *up);

/*
 * Writes the whole core as text, and its length: for each destination a line "to D height H flag F hop K", and then
 * one "via K H S" for each neighbour whose link is up, as `tora replay` shows them. It ends with no zero byte. To
 * learn the length alone, hand in a room of 0.
 * TORA_NULL, TORA_MEMORY, TORA_ROOM.
 */
uint32_t tora_core_show(tora_core *core, uint8_t *text, size_t room, size_t *length);

/*
 * Makes the router of node `me`. Neighbours and destinations are those of `tora_core_new`: at most 255 and 64, in any
 * order, and `me` may be a destination. All links are closed until the first tick. Their life numbers are drawn from
 * `first_life` on; the host answers for it that none of these was ever given to a link of this node. What `router`
 * held is freed.
 * TORA_CHOICE, TORA_ZERO, TORA_LIFE, TORA_TOO_MANY, TORA_REPEATED, TORA_OWN_ID, TORA_MEMORY.
 */
uint32_t tora_router_new(tora_router *router, uint32_t me, const uint32_t *neighbours, size_t neighbour_count,
                         const uint32_t *destinations, size_t destination_count, uint32_t erasure,
                         const tora_times *times, uint64_t first_life);

/* Frees what the router holds, and leaves it null. A router that is null stays so. */
void tora_router_free(tora_router *router);

/*
 * These bytes, all of one datagram, came from node `peer` at the tick `now`. Any bytes may be handed in, of any node:
 * `intake` says what was made of them, TORA_INTAKE_ACCEPTED to TORA_INTAKE_NO_NEIGHBOUR.
 * TORA_NULL.
 */
uint32_t tora_router_datagram(tora_router *router, uint32_t peer, const uint8_t *bytes, size_t length, uint64_t now,
                              uint32_t *intake);

/*
 * It is the tick `now`. Each closed link opens with the next life number. A link on which nothing was heard for too
 * long goes down, and so does one on which a packet was not acknowledged in all its tries.
 * TORA_NULL.
 */
uint32_t tora_router_tick(tora_router *router, uint64_t now);

/*
 * A route to destination `d` is needed at the tick `now`, as `tora_core_need` says.
 * TORA_NULL, TORA_UNKNOWN_DESTINATION.
 */
uint32_t tora_router_need(tora_router *router, uint32_t d, uint64_t now);

/*
 * The link to neighbour `peer` was lost at the tick `now`, as where the radio says so: its life ends, if it has one.
 * The next tick opens the link anew. Without this call the link goes down once nothing was heard for long enough.
 * TORA_NULL, TORA_UNKNOWN_NEIGHBOUR.
 */
uint32_t tora_router_cut(tora_router *router, uint32_t peer, uint64_t now);

/*
 * Writes the next datagram to be sent at the tick `now`, its length, and the neighbour that it is for. The datagram
 * counts as sent; one that the host does not send is one that was lost.
 * TORA_NULL, TORA_ROOM where `room` is less than TORA_LONGEST_DATAGRAM, whether one is due or not, TORA_ABSENT where
 * none is due.
 */
uint32_t tora_router_poll_datagram(tora_router *router, uint64_t now, uint32_t *peer, uint8_t *bytes, size_t room,
                                   size_t *length);

/*
 * Writes what changed and was not told yet: at a link first, and then a next hop. Of each link the last change is
 * told, and of each destination the next hop, where it is another one than was told last; at first there is none.
 * TORA_NULL, TORA_ABSENT where all was told.
 */
uint32_t tora_router_poll_change(tora_router *router, tora_change *change);

/*
 * Writes the tick before which no datagram is due and a tick changes nothing, unless something else happens at the
 * router, and from which on one does: 0 where one does at once, 2^64 - 1 where none ever does.
 * TORA_NULL.
 */
uint32_t tora_router_next_due(tora_router *router, uint64_t *tick);

/* Writes the next life number: it and those above it were not given to any link. TORA_NULL. */
uint32_t tora_router_next_life(tora_router *router, uint64_t *life);

/*
 * Writes the own height for destination `d`.
 * TORA_NULL, TORA_UNKNOWN where the table does not have it, TORA_ABSENT where the height is NULL.
 */
uint32_t tora_router_height(tora_router *router, uint32_t d, tora_height *height);

/*
 * Writes the height that neighbour `k` told for destination `d`.
 * TORA_NULL, TORA_UNKNOWN where the table does not have it or the link is not up, TORA_ABSENT where the height is
 * NULL.
 */
uint32_t tora_router_entry(tora_router *router, uint32_t d, uint32_t k, tora_height *height);

/*
 * Writes the next hop to destination `d`: the downstream neighbour with the lowest height.
 * TORA_NULL, TORA_ABSENT where no neighbour is downstream.
 */
uint32_t tora_router_next_hop(tora_router *router, uint32_t d, uint32_t *hop);

/* Writes 1 where a route to destination `d` is required, and else 0. TORA_NULL. */
uint32_t tora_router_flag(tora_router *router, uint32_t d, uint32_t *flag);

/* Writes 1 where the link to neighbour `k` is up, and else 0. TORA_NULL. */
uint32_t tora_router_is_up(tora_router *router, uint32_t k, uint32_t *up);

/*
 * Writes what was made of the datagrams of neighbour `k`.
 * TORA_NULL, TORA_UNKNOWN_NEIGHBOUR.
 */
uint32_t tora_router_tally(tora_router *router, uint32_t k, tora_tally *tally);

/*
 * Writes the rules' state as text, and its length, as `tora_core_show` does.
 * TORA_NULL, TORA_MEMORY, TORA_ROOM.
 */
uint32_t tora_router_show(tora_router *router, uint8_t *text, size_t room, size_t *length);

/*
 * Makes a new world. Its limits are TORA_STANDARD_LIMITS or TORA_LARGE_LIMITS; `erasure` is the choice of each node for
 * which no line names another one, and `times` are those of every link. What `world` held is freed.
 * TORA_CHOICE, TORA_MEMORY.
 */
uint32_t tora_world_new(tora_world *world, uint32_t limits, uint32_t erasure, const tora_times *times);

/* Frees the world, and leaves the handle null. A null handle stays null. */
void tora_world_free(tora_world *world);

/*
 * Hands the world a line of `tora drive`, without the byte that ends it, and writes the length of the answer, which
 * `tora_world_answer` returns. The answer is what the program prints for the line; the last line of it is "ok",
 * "refused N" or "fault N CAUSE".
 * TORA_NULL, TORA_MEMORY. If there is not enough memory, the world is as `tora_world_new` made it, with no answer.
 */
uint32_t tora_world_line(tora_world *world, const uint8_t *line, size_t length, size_t *answer);

/*
 * Writes the answer to the last line, and its length, which is 0 before the first line. No zero byte ends it. It stays
 * until the next line.
 * TORA_NULL, TORA_ROOM.
 */
uint32_t tora_world_answer(tora_world *world, uint8_t *text, size_t room, size_t *length);

#ifdef __cplusplus
}
#endif

#endif
