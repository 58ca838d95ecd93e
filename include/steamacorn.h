/*
 * The table of a load balancer (AnchorHash): it gives every 64-bit key a server.
 *
 * A table of a seats is one run of 32-bit words that the caller lends to each call: STEAMACORN_WORDS(a) long, with a
 * from 1 to STEAMACORN_MOST_SEATS. An id is 1 to 4,294,967,295; 0 means no server. N is the number of seats in use. A
 * table is sound if it is what some opening, followed by any run of accepted changes, leaves.
 *
 * Every call ends, for every table, key, id and byte string it is given, sound or damaged, and answers a number:
 * STEAMACORN_FINE, or the first refusal of its list that applies. Values go out through the last parameters, and are
 * written only where the call is fine. A refusal leaves all lent memory as it was, these parameters among it.
 *
 * An array passes as a pointer and then its length in elements; where the length is 0 the pointer may be anything. That
 * pointers are valid, aligned for their type and do not overlap is the caller's part. Nothing is kept between calls and
 * nothing is allocated; calls that do not lend the same memory, or only read it, may run at the same time.
 */
#ifndef STEAMACORN_H
#define STEAMACORN_H

#include <stddef.h>
#include <stdint.h>

#ifdef __cplusplus
#define STEAMACORN_RESTRICT
extern "C" {
#else
#define STEAMACORN_RESTRICT restrict
#endif

/* The numbers that a call, or the line program `seats`, can answer. */
enum {
    STEAMACORN_FINE = 0,    /* the call is done */
    STEAMACORN_SIZE = 1,    /* a is outside 1 to 2,048, or the table is not 2 + 6a words */
    STEAMACORN_COUNT = 2,   /* opening with no id, or more than a ids */
    STEAMACORN_ID = 3,      /* an id is 0 */
    STEAMACORN_TWICE = 4,   /* an id occurs twice in the list, or is seated already */
    STEAMACORN_DAMAGED = 5, /* the table is not sound (find: as said there) */
    STEAMACORN_FULL = 6,    /* seating with N = a */
    STEAMACORN_ABSENT = 7,  /* the id to take out is not seated */
    STEAMACORN_LAST = 8,    /* taking out with N = 1 */
    STEAMACORN_ROOM = 9,    /* the output is shorter than the record, a key's not 8; program input over 4,096 bytes */
    STEAMACORN_FORM = 10,   /* the bytes are no record of any sound table */
    STEAMACORN_LINE = 11,   /* the program does not know the line; no call answers it */
    STEAMACORN_PACKET = 12  /* the bytes are no packet that a key can be made of */
};

/* The most seats of a table. */
#define STEAMACORN_MOST_SEATS 2048

/* The words of a table of a seats. */
#define STEAMACORN_WORDS(a) (2 + 6 * (size_t)(a))

/* The bytes of the record of a table of a seats with n of them in use, 6 + 4(a-n) + 8n, and the most they can be. */
#define STEAMACORN_RECORD_BYTES(a, n) (6 + 4 * (size_t)(a) + 4 * (size_t)(n))
#define STEAMACORN_MOST_RECORD_BYTES(a) (6 + 8 * (size_t)(a))

/* The bytes of a packet's key; the number that they are, the highest first. key is evaluated for each of them. */
#define STEAMACORN_KEY_BYTES 8
#define STEAMACORN_KEY_NUMBER(key)                                                                                   \
    ((uint64_t)(uint8_t)(key)[0] << 56 | (uint64_t)(uint8_t)(key)[1] << 48 | (uint64_t)(uint8_t)(key)[2] << 40 |     \
     (uint64_t)(uint8_t)(key)[3] << 32 | (uint64_t)(uint8_t)(key)[4] << 24 | (uint64_t)(uint8_t)(key)[5] << 16 |     \
     (uint64_t)(uint8_t)(key)[6] << 8 | (uint64_t)(uint8_t)(key)[7])

/*
 * Opens a table of a seats with a list of ids: seat i gets id i, the other seats are out of use.
 * Lent: table, words long, whatever it held; ids, count long, only read.
 * Written: the whole table; *n, the seats in use, which is count.
 * Refusals: SIZE (a is outside 1 to 2,048, or words is not 2 + 6a), COUNT (count is 0 or more than a), ID (an id is 0),
 * TWICE (an id occurs twice).
 */
uint32_t steamacorn_open(uint32_t *STEAMACORN_RESTRICT table, size_t words, uint32_t a,
                         const uint32_t *STEAMACORN_RESTRICT ids, size_t count, uint32_t *STEAMACORN_RESTRICT n);

/*
 * Seats an id in the seat that was taken out last. Keys move to that seat alone.
 * Lent: table, words long.
 * Written: the table; *seat, the seat that the id got.
 * Refusals: SIZE (a, which is word 0, is outside 1 to 2,048, or words is not 2 + 6a), DAMAGED (the table is not sound),
 * ID (id is 0), TWICE (id is seated already), FULL (no seat is out of use).
 */
uint32_t steamacorn_seat(uint32_t *STEAMACORN_RESTRICT table, size_t words, uint32_t id,
                         uint32_t *STEAMACORN_RESTRICT seat);

/*
 * Takes an id out of its seat. Only keys that were on that seat move.
 * Lent: table, words long.
 * Written: the table; *seat, the seat that the id had.
 * Refusals: SIZE, DAMAGED (as above), ID (id is 0), ABSENT (id is not seated), LAST (it is the only server).
 */
uint32_t steamacorn_out(uint32_t *STEAMACORN_RESTRICT table, size_t words, uint32_t id,
                        uint32_t *STEAMACORN_RESTRICT seat);

/*
 * Finds the server for a key. The first seat is by output 1 of SplitMix64 started at the key, and at a seat b that is out
 * of use the key goes on by output b + 2 (b + 1 before version 0.4.0).
 * Lent: table, words long, only read.
 * Written: *seat and *server, where the key is; *draws, the hashes taken, at most 1 + (a - N) on a sound table.
 * Refusals: SIZE (as above), DAMAGED (the way to a server leaves the table, would follow more than a successors after
 * one hash, or ends in a seat without a server). A sound table is never DAMAGED, but not every other table is: see
 * audit.
 */
uint32_t steamacorn_find(const uint32_t *STEAMACORN_RESTRICT table, size_t words, uint64_t key,
                         uint32_t *STEAMACORN_RESTRICT seat, uint32_t *STEAMACORN_RESTRICT server,
                         uint32_t *STEAMACORN_RESTRICT draws);

/*
 * Finds the server for a key, and tells how far the lookup walked. A seat that is out of use has a successor, the seat
 * that took its place when it left; after each hash but the first the lookup goes from successor to successor. The
 * more seats are spare, the more draws and walks keys take on average.
 * Lent: table, words long, only read.
 * Written: *seat, *server and *draws, as by steamacorn_find; *walks, how many successors were followed, after all
 * hashes together. After one hash they are at most a - N on a sound table: so *walks is at most (*draws - 1)(a - N),
 * and 0 where no seat is out of use. On any table *draws is at most a, and *walks at most a(a - 1).
 * Refusals: SIZE, DAMAGED (as for steamacorn_find).
 */
uint32_t steamacorn_find_walks(const uint32_t *STEAMACORN_RESTRICT table, size_t words, uint64_t key,
                               uint32_t *STEAMACORN_RESTRICT seat, uint32_t *STEAMACORN_RESTRICT server,
                               uint32_t *STEAMACORN_RESTRICT draws, uint32_t *STEAMACORN_RESTRICT walks);

/*
 * Tells whether a table is sound.
 * Lent: table, words long, only read.
 * Written: nothing.
 * Refusals: SIZE (as above), DAMAGED (the table is not sound).
 */
uint32_t steamacorn_audit(const uint32_t *table, size_t words);

/*
 * Saves a table as its record, STEAMACORN_RECORD_BYTES(a, N) long.
 * Lent: table, words long, only read; record, room long.
 * Written: the record's bytes, and none after them; *bytes, how many they are.
 * Refusals: SIZE, DAMAGED (as above), ROOM (room is less than the record's bytes).
 */
uint32_t steamacorn_save(const uint32_t *STEAMACORN_RESTRICT table, size_t words,
                         uint8_t *STEAMACORN_RESTRICT record, size_t room, size_t *STEAMACORN_RESTRICT bytes);

/*
 * Loads the table that has this record: every word is as it was when the record was saved.
 * Lent: table, words long, whatever it held; record, bytes long, only read. Its bytes 2 and 3 are a, big-endian.
 * Written: the whole table; *n, the seats in use.
 * Refusals: FORM (the bytes are no record of any sound table), SIZE (words is not 2 + 6a, with a from the record).
 */
uint32_t steamacorn_load(uint32_t *STEAMACORN_RESTRICT table, size_t words,
                         const uint8_t *STEAMACORN_RESTRICT record, size_t bytes, uint32_t *STEAMACORN_RESTRICT n);

/*
 * Makes a key from a packet's source, destination, protocol and ports. The packet begins with its IP header, IPv4 (RFC
 * 791) or IPv6 (RFC 8200). Protocols 6 (TCP) and 17 (UDP) have ports, the first four bytes behind the header; with any
 * other both are 0, and so they are in every fragment of an IPv4 packet, the first too: all its fragments get one key.
 * A packet that is not cut up counts with its ports, and in general has another key. IPv6 extension headers are not
 * walked: the protocol is the header's next header. No other byte is in the key, and none behind the packet's end
 * counts.
 * Lent: packet, bytes long, only read; key, key_bytes long.
 * Written: the eight bytes of the key, the highest first. STEAMACORN_KEY_NUMBER(key) is the number for find; bytes that
 * are copied into a uint64_t as they lie are another number on a machine that keeps the lowest byte first.
 * Refusals: ROOM (key_bytes is not 8), PACKET (no bytes; the version is neither 4 nor 6; IPv4: the header is less than
 * five words or more than the total length, or that is more than bytes; IPv6: 40 and the payload length are more than
 * bytes; with ports: the total or payload length ends before the last of them).
 */
uint32_t steamacorn_key(const uint8_t *STEAMACORN_RESTRICT packet, size_t bytes, uint8_t *STEAMACORN_RESTRICT key,
                        size_t key_bytes);

#ifdef __cplusplus
}
#endif

#endif
