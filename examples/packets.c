/*
 * The packets of a capture file, each with its key and its server.
 *
 *     cc -std=c99 packets.c $(pkg-config --cflags --libs steamacorn) -o packets
 *     ./packets FILE
 *
 * FILE is as tcpdump -w writes it: a head of 24 bytes, and then for each frame of Ethernet a head of 16 and its bytes.
 */
#include <inttypes.h>
#include <stdio.h>
#include <stdlib.h>
#include <string.h>
#include <steamacorn.h>

enum { SEATS = 7, SERVERS = 5 };
enum { FILE_HEAD = 24, LINK = 20, FRAME_HEAD = 16, CAPTURED = 8 }; /* and where in them a number stands */
enum { ETHERNET = 1, ETHERNET_HEAD = 14, TYPE = 12, IPV4 = 0x0800, IPV6 = 0x86DD, MOST_FRAME = 262144 };

static void stop(const char *name, const char *why)
{
    fprintf(stderr, "%s: %s\n", name, why);
    exit(1);
}

/* A number of the file in four bytes, in the order of the machine that wrote it. */
static uint32_t number(const uint8_t *bytes, int highest_first)
{
    return highest_first ? (uint32_t)bytes[0] << 24 | (uint32_t)bytes[1] << 16 | (uint32_t)bytes[2] << 8 | bytes[3]
                         : (uint32_t)bytes[3] << 24 | (uint32_t)bytes[2] << 16 | (uint32_t)bytes[1] << 8 | bytes[0];
}

/* The key and the server of a packet. */
static void look_up(const uint32_t *table, const uint8_t *packet, size_t bytes)
{
    uint8_t key[STEAMACORN_KEY_BYTES];
    uint32_t seat, server, draws, answer = steamacorn_key(packet, bytes, key, sizeof key);

    if (answer != STEAMACORN_FINE) {
        printf("no key, number %" PRIu32 "\n", answer);
        return;
    }
    /* the highest byte first: a memcpy into a uint64_t would make another key on another machine */
    uint64_t told = STEAMACORN_KEY_NUMBER(key);
    answer = steamacorn_find(table, STEAMACORN_WORDS(SEATS), told, &seat, &server, &draws);
    if (answer == STEAMACORN_FINE)
        printf("key %016" PRIx64 ", server %" PRIu32 "\n", told, server);
    else
        printf("key %016" PRIx64 ", no server, number %" PRIu32 "\n", told, answer);
}

int main(int count, char **words)
{
    static const uint8_t lowest[] = {0xD4, 0xC3, 0xB2, 0xA1}, highest[] = {0xA1, 0xB2, 0xC3, 0xD4};
    static uint8_t frame[MOST_FRAME];
    const uint32_t ids[SERVERS] = {11, 12, 13, 14, 15};
    uint32_t table[STEAMACORN_WORDS(SEATS)], n;
    uint8_t head[FILE_HEAD];
    size_t read;

    if (count != 2) {
        fprintf(stderr, "usage: packets FILE\n");
        return 2;
    }
    FILE *file = fopen(words[1], "rb");
    if (file == NULL)
        stop(words[1], "cannot be opened");
    read = fread(head, 1, FILE_HEAD, file);
    int highest_first = memcmp(head, highest, sizeof highest) == 0;
    if (read != FILE_HEAD || (!highest_first && memcmp(head, lowest, sizeof lowest) != 0) ||
        number(head + LINK, highest_first) != ETHERNET)
        stop(words[1], "no capture of Ethernet's frames");
    if (steamacorn_open(table, STEAMACORN_WORDS(SEATS), SEATS, ids, SERVERS, &n) != STEAMACORN_FINE)
        return 1;
    for (unsigned i = 1; (read = fread(head, 1, FRAME_HEAD, file)) != 0; i++) {
        uint32_t bytes = number(head + CAPTURED, highest_first);
        if (read == FRAME_HEAD && bytes > MOST_FRAME)
            stop(words[1], "a frame is too long");
        if (read != FRAME_HEAD || fread(frame, 1, bytes, file) != bytes)
            stop(words[1], "the last frame is cut off");
        int type = bytes < ETHERNET_HEAD ? 0 : frame[TYPE] << 8 | frame[TYPE + 1];
        printf("%2u: ", i);
        if (type == IPV4 || type == IPV6)
            look_up(table, frame + ETHERNET_HEAD, bytes - ETHERNET_HEAD);
        else
            printf("no IP\n");
    }
    fclose(file);
    return 0;
}
