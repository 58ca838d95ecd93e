/*
 * A table of seven seats through a failure, a return and a restart, with every step said.
 *
 *     cc -std=c99 transcript.c $(pkg-config --cflags --libs steamacorn)
 */
#include <inttypes.h>
#include <stdio.h>
#include <stdlib.h>
#include <string.h>
#include <steamacorn.h>

enum { SEATS = 7, KEYS = 6 };

static void must(const char *what, uint32_t answer)
{
    if (answer == STEAMACORN_FINE)
        return;
    fprintf(stderr, "%s: refused, number %" PRIu32 "\n", what, answer);
    exit(1);
}

/* Looks six keys up, and says which are not where they were; was is updated. */
static void look_up(const uint32_t *table, uint32_t was[KEYS])
{
    for (uint64_t key = 0; key < KEYS; key++) {
        uint32_t seat, server, draws, walks;
        must("find", steamacorn_find_walks(table, STEAMACORN_WORDS(SEATS), key, &seat, &server, &draws, &walks));
        printf("  key %" PRIu64 ": seat %" PRIu32 ", server %" PRIu32 ", draws %" PRIu32 ", walks %" PRIu32 "%s\n", key,
               seat, server, draws, walks, was[key] != 0 && was[key] != server ? ", moved" : "");
        was[key] = server;
    }
}

int main(void)
{
    const uint32_t ids[] = {11, 12, 13, 14, 15};
    uint32_t table[STEAMACORN_WORDS(SEATS)], again[STEAMACORN_WORDS(SEATS)], was[KEYS] = {0}, n, seat;
    uint8_t record[STEAMACORN_MOST_RECORD_BYTES(SEATS)];
    size_t bytes;

    must("open", steamacorn_open(table, STEAMACORN_WORDS(SEATS), SEATS, ids, 5, &n));
    printf("open: %d seats, %" PRIu32 " in use\n", SEATS, n);
    look_up(table, was);

    must("out", steamacorn_out(table, STEAMACORN_WORDS(SEATS), 13, &seat));
    printf("out: server 13 left seat %" PRIu32 "; only its keys move\n", seat);
    look_up(table, was);

    must("save", steamacorn_save(table, STEAMACORN_WORDS(SEATS), record, sizeof record, &bytes));
    must("load", steamacorn_load(again, STEAMACORN_WORDS(SEATS), record, bytes, &n));
    printf("save and load: %zu bytes, %" PRIu32 " seats in use, %s\n", bytes, n,
           memcmp(table, again, sizeof table) == 0 ? "every word as it was" : "ANOTHER TABLE");

    must("seat", steamacorn_seat(again, STEAMACORN_WORDS(SEATS), 13, &seat));
    printf("seat: server 13 is back in seat %" PRIu32 "; its keys return\n", seat);
    look_up(again, was);

    printf("seat 13 once more: number %" PRIu32 "\n", steamacorn_seat(again, STEAMACORN_WORDS(SEATS), 13, &seat));
    again[1] = 6;
    printf("audit after a stray store: number %" PRIu32 "\n", steamacorn_audit(again, STEAMACORN_WORDS(SEATS)));
    return 0;
}
