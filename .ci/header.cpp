// The header as C++ sees it: it may be read twice, its names are C's, its macros are constants.
#include <cstring>
#include <steamacorn.h>
#include <steamacorn.h>

static_assert(STEAMACORN_WORDS(7) == 44, "2 + 6a");
static_assert(STEAMACORN_RECORD_BYTES(7, 4) == 50, "6 + 4(a-N) + 8N");
static_assert(STEAMACORN_FINE == 0 && STEAMACORN_LINE == 11 && STEAMACORN_PACKET == 12, "numbers");

int main()
{
    const uint32_t ids[] = {5, 6};
    uint32_t table[STEAMACORN_WORDS(2)], loaded[STEAMACORN_WORDS(2)], n, seat, server, draws, walks;
    uint8_t record[STEAMACORN_RECORD_BYTES(2, 1)];
    uint8_t packet[24] = {0x45, 0, 0, 24, 0, 0, 0, 0, 64, 6, 0, 0, 192, 0, 2, 1, 198, 51, 100, 2, 4, 0, 0, 80};
    uint8_t key[STEAMACORN_KEY_BYTES];
    char copy[STEAMACORN_KEY_BYTES]; // whose bytes may have a sign
    size_t bytes;
    bool fine = steamacorn_open(table, STEAMACORN_WORDS(2), 2, ids, 2, &n) == STEAMACORN_FINE && n == 2 &&
                steamacorn_seat(table, STEAMACORN_WORDS(2), 7, &seat) == STEAMACORN_FULL &&
                steamacorn_out(table, STEAMACORN_WORDS(2), 6, &seat) == STEAMACORN_FINE && seat == 1 &&
                steamacorn_find(table, STEAMACORN_WORDS(2), 9, &seat, &server, &draws) == STEAMACORN_FINE &&
                seat == 0 && server == 5 && draws <= 2 &&
                steamacorn_find_walks(table, STEAMACORN_WORDS(2), 9, &seat, &server, &draws, &walks) ==
                    STEAMACORN_FINE &&
                seat == 0 && server == 5 && draws <= 2 && walks == draws - 1 &&
                steamacorn_audit(table, STEAMACORN_WORDS(2)) == STEAMACORN_FINE &&
                steamacorn_save(table, STEAMACORN_WORDS(2), record, sizeof record, &bytes) == STEAMACORN_FINE &&
                bytes == sizeof record &&
                steamacorn_load(loaded, STEAMACORN_WORDS(2), record, bytes, &n) == STEAMACORN_FINE && n == 1 &&
                steamacorn_key(packet, sizeof packet, key, sizeof key) == STEAMACORN_FINE &&
                STEAMACORN_KEY_NUMBER(key) == 0x1DA5D05E11619584u &&
                std::memcpy(copy, key, sizeof copy) == copy && STEAMACORN_KEY_NUMBER(copy) == 0x1DA5D05E11619584u &&
                steamacorn_key(packet, sizeof packet - 1, key, sizeof key) == STEAMACORN_PACKET;
    return fine ? 0 : 1;
}
