/* Plays a history, and writes the record and the words of the table that it leaves: make RECORD WORDS <HISTORY */
#include <inttypes.h>
#include <stdio.h>
#include <stdlib.h>
#include <string.h>
#include <steamacorn.h>

static uint32_t table[STEAMACORN_WORDS(STEAMACORN_MOST_SEATS)], ids[STEAMACORN_MOST_SEATS];
static uint8_t record[STEAMACORN_MOST_RECORD_BYTES(STEAMACORN_MOST_SEATS)];

static uint32_t number(void)
{
    return (uint32_t)strtoul(strtok(NULL, " \n"), NULL, 10);
}

int main(int count, char **names)
{
    char line[4096], *word;
    size_t words = 0, listed = 0, bytes;
    uint32_t a = 0, n, seat;

    if (count != 3 || !fgets(line, sizeof line, stdin) || strcmp(strtok(line, " "), "open") != 0)
        return 2;
    a = number();
    words = STEAMACORN_WORDS(a);
    while ((word = strtok(NULL, " \n")) != NULL)
        ids[listed++] = (uint32_t)strtoul(word, NULL, 10);
    if (steamacorn_open(table, words, a, ids, listed, &n) != STEAMACORN_FINE)
        return 1;
    while (fgets(line, sizeof line, stdin)) {
        int out = strcmp(strtok(line, " "), "out") == 0;
        if ((out ? steamacorn_out : steamacorn_seat)(table, words, number(), &seat) != STEAMACORN_FINE)
            return 1;
    }
    if (steamacorn_save(table, words, record, sizeof record, &bytes) != STEAMACORN_FINE)
        return 1;
    FILE *to = fopen(names[1], "wb");
    if (!to || fwrite(record, 1, bytes, to) != bytes || fclose(to) != 0 || !(to = fopen(names[2], "w")))
        return 1;
    for (size_t i = 0; i < words; i++) /* the head, then a line for each part */
        fprintf(to, "%" PRIu32 "%c", table[i], i == 1 || (i > 1 && (i - 1) % a == 0) ? '\n' : ' ');
    return fclose(to) != 0;
}
