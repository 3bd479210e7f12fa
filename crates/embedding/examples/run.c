/* Runs a deck and prints the dump: `run DECK`. With a second argument, `run DECK LOG`, it replays that log on the deck.
 * It tries a small buffer first, and then one of the size that the call returned. */
#include "files.h"
#include <string.h>

/* Dumps the machine after a run of the deck, or after the replay of a log if there is one. */
static struct cdc6600_outcome dump_of(const uint8_t *deck, size_t length, const char *log,
                                      uint8_t *dump, size_t capacity, uint8_t line[CDC6600_FAULT_LINE])
{
    if (log == NULL) {
        return cdc6600_run(deck, length, CDC6600_BUDGET, dump, capacity, line, CDC6600_FAULT_LINE);
    }
    return cdc6600_replay(deck, length, (const uint8_t *)log, strlen(log), dump, capacity, line, CDC6600_FAULT_LINE);
}

int main(int count, char **words)
{
    if (count != 2 && count != 3) {
        fprintf(stderr, "usage: run DECK [LOG]\n");
        return CDC6600_USAGE;
    }
    size_t length, capacity = 100;
    uint8_t *deck = read_file(words[1], &length);
    uint8_t *dump = resized(NULL, capacity);
    uint8_t line[CDC6600_FAULT_LINE];
    struct cdc6600_outcome outcome = dump_of(deck, length, words[2], dump, capacity, line);
    if (outcome.printed > capacity) {
        capacity = outcome.printed;
        dump = resized(dump, capacity);
        outcome = dump_of(deck, length, words[2], dump, capacity, line);
    }
    print(dump, outcome.printed);
    fwrite(line, 1, outcome.told, stderr);
    free(dump);
    free(deck);
    return outcome.status;
}
