/* Boots a machine with a deck, requests the exchange with the package at an address, and makes one event after another
 * until none can be made: `step DECK ADDRESS`. It prints each event with its answer, then the log and the X registers
 * that aren't 0. */
#include "files.h"
#include <inttypes.h>
#include <string.h>

/* The fault line of the last call. */
static uint8_t line[CDC6600_FAULT_LINE];

/* Returns the number of bytes that a call printed if its status is 0. Otherwise prints the fault line and exits. */
static size_t printed(struct cdc6600_outcome outcome)
{
    if (outcome.status != CDC6600_STOPPED) {
        fwrite(line, 1, outcome.told, stderr);
        exit(outcome.status);
    }
    return outcome.printed;
}

/* Prints an event and its answer. */
static void print_event(const uint8_t *event, size_t event_length, const uint8_t *answer, size_t answer_length)
{
    print(event, event_length);
    print((const uint8_t *)": ", 2);
    print(answer, answer_length);
}

/* Requests an exchange. */
static void ask(struct cdc6600_machine *machine, const char *address)
{
    uint8_t event[32], answer[CDC6600_ANSWER];
    size_t length = (size_t)snprintf((char *)event, sizeof event, "ask %.20s", address);
    print_event(event, length, answer,
                printed(cdc6600_event(machine, event, length, answer, sizeof answer, line, sizeof line)));
}

/* Makes the next event. Returns whether the machine made it. */
static bool make_next(struct cdc6600_machine *machine)
{
    uint8_t lines[CDC6600_ANSWER];
    size_t length = printed(cdc6600_next(machine, lines, sizeof lines, line, sizeof line));
    const uint8_t *answer = (const uint8_t *)memchr(lines, '\n', length) + 1;
    print_event(lines, (size_t)(answer - lines) - 1, answer, length - (size_t)(answer - lines));
    return memcmp(answer, "ok", 2) == 0;
}

/* Prints the log. */
static void print_log(struct cdc6600_machine *machine)
{
    uint8_t nothing[1];
    size_t length = printed(cdc6600_log(machine, nothing, 0, line, sizeof line));
    uint8_t *log = resized(NULL, length + 1);
    printed(cdc6600_log(machine, log, length, line, sizeof line));
    log[length] = '\n';
    print(log, length + 1);
    free(log);
}

/* Prints the X registers that aren't 0. Returns the status. */
static uint8_t print_registers(struct cdc6600_machine *machine)
{
    struct cdc6600_registers registers;
    uint8_t status = cdc6600_read_registers(machine, &registers);
    for (int n = 0; status == CDC6600_STOPPED && n < 8; n++) {
        uint8_t text[32];
        if (registers.x[n] != 0) {
            print(text, (size_t)snprintf((char *)text, sizeof text, "X%d %020" PRIo64 "\n", n, registers.x[n]));
        }
    }
    return status;
}

int main(int count, char **words)
{
    if (count != 3) {
        fprintf(stderr, "usage: step DECK ADDRESS\n");
        return CDC6600_USAGE;
    }
    struct cdc6600_machine machine = CDC6600_NO_MACHINE;
    size_t length;
    uint8_t *deck = read_file(words[1], &length);
    printed(cdc6600_boot(&machine, deck, length, CDC6600_BUDGET, line, sizeof line));
    free(deck);
    ask(&machine, words[2]);
    while (make_next(&machine)) {
    }
    print_log(&machine);
    uint8_t status = print_registers(&machine);
    cdc6600_free(&machine);
    return status;
}
