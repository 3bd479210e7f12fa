/* Calls each function of the library for C with one of its requests for memory refused: the first, then the second, and
 * so on until a call makes no more of them; the same with all later ones refused too. The calls with a machine that is
 * kept count as one, from its boot until it is freed. tools/check embedding builds it with the linker's --wrap of
 * malloc, realloc and free.
 *
 *     refused_memory SESSION LOG
 *
 * It prints a line for each call that ends in another way than with status 6, E21 and a beginning of what it prints as
 * usual, or that hasn't given back all its memory. A session may answer E21 to a line too, and go on; then what it
 * prints may differ.
 */
#include <cdc6600.h>
#include <stdio.h>
#include <stdlib.h>
#include <string.h>

#define MOST 1000000
#define FUNCTIONS 5
#define KEPT 4

void *__real_malloc(size_t);
void *__real_realloc(void *, size_t);
void __real_free(void *);

/* The number of the request that is refused, from 1 on; 0 for none. Whether those after it are refused too. */
static long refused, requests;
static int refuses_later;

/* How many blocks aren't given back. */
static long blocks;

static int refuses(void)
{
    requests++;
    return refused && (requests == refused || (refuses_later && requests > refused));
}

void *__wrap_malloc(size_t size)
{
    void *block = refuses() ? NULL : __real_malloc(size);
    blocks += block != NULL;
    return block;
}

void *__wrap_realloc(void *block, size_t size)
{
    void *moved = refuses() ? NULL : __real_realloc(block, size);
    blocks += block == NULL && moved != NULL;
    return moved;
}

void __wrap_free(void *block)
{
    blocks -= block != NULL;
    __real_free(block);
}

static uint8_t input[MOST], usual[MOST], output[MOST], line[CDC6600_FAULT_LINE];
static size_t length;
static const char *logged;

/* What is told where memory runs out, and whether an event was refused for that. */
static const char told[] = "cdc6600: E21 out of memory\n";
static int is_refused;

/* The schedule after the deck. */
static const char *schedule(void)
{
    return strstr((const char *)input, "\nend\n") + 5;
}

/* The events of the schedule, one by one, until one of them isn't answered. */
static struct cdc6600_outcome make_all(struct cdc6600_machine *machine)
{
    struct cdc6600_outcome came = {0, 0, CDC6600_STOPPED};
    const char *event = schedule();
    while (came.status == CDC6600_STOPPED && strncmp(event, "end", 3) && strncmp(event, "drain", 5)) {
        uint8_t answer[CDC6600_ANSWER + 1];
        size_t event_length = strcspn(event, "\n");
        came = cdc6600_event(machine, (const uint8_t *)event, event_length, answer, CDC6600_ANSWER, line, sizeof line);
        answer[came.printed] = 0;
        is_refused |= !strcmp((const char *)answer, "E21 out of memory\n");
        event += event_length + 1;
    }
    return came;
}

/* What a drained machine tells: its registers, a word and its log, and then its dump. */
static struct cdc6600_outcome show(struct cdc6600_machine *machine, uint8_t *to)
{
    struct cdc6600_registers registers;
    uint64_t word;
    uint8_t status = cdc6600_read_registers(machine, &registers);
    status = status ? status : cdc6600_read_words(machine, 0, &word, 1).status;
    status = status ? status : cdc6600_log(machine, to, MOST, line, sizeof line).status;
    if (status) {
        struct cdc6600_outcome came = {0, (size_t)sprintf((char *)line, "%s", told), status};
        return came;
    }
    return cdc6600_dump(machine, to, MOST, line, sizeof line);
}

/* Keeps a machine, from its boot until it is freed. */
static struct cdc6600_outcome keep(uint8_t *to)
{
    struct cdc6600_machine machine = CDC6600_NO_MACHINE;
    is_refused = 0;
    struct cdc6600_outcome came = cdc6600_boot(&machine, input, length, CDC6600_BUDGET, line, sizeof line);
    if (came.status == CDC6600_STOPPED) {
        came = make_all(&machine);
    }
    if (came.status == CDC6600_STOPPED) {
        cdc6600_drain(&machine);
        came = show(&machine, to);
    }
    cdc6600_free(&machine);
    return came;
}

/* Calls the function of this number. */
static struct cdc6600_outcome call(int function, uint8_t *to)
{
    requests = 0;
    switch (function) {
    case 0:
        return cdc6600_list(input, length, to, MOST, line, sizeof line);
    case 1:
        return cdc6600_replay(input, length, (const uint8_t *)logged, strlen(logged), to, MOST, line, sizeof line);
    case 2:
        return cdc6600_run(input, length, CDC6600_BUDGET, to, MOST, line, sizeof line);
    case KEPT:
        return keep(to);
    default:
        return cdc6600_events(input, length, CDC6600_BUDGET, to, MOST, line, sizeof line);
    }
}

/* Whether a session has answered a line with the refusal. */
static int is_answered(int function, struct cdc6600_outcome came)
{
    output[came.printed < MOST ? came.printed : MOST - 1] = 0;
    if (function == KEPT) {
        return is_refused;
    }
    return function == 3 && strstr((const char *)output, "E21 out of memory\n") != NULL;
}

/* Whether a call ends as it should where it was refused memory. */
static int ends_well(int function, struct cdc6600_outcome came, size_t whole)
{
    int is_told = came.told == strlen(told) && !memcmp(line, told, came.told);
    int is_beginning = came.printed <= whole && !memcmp(output, usual, came.printed);
    if (came.status == CDC6600_OUT_OF_MEMORY && is_told) {
        return is_beginning || is_answered(function, came);
    }
    return came.status == CDC6600_STOPPED && is_answered(function, came);
}

/* Refuses each request of a function in turn. Answers how many calls ended in another way than they should. */
static int refuse_each(int function)
{
    int faults = 0;
    refused = 0;
    size_t whole = call(function, usual).printed;
    long all = requests;
    for (refused = 1; refused <= all; refused++) {
        struct cdc6600_outcome came = call(function, output);
        if (!ends_well(function, came, whole) || blocks != 0) {
            printf("function %d, request %ld of %ld: status %d, %ld blocks left\n", function, refused, all, came.status,
                   blocks);
            faults++;
        }
    }
    return faults;
}

int main(int count, char **words)
{
    FILE *file = count == 3 ? fopen(words[1], "rb") : NULL;
    if (file == NULL) {
        printf("usage: refused_memory SESSION LOG\n");
        return 2;
    }
    length = fread(input, 1, MOST - 1, file);
    fclose(file);
    logged = words[2];
    int faults = 0;
    for (refuses_later = 0; refuses_later < 2; refuses_later++) {
        for (int function = 0; function < FUNCTIONS; function++) {
            faults += refuse_each(function);
        }
    }
    return faults ? 1 : 0;
}
