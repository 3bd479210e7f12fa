/* The simulator cdc6600 as functions for C: its commands, from bytes in memory to bytes in memory, and a machine that
 * the caller keeps and drives event by event. docs/use/emulators.md explains the functions, and docs/use/formats.md the formats
 * of the bytes.
 *
 * The caller has to meet these requirements. Nothing checks them:
 * - No pointer is null, even if its length is 0, and each points to at least as many bytes as its length. A length is
 *   below 2^63.
 * - The bytes of output, line, words and registers overlap no other bytes of the call, and no other thread accesses
 *   them during the call.
 * - A struct cdc6600_machine holds CDC6600_NO_MACHINE or the value that the last call with it left in it. It may be
 *   moved, but after a copy only one of the two may be used. One thread makes all calls with it.
 * - The stack is large enough: 64 KiB were enough for every deck and session that was tried.
 * - malloc, realloc and free are those of one C library. No signal handler makes a call, nor does a process that was
 *   forked from a process with several threads.
 * Calls by several threads at once don't disturb each other if they share no machine.
 */
#ifndef CDC6600_H
#define CDC6600_H

#include <stdbool.h>
#include <stddef.h>
#include <stdint.h>

#ifdef __cplusplus
extern "C" {
#endif

/* The version of the program, as cdc6600_version copies it. */
#define CDC6600_VERSION "0.1.0"
/* The default budget of the program, and the largest budget. */
#define CDC6600_BUDGET UINT64_C(1000000)
#define CDC6600_LARGEST_BUDGET UINT64_C(10000000)
/* A buffer size for fault lines: a fault line has fewer bytes, including its line end. */
#define CDC6600_FAULT_LINE 64
/* A buffer size for answers: the output of cdc6600_event and cdc6600_next has fewer bytes. */
#define CDC6600_ANSWER 128

/* The exit statuses of the program, and two more that only calls with a machine return. */
enum {
    CDC6600_STOPPED = 0,       /* a run or a replay ended with a stop, or the call was carried out */
    CDC6600_REFUSED = 1,       /* the deck, the schedule or the event is refused */
    CDC6600_USAGE = 2,         /* the log or the budget is refused */
    CDC6600_HALTED = 3,        /* a refused opcode, a straddling instruction or a fetch out of range */
    CDC6600_ADDRESS_FAULT = 4, /* the machine has an address fault */
    CDC6600_RUNNING = 5,       /* the budget is used up, or the end of the log is reached */
    CDC6600_OUT_OF_MEMORY = 6, /* memory ran out */
    CDC6600_WITHOUT_MACHINE = 8, /* no machine was booted, or it was freed */
    CDC6600_NOT_DRAINED = 9    /* a dump needs a drained machine */
};

/* The outcome of a call. The bytes are counted even if they didn't fit. If printed is at most the capacity of output,
 * output has all of them, and otherwise it has the first ones. The same holds of told and the fault line. */
struct cdc6600_outcome {
    size_t printed; /* the number of bytes that the command prints */
    size_t told;    /* the number of bytes of its fault line, or 0 if there is none */
    uint8_t status; /* the exit status */
};

/* Copies the version of the program to output, as much as fits, and returns its length. */
size_t cdc6600_version(uint8_t *output, size_t output_capacity);

/* ---- commands ---- */

/* Lists the words of the deck in input. */
struct cdc6600_outcome cdc6600_list(const uint8_t *input, size_t input_length,
                                    uint8_t *output, size_t output_capacity,
                                    uint8_t *line, size_t line_capacity);

/* Runs the deck in input, one instruction at a time as `run --sequential` does, and dumps the machine. Executes at most
 * budget instructions. */
struct cdc6600_outcome cdc6600_run(const uint8_t *input, size_t input_length,
                                   uint64_t budget,
                                   uint8_t *output, size_t output_capacity,
                                   uint8_t *line, size_t line_capacity);

/* Replays the log on the deck in input, one instruction at a time, and dumps the machine. */
struct cdc6600_outcome cdc6600_replay(const uint8_t *input, size_t input_length,
                                      const uint8_t *log, size_t log_length,
                                      uint8_t *output, size_t output_capacity,
                                      uint8_t *line, size_t line_capacity);

/* Answers the events of the schedule after the deck in input. Issues at most budget instructions. */
struct cdc6600_outcome cdc6600_events(const uint8_t *input, size_t input_length,
                                      uint64_t budget,
                                      uint8_t *output, size_t output_capacity,
                                      uint8_t *line, size_t line_capacity);

/* ---- a machine that the caller keeps ---- */

/* A machine, or none. Its members belong to the library: a caller sets them to CDC6600_NO_MACHINE before the first
 * call, and otherwise never reads or writes them. */
struct cdc6600_machine {
    void *address;
    bool has_machine;
};
#define CDC6600_NO_MACHINE {NULL, false}

/* Boots a machine with the memory of the deck in input. The machine will issue at most budget instructions. With status
 * 0 there is a machine, which the caller has to free. With any other status there is none. A machine that was there
 * before the call is freed. */
struct cdc6600_outcome cdc6600_boot(struct cdc6600_machine *machine,
                                    const uint8_t *input, size_t input_length,
                                    uint64_t budget,
                                    uint8_t *line, size_t line_capacity);

/* Makes the event that a line of a schedule says, such as `issue`, `read longadd` or `ask 40`, without its line end.
 * With status 0 the event was made or refused, and output has the line that `events` prints for it. With status 1 the
 * text says no event, and the machine is unchanged. */
struct cdc6600_outcome cdc6600_event(struct cdc6600_machine *machine,
                                     const uint8_t *event, size_t event_length,
                                     uint8_t *output, size_t output_capacity,
                                     uint8_t *line, size_t line_capacity);

/* Makes the next event. That is the event that a drain would make. If nothing is pending it is the requested exchange,
 * if that may be made, or else an issue. Output gets the schedule line of the event and then the line of its answer. */
struct cdc6600_outcome cdc6600_next(struct cdc6600_machine *machine,
                                    uint8_t *output, size_t output_capacity,
                                    uint8_t *line, size_t line_capacity);

/* An address at which cdc6600_advance never stops. */
#define CDC6600_NO_ADDRESS UINT32_MAX

/* Makes the next event, as cdc6600_next does, up to most times, and prints nothing. It makes no more after an event that
 * is refused. It also makes no more after an event that leaves nothing pending and the first instruction in the word at
 * address next, so a debugger can stop there; address is relative to RA, as P is. Returns the number of events made. If
 * that is less than most and P isn't the address, the next event is refused: the machine is halted or faulted, or its
 * budget is used up. */
uint64_t cdc6600_advance(struct cdc6600_machine *machine, uint64_t most, uint32_t address);

/* Drains the machine: makes events, at most 40, until no issued instruction has an effect still to come. Returns the
 * number of events. */
uint32_t cdc6600_drain(struct cdc6600_machine *machine);

/* Whether there is a machine and it is drained. */
bool cdc6600_is_drained(struct cdc6600_machine *machine);

/* Prints the text of the machine's log, in the form that cdc6600_replay accepts. */
struct cdc6600_outcome cdc6600_log(struct cdc6600_machine *machine,
                                   uint8_t *output, size_t output_capacity,
                                   uint8_t *line, size_t line_capacity);

/* Dumps a drained machine. The call makes a temporary copy of the machine's state. If the machine isn't drained the
 * status is CDC6600_NOT_DRAINED, and nothing is printed. */
struct cdc6600_outcome cdc6600_dump(struct cdc6600_machine *machine,
                                    uint8_t *output, size_t output_capacity,
                                    uint8_t *line, size_t line_capacity);

/* The calls below print the contents of a part of the machine as lines, and allocate nothing. CDC6600_CONTENTS is a
 * buffer size for each of them. */
#define CDC6600_CONTENTS 1280

/* Prints a line for each functional unit that an instruction holds, in the order of the units' numbers: the name of the
 * unit, the number of the reservation, `issued`, `read` or `finished`, and the instruction, as in
 * `longadd 3 read IX3 X1+X2`. */
struct cdc6600_outcome cdc6600_units(struct cdc6600_machine *machine,
                                     uint8_t *output, size_t output_capacity,
                                     uint8_t *line, size_t line_capacity);

/* Prints a line for each place of the hopper, 0 to 3, in which a reference waits: the place, the number of the
 * reservation, the absolute address in octal, `load` or `store`, and the instruction, as in `0 1 110 load SA1 B0+10`. */
struct cdc6600_outcome cdc6600_hopper(struct cdc6600_machine *machine,
                                      uint8_t *output, size_t output_capacity,
                                      uint8_t *line, size_t line_capacity);

/* Prints a line for each load channel, 1 to 5, in which a load waits: the channel, the number of the reservation, the
 * word in twenty octal digits, and the instruction. */
struct cdc6600_outcome cdc6600_channels(struct cdc6600_machine *machine,
                                        uint8_t *output, size_t output_capacity,
                                        uint8_t *line, size_t line_capacity);

/* Prints the numbers of the busy banks, 0 to 31, a line each. */
struct cdc6600_outcome cdc6600_banks(struct cdc6600_machine *machine,
                                     uint8_t *output, size_t output_capacity,
                                     uint8_t *line, size_t line_capacity);

/* Prints the absolute address of the package of the requested exchange, as a line in octal, or nothing if no exchange is
 * requested. */
struct cdc6600_outcome cdc6600_request(struct cdc6600_machine *machine,
                                       uint8_t *output, size_t output_capacity,
                                       uint8_t *line, size_t line_capacity);

/* Prints the instruction that is issued next, as a line with P in octal, the number of the parcel, and the instruction as
 * a listing has it, as in `1 1 IX4 X2-X1`. If none can be taken, the line has a question mark and the reason instead: the
 * refused opcode, `straddle` or `fetch`. A pending branch, or a pending store to the word, can still change it. */
struct cdc6600_outcome cdc6600_next_instruction(struct cdc6600_machine *machine,
                                                uint8_t *output, size_t output_capacity,
                                                uint8_t *line, size_t line_capacity);

/* Prints a line for each register that an issued instruction is still to write, in issue order: the register, the number
 * of the reservation, and the instruction, as in `X1 1 SA1 B0+10`. */
struct cdc6600_outcome cdc6600_reserved_registers(struct cdc6600_machine *machine,
                                                  uint8_t *output, size_t output_capacity,
                                                  uint8_t *line, size_t line_capacity);

/* Prints a line for each operand that an issued instruction is still to read, in issue order: the number of the
 * reservation and the register, and then, if an earlier instruction is still to write the register, the number of that
 * reservation, as in `3 X1 1`. */
struct cdc6600_outcome cdc6600_unread_operands(struct cdc6600_machine *machine,
                                                uint8_t *output, size_t output_capacity,
                                                uint8_t *line, size_t line_capacity);

/* Tells what cdc6600_event would answer to a line, without making the event. Output gets the line of the answer. If
 * issued instructions hold the event back, a line with the number of the reservation follows for each, in issue order.
 * Only a want of memory isn't foretold. Status and fault line are those of cdc6600_event, and CDC6600_CONTENTS is a
 * buffer size. */
struct cdc6600_outcome cdc6600_judge(struct cdc6600_machine *machine,
                                     const uint8_t *event, size_t event_length,
                                     uint8_t *output, size_t output_capacity,
                                     uint8_t *line, size_t line_capacity);

/* The registers of a machine. B0 is 0. */
struct cdc6600_registers {
    uint64_t x[8];
    uint32_t a[8];
    uint32_t b[8];
    uint32_t p;
    uint32_t ra;
    uint32_t fl;
    uint32_t em;    /* the exit mode */
    uint8_t parcel; /* the number of the next parcel */
    uint8_t halt;   /* one of the numbers below */
    bool fault;     /* an address was out of range */
    bool has_held;  /* the machine holds a word of the program, whose next parcel is parcel */
    uint16_t opcode; /* the refused opcode if halt is 2, otherwise 0: f, m and i as octal digits, with i 0 if it has two */
    uint64_t held;  /* the held word, or 0 */
};

/* The reason why a machine is halted. */
enum {
    CDC6600_HALT_NONE = 0,
    CDC6600_HALT_STOP = 1,
    CDC6600_HALT_ILLEGAL = 2, /* an opcode that the machine refuses */
    CDC6600_HALT_STRADDLE = 3,
    CDC6600_HALT_FETCH = 4    /* a fetch out of range */
};

/* Reads the registers as they are now. If the machine isn't drained, effects of issued instructions are still to come;
 * cdc6600_is_drained says whether it is. Returns the status. Unless that is 0, registers is unchanged. */
uint8_t cdc6600_read_registers(struct cdc6600_machine *machine, struct cdc6600_registers *registers);

/* Reads words of memory as they are now, from an absolute address on: as many as there are and as fit. In the outcome,
 * printed is the number of words that there are. */
struct cdc6600_outcome cdc6600_read_words(struct cdc6600_machine *machine,
                                          uint32_t first,
                                          uint64_t *words, size_t words_capacity);

/* Frees the machine if there is one. After the call there is none. */
void cdc6600_free(struct cdc6600_machine *machine);

#ifdef __cplusplus
}
#endif

#endif
