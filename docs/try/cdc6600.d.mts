/** The types of cdc6600.mjs. The functions are those of crates/embedding/include/cdc6600.h; docs/use/emulators.md
 * explains them. */

/** A deck, a session, a log or an event. A string becomes UTF-8. */
export type Text = string | Uint8Array;

/** A call that did what it was called for. */
export interface Ran {
  /** What the program prints. */
  printed: string;
  /** The fault line, which is empty here. */
  told: string;
  /** 0 if the program stopped or the call was carried out, 3 if the program was halted, 4 after an address fault, 5 if
   * it still runs. */
  status: number;
}

/** The failure of a call. The message is the fault line without its beginning, or says what the status means. */
export class Cdc6600Error extends Error {
  name: "Cdc6600Error";
  /** 1 if a deck, a schedule or an event is refused, 2 if a log or a budget is, 6 if memory ran out, 8 without a
   * machine, 9 for a dump of a machine that isn't drained. */
  status: number;
  /** The fault line with its line end, or an empty text. */
  told: string;
  /** What was printed before the failure. */
  printed: string;
}

export interface Registers {
  x: bigint[];
  a: number[];
  b: number[];
  p: number;
  ra: number;
  fl: number;
  /** The exit mode. */
  em: number;
  /** The number of the next parcel. */
  parcel: number;
  /** 0 if the machine isn't halted, 1 after a stop, 2 after a refused opcode, 3 after an instruction across the end of
   * its word, 4 after a fetch out of range. */
  halt: number;
  /** Whether an address was out of range. */
  fault: boolean;
  /** The refused opcode if `halt` is 2: its octal digits f, m and i, or f, m and 0 if it has two. Otherwise 0. */
  opcode: number;
  /** The word of the program that the machine holds. */
  held: bigint | null;
}

export const DEFAULT_BUDGET: number;
export const LARGEST_BUDGET: number;
/** An address at which `advance` never stops. */
export const NO_ADDRESS: number;

/** Whether this engine can run a module. */
export function canRun(bytes: BufferSource): boolean;

/** A module with its memory. Every call may throw a Cdc6600Error. */
export class Library {
  private constructor();
  /** Makes a library from the bytes of a module. */
  static of(bytes: BufferSource): Promise<Library>;
  /** Whether the module was made of the proved crate, and not with `tools/build-module --unproved`. */
  readonly isProved: boolean;
  /** The version of the program. */
  get version(): string;
  /** Lists the words of a deck. */
  list(deck: Text): Ran;
  /** Runs a deck as `run --sequential` does, within a budget of instructions. */
  run(deck: Text, budget?: number | bigint): Ran;
  /** Executes a log on a deck. */
  replay(deck: Text, log: Text): Ran;
  /** Answers the events of a session. */
  events(session: Text, budget?: number | bigint): Ran;
  /** A machine that isn't booted yet. The caller has to free it. */
  machine(): Machine;
  /** Calls `work` and returns its result, and restores every machine. `work` may boot and change machines, but it may
   * neither make nor free one, and it has to be done when it returns. */
  trying<T>(work: () => T): T;
}

/** A machine that is driven event by event. */
export class Machine {
  private constructor();
  /** Boots the machine with the memory of a deck. A machine that was booted before is freed. */
  boot(deck: Text, budget?: number | bigint): Ran;
  /** Makes or refuses the event of a schedule line, such as `read longadd`; prints the answer. */
  event(line: Text): Ran;
  /** Judges the event of a schedule line without making it; prints the answer that it would get, and a line with the
   * number of each reservation that holds it back. */
  judge(line: Text): Ran;
  /** Makes the event that a drain would make next, or an exchange or an issue; prints its line and the answer. */
  next(): Ran;
  /** Makes the next event up to `most` times, and stops at the first instruction of the word at `address`, relative to
   * RA. Returns how many events were made. */
  advance(most: number, address?: number): number;
  /** Drains the machine; returns how many events that took. */
  drain(): number;
  /** Whether there is a machine and it is drained. */
  get isDrained(): boolean;
  /** Prints the log. */
  log(): Ran;
  /** Prints the dump of a drained machine. */
  dump(): Ran;
  /** Prints a line for each functional unit that an instruction holds: `longadd 3 read IX3 X1+X2`. */
  units(): Ran;
  /** Prints a line for each place of the hopper in which a reference waits: `0 1 110 load SA1 B0+10`. */
  hopper(): Ran;
  /** Prints a line for each load channel in which a load waits, with its word. */
  channels(): Ran;
  /** Prints the numbers of the busy banks, a line each. */
  banks(): Ran;
  /** Prints the package of the requested exchange, or nothing. */
  request(): Ran;
  /** Prints the instruction that is issued next: `1 1 IX4 X2-X1`. */
  nextInstruction(): Ran;
  /** Prints a line for each register that an issued instruction is still to write: `X1 1 SA1 B0+10`. */
  reservedRegisters(): Ran;
  /** Prints a line for each operand that an issued instruction is still to read, with the reservation that is still to
   * write it, if there is one: `3 X1 1`. */
  unreadOperands(): Ran;
  /** The registers as they are now. */
  registers(): Registers;
  /** Words of memory as they are now, from an absolute address on: as many as there are, and at most `count`. */
  words(first: number, count: number): bigint[];
  /** Frees the machine. Afterwards every call but this one throws. */
  free(): void;
}
