// The simulator cdc6600 for JavaScript: the functions of crates/embedding/include/cdc6600.h, called in a WebAssembly
// module that tools/build-module made. docs/use/emulators.md explains them, and cdc6600.d.mts has their types.
//
//     const library = await Library.of(bytes);    // the bytes of the module
//     library.run(deck).printed;                  // the dump
//     const machine = library.machine();
//     machine.boot(deck);
//     machine.event("ask 40").printed;
//     machine.next().printed;
//     machine.registers().x[1];
//     machine.free();
//
// A deck, a session, a log or an event is a string or a Uint8Array. Text that is printed is a string.

export const DEFAULT_BUDGET = 1_000_000;
export const LARGEST_BUDGET = 10_000_000;

// The sizes of the header's structs.
const OUTCOME = 24;
const MACHINE = 16;
const REGISTERS = 160;
// Sizes that a fault line and the answer to an event don't reach.
const LINE = 64;
const ANSWER = 128;
// An address at which `advance` never stops.
export const NO_ADDRESS = 0xffffffff;
// Room for the output of a call at first.
const ROOM = 4096;
// The statuses of calls that don't do what they are called for.
const REASONS = {
  1: "the deck, the schedule or the event is refused",
  2: "the log or the budget is refused",
  6: "out of memory",
  8: "no machine was booted, or it was freed",
  9: "the machine isn't drained",
};
const OUT_OF_MEMORY = 6;
const NO_MACHINE = 8;
const ENCODER = new TextEncoder();
const DECODER = new TextDecoder();

/** The failure of a call, with its exit status, its fault line if it has one, and the output up to the failure. */
export class Cdc6600Error extends Error {
  constructor({ status, told = "", printed = "" }) {
    super(told.trim().replace(/^cdc6600: /, "") || REASONS[status]);
    Object.assign(this, { name: "Cdc6600Error", status, told, printed });
  }
}

/** Whether this engine can run a module. Older engines lack memories with 64-bit addresses. */
export function canRun(bytes) {
  return typeof WebAssembly === "object" && WebAssembly.validate(bytes);
}

/** The bytes of an argument. */
function bytesOf(text) {
  if (typeof text === "string") {
    return ENCODER.encode(text);
  }
  if (!(text instanceof Uint8Array)) {
    throw new TypeError("not a string or a Uint8Array");
  }
  return text;
}

/** A budget as a 64-bit word. One that doesn't fit becomes 0, which is refused too. */
function budgetOf(budget) {
  const word = BigInt(budget);
  return word === BigInt.asUintN(64, word) ? word : 0n;
}

/** A number that has to be an integer from 0 to 2^32 - 1. */
function natural(number) {
  if (number !== number >>> 0) {
    throw new RangeError(`not an integer from 0 to 2^32 - 1: ${number}`);
  }
  return number;
}

/** The result of a call, unless the call failed. Every fault line stands for a failure. */
function checked(ran) {
  if (ran.told || ran.status in REASONS) {
    throw new Cdc6600Error(ran);
  }
  return ran;
}

/** The functions of a module, and blocks in its memory. */
class Calls {
  #functions;
  #memory;
  #trap = null;

  constructor({ memory, ...functions }) {
    this.#memory = memory;
    this.#functions = functions;
  }

  /** The whole memory. Every call may move it, so nothing keeps a view of it over a call. */
  get bytes() {
    return new Uint8Array(this.#memory.buffer);
  }

  view(address) {
    return new DataView(this.#memory.buffer, Number(address));
  }

  part(address, length) {
    return new Uint8Array(this.#memory.buffer, Number(address), length);
  }

  text(address, length) {
    return DECODER.decode(this.part(address, length));
  }

  /** Calls a function. After a trap, as by a full stack, every call throws the same error. */
  call(name, ...given) {
    if (this.#trap) {
      throw this.#trap;
    }
    try {
      return this.#functions[name](...given);
    } catch (trap) {
      this.#trap = trap;
      throw trap;
    }
  }

  allocate(size) {
    const address = this.call("cdc6600_allocate", BigInt(size));
    if (address === 0n) {
      throw new Cdc6600Error({ status: OUT_OF_MEMORY });
    }
    return address;
  }

  deallocate(address) {
    this.call("cdc6600_deallocate", address);
  }

  /** Calls `work` with blocks of these sizes, and frees them afterwards. */
  within(sizes, work) {
    const blocks = [];
    try {
      sizes.forEach((size) => blocks.push(this.allocate(size)));
      return work(...blocks);
    } finally {
      blocks.forEach((block) => this.deallocate(block));
    }
  }

  /** Calls `work` with blocks for an outcome and a fault line, and with the words of a call: each text among the
   * arguments becomes the address and the length of its bytes. */
  withWords(given, work) {
    const texts = given.filter((it) => it instanceof Uint8Array);
    return this.within([OUTCOME, LINE, ...texts.map((it) => it.length)], (outcome, line, ...blocks) => {
      texts.forEach((it, at) => this.part(blocks[at], it.length).set(it));
      const words = given.flatMap((it) => (it instanceof Uint8Array ? [blocks.shift(), BigInt(it.length)] : [it]));
      return work(outcome, line, words);
    });
  }

  /** The struct cdc6600_outcome, with the fault line. */
  outcome(address, line) {
    const view = this.view(address);
    const [printed, told] = [0, 8].map((at) => Number(view.getBigUint64(at, true)));
    return { length: printed, told: this.text(line, Math.min(told, LINE)), status: view.getUint8(16) };
  }

  /** Makes a call with room for so many bytes of output. `length` is that of the whole output. */
  print(name, given, room) {
    return this.withWords(given, (outcome, line, words) => this.within([room], (output) => {
      this.call(name, outcome, ...words, output, BigInt(room), line, BigInt(LINE));
      const { length, told, status } = this.outcome(outcome, line);
      return { length, ran: { printed: this.text(output, Math.min(length, room)), told, status } };
    }));
  }

  /** Makes a call that can be made again, if there is less room at first than its output needs. */
  printAll(name, given) {
    const { length, ran } = this.print(name, given, ROOM);
    return checked(length <= ROOM ? ran : this.print(name, given, length).ran);
  }
}

/** A module with its memory. */
export class Library {
  #calls;
  #spare = new Uint8Array(0);
  #isTrying = false;

  /** Makes a library from the bytes of a module. */
  static async of(bytes) {
    if (!canRun(bytes)) {
      throw new Error("this engine can't run the module: it has no WebAssembly, or none with 64-bit memory");
    }
    const { module, instance } = await WebAssembly.instantiate(bytes);
    return new Library(instance.exports, WebAssembly.Module.customSections(module, "unproved").length === 0);
  }

  constructor(exports, isProved) {
    this.#calls = new Calls(exports);
    this.isProved = isProved;
  }

  get version() {
    return this.#calls.within([LINE], (block) => {
      const length = Number(this.#calls.call("cdc6600_version", block, BigInt(LINE)));
      return this.#calls.text(block, Math.min(length, LINE));
    });
  }

  list(deck) {
    return this.#calls.printAll("cdc6600_list", [bytesOf(deck)]);
  }

  run(deck, budget = DEFAULT_BUDGET) {
    return this.#calls.printAll("cdc6600_run", [bytesOf(deck), budgetOf(budget)]);
  }

  replay(deck, log) {
    return this.#calls.printAll("cdc6600_replay", [bytesOf(deck), bytesOf(log)]);
  }

  events(session, budget = DEFAULT_BUDGET) {
    return this.#calls.printAll("cdc6600_events", [bytesOf(session), budgetOf(budget)]);
  }

  /** A machine that isn't booted yet. */
  machine() {
    this.#refuseWhileTrying();
    return new Machine(this.#calls, () => this.#refuseWhileTrying());
  }

  /** Calls `work` and returns its result, and restores the memory of the module, and so each machine in it. `work` may
   * boot and change machines, but it may neither make nor free one, and it has to be done when it returns. */
  trying(work) {
    this.#refuseWhileTrying();
    const before = this.#calls.bytes;
    if (this.#spare.length !== before.length) {
      this.#spare = new Uint8Array(before.length);
    }
    this.#spare.set(before);
    this.#isTrying = true;
    try {
      return work();
    } finally {
      this.#isTrying = false;
      this.#calls.bytes.set(this.#spare);
    }
  }

  #refuseWhileTrying() {
    if (this.#isTrying) {
      throw new Error("within `trying` no machine is made or freed, and there is no other `trying`");
    }
  }
}

/** A machine that is driven event by event. The module's memory holds it until it is freed. */
export class Machine {
  #calls;
  #beforeFree;
  #handle;

  constructor(calls, beforeFree) {
    this.#calls = calls;
    this.#beforeFree = beforeFree;
    this.#handle = calls.allocate(MACHINE);
    calls.part(this.#handle, MACHINE).fill(0);
  }

  /** The address of the struct cdc6600_machine. */
  get #address() {
    if (this.#handle === null) {
      throw new Cdc6600Error({ status: NO_MACHINE });
    }
    return this.#handle;
  }

  /** Boots the machine with the memory of a deck. A machine that was booted before is freed. */
  boot(deck, budget = DEFAULT_BUDGET) {
    const given = [this.#address, bytesOf(deck), budgetOf(budget)];
    return this.#calls.withWords(given, (outcome, line, words) => {
      this.#calls.call("cdc6600_boot", outcome, ...words, line, BigInt(LINE));
      const { told, status } = this.#calls.outcome(outcome, line);
      return checked({ printed: "", told, status });
    });
  }

  /** Makes the event that a line of a schedule says. It is made once, since its answer has room. */
  event(line) {
    return checked(this.#calls.print("cdc6600_event", [this.#address, bytesOf(line)], ANSWER).ran);
  }

  /** The line of the answer that the event of a line would get, and the number of each reservation that holds the event
   * back, a line each. */
  judge(line) {
    return this.#calls.printAll("cdc6600_judge", [this.#address, bytesOf(line)]);
  }

  next() {
    return checked(this.#calls.print("cdc6600_next", [this.#address], ANSWER).ran);
  }

  log() {
    return this.#calls.printAll("cdc6600_log", [this.#address]);
  }

  dump() {
    return this.#calls.printAll("cdc6600_dump", [this.#address]);
  }

  /** Makes the next event up to so many times, and stops at an address if one is given. Returns how many events were
   * made. */
  advance(most, address = NO_ADDRESS) {
    return Number(this.#calls.call("cdc6600_advance", this.#address, BigInt(most), natural(address)));
  }

  drain() {
    return this.#calls.call("cdc6600_drain", this.#address);
  }

  /** A line for each functional unit that an instruction holds. */
  units() {
    return this.#calls.printAll("cdc6600_units", [this.#address]);
  }

  /** A line for each place of the hopper in which a reference waits. */
  hopper() {
    return this.#calls.printAll("cdc6600_hopper", [this.#address]);
  }

  /** A line for each load channel in which a load waits. */
  channels() {
    return this.#calls.printAll("cdc6600_channels", [this.#address]);
  }

  /** The numbers of the busy banks, a line each. */
  banks() {
    return this.#calls.printAll("cdc6600_banks", [this.#address]);
  }

  /** The package of the requested exchange, as a line, or nothing. */
  request() {
    return this.#calls.printAll("cdc6600_request", [this.#address]);
  }

  /** The instruction that is issued next, as a line with P, the parcel and its text. */
  nextInstruction() {
    return this.#calls.printAll("cdc6600_next_instruction", [this.#address]);
  }

  /** A line for each register that an issued instruction is still to write. */
  reservedRegisters() {
    return this.#calls.printAll("cdc6600_reserved_registers", [this.#address]);
  }

  /** A line for each operand that an issued instruction is still to read. */
  unreadOperands() {
    return this.#calls.printAll("cdc6600_unread_operands", [this.#address]);
  }

  get isDrained() {
    return this.#calls.call("cdc6600_is_drained", this.#address) !== 0;
  }

  registers() {
    return this.#calls.within([REGISTERS], (block) => {
      const status = this.#calls.call("cdc6600_read_registers", this.#address, block) & 0xff;
      checked({ status });
      return registersIn(this.#calls.view(block));
    });
  }

  /** Words of memory from an absolute address on: as many as there are, and at most so many. */
  words(first, count) {
    const there = this.#readWords(natural(first), 0, (length) => length);
    return this.#readWords(first, Math.min(natural(count), there), (length, words) => words);
  }

  #readWords(first, count, work) {
    return this.#calls.within([OUTCOME, 8 * count], (outcome, block) => {
      this.#calls.call("cdc6600_read_words", outcome, this.#address, first, block, BigInt(count));
      const { length, status } = this.#calls.outcome(outcome, block); // which has no fault line
      checked({ status });
      const view = this.#calls.view(block);
      return work(length, Array.from({ length: count }, (_, at) => view.getBigUint64(8 * at, true)));
    });
  }

  /** Frees the machine. Afterwards every call but this one throws. */
  free() {
    if (this.#handle !== null) {
      this.#beforeFree();
      this.#calls.call("cdc6600_free", this.#handle);
      this.#calls.deallocate(this.#handle);
      this.#handle = null;
    }
  }
}

/** The struct cdc6600_registers. */
function registersIn(view) {
  const numbers = (from, length) => Array.from({ length }, (_, at) => view.getUint32(from + 4 * at, true));
  const x = Array.from({ length: 8 }, (_, at) => view.getBigUint64(8 * at, true));
  const [p, ra, fl, em] = numbers(128, 4);
  const [parcel, halt, fault, hasHeld] = [144, 145, 146, 147].map((at) => view.getUint8(at));
  const held = hasHeld ? view.getBigUint64(152, true) : null;
  return { x, a: numbers(64, 8), b: numbers(96, 8), p, ra, fl, em, parcel, halt, fault: fault !== 0,
    opcode: view.getUint16(148, true), held };
}
