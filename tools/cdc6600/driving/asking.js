// Asks the machine after each event what its parts have, and which reservations hold an event back. No rule of the
// machine is here: units, places, channels, banks, registers, operands, refusals and their holders are those that the
// calls of the library print. What no call prints shows itself when the machine is tried: which register a unit's store
// is going to write, whether a branch leads elsewhere, and which bank and which channel take a reference. The page
// itself only notes what the machine forgets: the text of a reservation, its length and whether it is a branch, whose
// reference made a bank busy, and whose reference set the fault flag.

const RUNNING = "running";
const NOTHING = "E15 nothing";
const HALTED = /^E1 halted (.*)/;
const BRANCH_PENDING = /^E4 /;
// The parcels of a long instruction.
const LONG = 2;
const CODES = /^E(\d+) /;
const LETTERS = { issue: "I", read: "R", finish: "F", store: "S", accept: "A", return: "L", ask: "Q", exchange: "X",
  ppread: "P", ppwrite: "W" };
// The part of the machine whose reservation an event is about.
const PARTS = { read: "units", finish: "units", store: "units", accept: "places", return: "channels" };
// The machine has this access wait for each reservation whose reference hasn't come yet, since it may be for any word.
const ANY_ACCESS = "ppread 0";

const isRefusal = (answer) => CODES.test(answer);
const octal = (number, digits = 1) => number.toString(8).padStart(digits, "0");
const plain = (digits) => digits.replace(/^0+(?=.)/, "");
const inOrder = (rows) => [...rows].sort((one, other) => one - other);
const keyOf = (part, row) => Object.keys(part).find((key) => part[key] === row);
/** The registers that a reservation is still to write. */
const resultsOf = ({ registers }, row) => Object.keys(registers).filter((key) => registers[key] === row);
/** The registers that a reservation is still to read, each once. B0, which is always 0, isn't told. */
const operandsOf = ({ unread }, row) =>
  [...new Set(unread.filter((it) => it[0] === row).map((it) => it[1]))].filter((it) => it !== "B0");
/** The operands for which reservations wait: the reservation, the register, and the reservation that will write it. */
const awaitedIn = ({ unread }) => unread.filter((it) => it[2]);
/** The registers that a reservation wrote from one state to another. */
const writtenBy = (row, before, after) => resultsOf(before, row).filter((it) => after.registers[it] !== row);
/** The value that a register has in a state. */
const valueIn = ({ now }, name) => octal(now[name[0].toLowerCase()][name[1]]);

/** The reservations that lines have in their second fields, by the first ones. */
const rowsIn = (lines) => Object.fromEntries(lines.map(([key, row]) => [key, Number(row)]));

class Asking {
  constructor(library, machine) {
    this.library = library;
    this.machine = machine;
    this.rows = [null];
    this.state = { banks: {}, fault: 0, takers: {} };
    this.set(this.asked(0));
  }

  /** Takes a state as that of the machine now. */
  set(state) {
    this.state = state;
    this.answers = new Map();
  }

  /** The lines that a call prints, each as its fields. */
  lines(call) { return this.machine[call]().printed.split("\n").filter(Boolean).map((it) => it.split(" ")); }

  /** The registers, and those that reservations are still to write. */
  registers() { return { now: this.machine.registers(), registers: rowsIn(this.lines("reservedRegisters").sort()) }; }

  /** What the parts have now. A bank that wasn't busy and a fault flag that wasn't set are due to the given row. */
  asked(row) {
    const { banks, fault } = this.state;
    const [units, places, arrived] = ["units", "hopper", "channels"].map((call) => this.lines(call));
    const takers = this.takersOf(places);
    const loads = places.map(([, number]) => [takers[number].channel, number]).filter(([channel]) => channel);
    const [[address, parcel, ...next]] = this.lines("nextInstruction");
    const { now, registers } = this.registers();
    const byRow = (lines, work) => Object.fromEntries(lines.map((it) => [it[1], work(it)]));
    return {
      units: rowsIn(units), phases: byRow(units, (it) => it[2]), texts: byRow(units, (it) => it.slice(3).join(" ")),
      places: rowsIn(places), addresses: byRow(places, (it) => it[2]), takers,
      channels: rowsIn([...arrived, ...loads]), words: byRow(arrived, (it) => it[2]),
      banks: Object.fromEntries(this.lines("banks").map(([bank]) => [bank, banks[bank] ?? row])), registers,
      unread: this.lines("unreadOperands").map((it) => [Number(it[0]), it[1], Number(it[2] ?? 0)]),
      asked: this.lines("request").join(""), fault: now.fault ? fault || row : 0, now,
      halt: HALTED.exec(this.machine.judge("issue").printed)?.[1] ?? RUNNING, address, parcel, next: next.join(" "),
    };
  }

  /** What the machine would answer to an event now, and the reservations that hold the event back. */
  judge(event) {
    if (!this.answers.has(event)) {
      const [answer, ...rows] = this.machine.judge(event).printed.trimEnd().split("\n");
      const [code, ...named] = answer.split(" ");
      const noted = { E2: this.state.fault, E13: this.state.banks[named.at(-1)] }[code];
      this.answers.set(event, { event, answer, rows: noted ? [noted] : rows.map(Number) });
    }
    return this.answers.get(event);
  }

  /** The word of memory at an absolute address in octal digits, or none. */
  word(address) { return this.machine.words(parseInt(address, 8), 1)[0]; }

  /** The reservations with an effect still to come, oldest first. */
  get pending() {
    const { units, places, channels } = this.state;
    return inOrder(new Set([units, places, channels].flatMap((it) => Object.values(it))));
  }

  /** Whether it is open which instruction comes next: the machine is halted, or a branch is pending. */
  get isOpen() {
    const { halt, units } = this.state;
    return halt !== RUNNING || Object.values(units).some((row) => this.rows[row].isBranch);
  }

  /** The event that a pending reservation makes next: of those about it the one for which the machine has something to
   * do. */
  next(row) {
    const found = Object.entries(PARTS).map(([kind, name]) => [kind, keyOf(this.state[name], row)]);
    const events = found.filter(([, key]) => key !== undefined).map((it) => it.join(" "));
    return events.find((event) => this.judge(event).answer !== NOTHING);
  }

  /** The reservation that an event is about, or 0. */
  about(event) {
    const [kind, field = ""] = event.split(" ");
    return this.state[PARTS[kind]]?.[plain(field)] ?? 0;
  }

  /** What is asked before an event: the reservation that it is about, and whether that makes a reference at it. */
  before(event) {
    const row = this.about(event);
    return { row, refers: event.startsWith("store ") && this.judge(ANY_ACCESS).rows.includes(row) };
  }

  /** Asks the machine after an event that it made, by what was asked before it; the event's mark and the mark's row. */
  follow(event, answer, { row: about, refers }) {
    const [[kind, field], [, unit, number = about]] = [event, answer].map((it) => it.split(" "));
    const row = Number(number);
    const { parcel } = this.state;
    this.set(this.asked(row));
    if (kind === "issue" && row) {
      const isBranch = BRANCH_PENDING.test(this.judge("issue").answer);
      const isLong = (Number(this.state.parcel) - Number(parcel) + PARCELS) % PARCELS === LONG;
      this.rows[row] = { number: row, unit, text: this.state.texts[row], isBranch, isLong };
    }
    if (kind === "finish" && this.rows[row].isBranch) {
      this.rows[row].isTaken = this.leadsElsewhere(field);
    }
    const place = keyOf(this.state.places, row);
    const marks = { store: place ? `H${place}` : refers ? "O" : "S", bank: `B${Number(field)}` };
    return { row, refers, mark: marks[kind] ?? LETTERS[kind] };
  }

  // ---- what shows itself when the machine is tried ----

  /** Tries the events of a drain up to this one: what `work` finds before it, and after it. */
  around(event, work) {
    return this.library.trying(() => {
      let [before, made] = [null, ""];
      while (made !== event) {
        before = work();
        [made] = this.machine.next().printed.split("\n");
      }
      return [before, work()];
    });
  }

  /** Who takes each reference that waits in the hopper, by its reservation. It is asked once, when the reference has
   * come there. */
  takersOf(places) {
    return Object.fromEntries(places.map(([place, number]) =>
      [number, this.state.takers[number] ?? this.taker(place, number)]));
  }

  /** The bank that takes the reference in a place, and for a load the channel in which its word waits then. */
  taker(place, number) {
    const work = () => ["banks", "channels"].map((call) => this.lines(call));
    const [[busy], [banks, channels]] = this.around(`accept ${place}`, work);
    const [bank] = banks.flat().filter((it) => !busy.flat().includes(it));
    return { bank, channel: channels.find((it) => it[1] === number)?.[0] };
  }

  /** Whether the store of a unit is going to change where the next instruction is, as that of a branch may do. */
  leadsElsewhere(unit) {
    const [before, after] = this.around(`store ${unit}`, () => this.lines("nextInstruction")[0].slice(0, 2).join());
    return before !== after;
  }

  /** The register that the store of a unit is going to write, with its value; or none. */
  result(unit, row) {
    const [before, after] = this.around(`store ${unit}`, () => this.registers());
    const [register = ""] = writtenBy(row, before, after);
    return { register, value: register && valueIn(after, register) };
  }
}
