// Counts minor cycles by the times of tools/cdc6600/timing/thornton.times, as tools/cdc6600/timing/clock.py does. An
// event happens when the event before it has happened and its own part is ready. So these are the earliest times at
// which the events can happen in this order. A refused event takes no time, and neither does a request for an exchange
// or a peripheral access. No rule of the machine is here: asking.js has from the machine what each event was about, the
// unit and the length of an instruction, whether a branch leads elsewhere, and which bank takes a reference.

const TIMES = GIVEN.times;

/** The name of the time that a reservation's unit takes from its read event to its finish event. */
function unitTime({ unit, isBranch, isTaken }) {
  if (isBranch) {
    return isTaken ? "taken" : "untaken";
  }
  return unit.replace(/[12]$/, "");
}

/** How many cycles a reservation takes from one of its events to the next one. */
function between(before, kind, row) {
  const names = { "read finish": unitTime(row), "store accept": "hopper", "accept return": "access" };
  return TIMES[names[`${before} ${kind}`]] ?? 0;
}

class Clock {
  constructor() {
    this.now = 0;
    // The cycles from which on the issuing position and each busy bank are ready.
    this.issuing = 0;
    this.banks = {};
    // The kind and the cycle of each reservation's last event, by its number.
    this.last = [];
  }

  /** The clock after some events. */
  static after(steps, rows) {
    const clock = new Clock();
    steps.forEach((it) => clock.note(it, rows));
    return clock;
  }

  /** The cycle at which the last event has happened and the last issue is over. */
  get total() { return Math.max(this.now, this.issuing); }

  /** Goes on to a cycle, unless it is over. */
  advance(cycle) { this.now = Math.max(this.now, cycle); }

  /** Notes an event with the reservations by their numbers; the cycle of the event. */
  note({ event, refused, mark: { row }, state }, rows) {
    const [kind, field] = event.split(" ");
    if (!refused) {
      this.make(kind, Number(field), rows[row], state);
    }
    return this.now;
  }

  /** Makes an event: of the issuing position, of a bank with its number, or else of a reservation if it has one. */
  make(kind, number, row, state) {
    if (kind === "issue" || kind === "exchange") {
      this.advance(this.issuing);
      this.issuing = this.now + TIMES[kind === "issue" ? `issue${row?.isLong ? 30 : 15}` : kind];
    } else if (kind === "bank") {
      this.advance(this.banks[number]);
    } else if (row) {
      const before = this.last[row.number];
      this.advance(before.cycle + between(before.kind, kind, row));
    }
    if (kind === "accept") {
      this.banks[keyOf(state.banks, row.number)] = this.now + TIMES.bank;
    }
    if (row) {
      this.last[row.number] = { kind, cycle: this.now };
    }
  }
}
