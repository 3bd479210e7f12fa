// A machine that is driven: the events made so far, each with what the panel shows after it.

const UNITS = Object.keys(GIVEN.names);
const MOST_EVENTS = 1000;

/** The number that octal digits stand for in ones' complement. */
function numberOf(digits) {
  const whole = (1n << BigInt(3 * digits.length)) - 1n;
  const value = BigInt(`0o${digits}`);
  return value > whole / 2n ? `-${whole - value}` : String(value);
}

/** The first words that a deck shows: the address of each row of words, and how many these are. */
function shownBy(deck) {
  let free = GIVEN.limits.shown;
  return [...deck.matchAll(/^show ([0-7]+) ([0-7]+)$/gm)].map(([, ...ends]) => {
    const [first, last] = ends.map((it) => parseInt(it, 8));
    const count = Math.min(last - first + 1, free);
    free -= count;
    return [first, count];
  });
}

/** The result of a call of the library, or its failure: both have a fault line, a status and what was printed. */
function attempt(work) {
  try {
    return work();
  } catch (failure) {
    if (failure.status === undefined) {
      throw failure;
    }
    return failure;
  }
}

class Driven {
  constructor(library, deck) {
    this.library = library;
    this.deck = deck;
    this.machine = library.machine();
    this.booted = attempt(() => this.machine.boot(deck));
    if (this.booted.status !== 0) {
      return;
    }
    this.shown = shownBy(deck);
    this.package = plain(/^start ([0-7]+)$/m.exec(deck)?.[1] ?? "0");
    this.asking = new Asking(library, this.machine);
    this.words = new Words(this.asking, /^core (\d+)/.exec(deck)[1]);
    this.start = this.valuesNow();
    this.boot = { state: this.asking.state, count: this.asking.rows.length, ...this.words.panel("none") };
    this.steps = [];
    this.moments = new Moments();
    this.clock = new Clock();
    // The events that were taken back and can be made again, the next one first.
    this.undone = [];
  }

  get last() { return this.steps.at(-1) ?? { ...this.boot, event: "", holds: [], values: this.start, log: "none" }; }

  get log() { return this.last.log; }

  /** The registers and the shown words by their names, in octal digits. */
  valuesNow() {
    const { now } = this.asking.state;
    const found = {};
    for (const kind of ["x", "a", "b"]) {
      now[kind].forEach((value, n) => { found[`${kind.toUpperCase()}${n}`] = octal(value, kind === "x" ? 20 : 6); });
    }
    for (const [first, count] of this.shown) {
      this.machine.words(first, count).forEach((word, n) => { found[octal(first + n, 6)] = octal(word, 20); });
    }
    return found;
  }

  /** The value of a register now, or that of the word at an absolute address; none if there is no such. */
  valueOf(name, address) {
    if (address === null) {
      return this.valuesNow()[name] ?? null;
    }
    const [word] = this.machine.words(address, 1);
    return word === undefined ? null : octal(word, 20);
  }

  /** What holds up the next event of each pending reservation in this state, and the next issue, which has none yet. */
  holds() {
    const parts = [[0, "issue"], ...this.asking.pending.map((row) => [row, this.asking.next(row)])];
    return parts.map(([row, event]) => [row, this.asking.judge(event)]).filter(([, it]) => isRefusal(it.answer))
      .map(([row, it]) => [row, heldBy(it)]);
  }

  /** Makes an event; what is shown of it, or what is wrong with its line. */
  make(event) {
    const before = { state: this.asking.state, ...this.asking.before(event) };
    const held = this.holds();
    const ran = attempt(() => this.machine.event(event));
    if (ran.status !== 0) {
      return { event, wrong: `That is no event: ${event}` };
    }
    const answer = ran.printed.trimEnd();
    const refused = isRefusal(answer);
    const found = refused ? this.refused(event, before) : this.made(event, answer, before);
    const log = this.machine.log().printed.trimEnd();
    const values = this.valuesNow();
    const changed = Object.keys(values).filter((name) => values[name] !== this.last.values[name]);
    const step = { number: this.steps.length + 1, event, answer, refused, ...found, values, changed, log, held,
      state: this.asking.state, count: this.asking.rows.length, ...this.words.panel(log) };
    step.cycle = this.clock.note(step, this.asking.rows);
    this.steps.push(step);
    this.moments.note(step);
    this.undone = [];
    return step;
  }

  refused(event, { row }) {
    const judged = this.asking.judge(event);
    return { mark: { row, mark: judged.answer.split(" ")[0] }, words: this.words.why(judged),
      holds: judged.rows.map(String) };
  }

  made(event, answer, before) {
    const mark = this.asking.follow(event, answer, before);
    return { mark, words: this.words.told(event, answer, mark, before.state, this.asking.state), holds: [] };
  }

  /** Takes the last events back, by a new boot and the events before them. */
  undo(count = 1) {
    const left = Math.max(this.steps.length - count, 0);
    const steps = this.steps.slice(0, left);
    this.undone = [...this.steps.slice(left).map((it) => it.event), ...this.undone];
    this.machine.boot(this.deck);
    steps.forEach((it) => this.machine.event(it.event));
    this.steps = steps;
    this.moments = Moments.after(steps, this.moments);
    this.clock = Clock.after(steps, this.asking.rows);
    const now = steps.at(-1) ?? this.boot;
    this.asking.rows.length = now.count;
    this.asking.set(now.state);
  }

  /** Makes the event again that was taken back last. */
  redo() {
    const [event, ...others] = this.undone;
    this.make(event);
    this.undone = others;
  }

  /** Each event that the machine would make or refuse for more than that there is nothing to do, with its answer and
   * the reservations that hold it back. */
  offers() {
    const units = UNITS.flatMap((unit) => ["read", "finish", "store"].map((kind) => `${kind} ${unit}`));
    const numbered = Object.entries(GIVEN.numbers).flatMap(([kind, all]) => all.map((number) => `${kind} ${number}`));
    const ask = [`ask ${this.package}`];
    const isHalted = this.asking.state.halt !== RUNNING;
    const all = ["exchange", ...(isHalted ? ask : []), "issue", ...units, ...numbered, ...(isHalted ? [] : ask)];
    return all.map((event) => this.asking.judge(event)).filter((it) => it.answer !== NOTHING);
  }

  /** What an event is about. */
  about(event) {
    const [kind] = event.split(" ");
    const row = this.asking.about(event);
    const texts = { issue: () => this.words.next(), exchange: () => `package at ${this.asking.state.asked}`,
      ask: () => "the deck's package", bank: () => "busy" };
    return row ? `${row} ${this.asking.rows[row].text}` : texts[kind]?.() ?? "";
  }

  /** The event that a drain would make next; with nothing pending the exchange or else an issue, and at first the
   * request for the deck's package; none if that would be refused. */
  next() {
    const { state } = this.asking;
    if (this.tried?.state !== state) {
      this.tried = { state, lines: this.library.trying(() => this.machine.next().printed.split("\n")) };
    }
    const [event, answer] = this.tried.lines;
    if (!isRefusal(answer)) {
      return event;
    }
    return state.asked || this.log !== "none" ? "" : `ask ${this.package}`;
  }

  /** Makes next events until a condition holds or none is left; whether the condition holds. */
  until(isEnd, next = () => this.next()) {
    for (let made = 0; made < MOST_EVENTS; made++) {
      const event = isEnd(made) ? "" : next();
      if (!event) {
        return isEnd(made);
      }
      this.make(event);
    }
    return false;
  }

  drain() { this.until(() => this.machine.isDrained); }

  /** Whether the dump of the drained machine is that of its log, one instruction at a time. */
  agrees() { return this.machine.dump().printed === this.library.replay(this.deck, this.log).printed; }

  /** The session so far, as the tools take it. */
  session() { return `${this.deck}${[...this.steps.map((it) => it.event), "end"].join("\n")}\n`; }

  /** The rows of the table of the reservations. */
  reservations() {
    this.moments.hold(this.holds());
    return this.moments.rows.slice(1);
  }
}
