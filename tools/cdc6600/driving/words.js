// Says in words what an event did or why it was refused, and what the panel shows: by the sentences of words.json, as
// tools/cdc6600/drawing does it for the pages of sessions, and by what the machine was asked.

// What the library prints of an instruction whose word is out of range.
const OUT_OF_RANGE = "?fetch";

class Words {
  constructor(asking, core) {
    this.asking = asking;
    this.core = core;
  }

  get rows() { return this.asking.rows; }

  reservation(row) { return said("reservation", { text: this.rows[row].text, number: String(row) }); }

  reservations(rows) { return rows.map((row) => this.reservation(row)); }

  /** Where the program is in a state. */
  position({ address, parcel }) { return said("position", { address, parcel: parcel === "0" ? "" : parcel }); }

  // ---- what an event did ----

  /** What an event did: `before` and `after` are the states, and `refers` is whether a reference was made. */
  told(event, answer, { row, refers }, before, after) {
    const [kind, ...fields] = event.split(" ");
    const words = { ppread: "peripheralRead", ppwrite: "peripheralWrite", return: "loadReturn" };
    return sentence(this[words[kind] ?? kind]({ answer, row, refers, before, after }, ...fields));
  }

  issue({ row, before, after }) {
    if (!row) {
      return this.issueAlone(before, after);
    }
    const { text, unit, isBranch } = this.rows[row];
    const awaited = awaitedIn(after).filter(([waiting]) => waiting === row);
    const producers = inOrder(new Set(awaited.map((it) => it[2]))).map(String);
    return said("issue", { text, unit: GIVEN.names[unit], number: String(row), results: resultsOf(after, row),
      awaited: awaited.map((it) => it[1]), producers, branch: isBranch });
  }

  issueAlone(before, { halt }) {
    const { next } = before;
    return halt === RUNNING ? said("issue of a pass", { text: next })
      : said("issue that halts", { what: this.halting(before, next), halt });
  }

  halting(before, text) {
    const others = { [OUT_OF_RANGE]: "issue out of range", "?straddle": "issue of a straddle" };
    const key = others[text] ?? (text[0] === "?" ? "issue of an opcode" : "issue of a stop");
    return said(key, { position: this.position(before), opcode: text.slice(1), text });
  }

  read({ row, before }, unit) {
    const values = operandsOf(before, row)
      .map((register) => said("is", { register, value: valueIn(before, register) }));
    const given = { unit: GIVEN.names[unit], it: this.reservation(row), values };
    return said(values.length ? "read" : "read of nothing", given);
  }

  finish({ row }, unit) {
    const given = { unit: GIVEN.names[unit], it: this.reservation(row) };
    return this.rows[row].isBranch ? said("finish of a branch", given)
      : said("finish", { ...given, ...this.asking.result(unit, row) });
  }

  store({ row, refers, before, after }, unit) {
    const becomes = writtenBy(row, before, after)
      .map((register) => said("becomes", { register, value: valueIn(after, register) }));
    if (this.rows[row].isBranch) {
      becomes.push(said("goes on", { position: this.position(after) }));
    }
    becomes.push(said("free", { unit: GIVEN.names[unit] }));
    return said("store", { becomes, reference: refers ? this.entered(after, row) : "" });
  }

  entered(state, row) {
    const [place, channel = ""] = [state.places, state.channels].map((part) => keyOf(part, row));
    return place === undefined ? said("reference out of range", { channel, fault: state.fault === row })
      : said("reference", { channel, word: said("word", this.word(row, state)), place });
  }

  /** The word of a reference that waits in the hopper, and its bank. */
  word(row, { addresses, takers }) { return { address: addresses[row], bank: takers[row].bank }; }

  accept({ row, before, after }) {
    const { address, bank } = this.word(row, before);
    const channel = keyOf(after.channels, row) ?? "";
    const stored = this.rows[row].isBranch ? said("link") : octal(this.asking.word(address));
    return said("accept", { bank, it: this.reservation(row), address, channel, stored,
      loaded: channel && plain(after.words[row]) });
  }

  loadReturn({ row, before, after }) {
    const [register] = writtenBy(row, before, after);
    return said("return", { it: this.reservation(row), register, value: valueIn(after, register) });
  }

  bank(_, bank) { return said("bank", { bank: String(Number(bank)) }); }

  ask({ before, after }) { return said("ask", { package: after.asked, runs: before.halt === RUNNING }); }

  exchange({ before, after }) {
    return said("exchange", { package: before.asked, position: this.position(after), reference: octal(after.now.ra),
      length: octal(after.now.fl) });
  }

  peripheralRead({ answer }, address) {
    return said("ppread", { address: plain(address), word: plain(answer.split(" ")[1]) });
  }

  peripheralWrite(_, address, word) { return said("ppwrite", { address: plain(address), word: plain(word) }); }

  // ---- why an event is refused ----

  /** Why an event is refused in the state now. */
  why({ event, answer, rows }) {
    const [code] = answer.split(" ");
    const named = answer.split(" ").at(-1);
    const { state } = this.asking;
    const others = { E1: () => said(`E1 ${named}` in GIVEN.sentences ? `E1 ${named}` : "E1"),
      E7: () => this.unitBusy(named, rows), E15: () => this.nothing(event) };
    const coming = rows.filter((row) => row in state.phases);
    const entered = rows.filter((row) => !coming.includes(row));
    const given = () => ({ by: this.reservations(rows), register: named, bank: named, package: state.asked,
      core: String(this.core), next: state.next, parcel: state.parcel, ...this.part(event),
      coming: this.reservations(coming), entered: this.reservations(entered) });
    return sentence((others[code] ?? (() => said(code, given())))());
  }

  /** The reservation that an event is about, and its word; for a peripheral access the word. */
  part(event) {
    const [kind, field] = event.split(" ");
    if (kind.startsWith("pp")) {
      return { address: plain(field) };
    }
    const row = this.asking.about(event);
    return row ? { it: this.reservation(row), address: this.asking.state.addresses[row] } : {};
  }

  unitBusy(named, rows) {
    const units = Object.entries(this.asking.state.units).filter(([, row]) => rows.includes(row));
    const has = units.map(([unit, row]) => said("unit has", { unit: GIVEN.names[unit], it: this.reservation(row) }));
    const either = has.length > 1;
    const one = said(has.length ? "E7 one" : "E7 none", { unit: GIVEN.names[named], by: this.reservations(rows) });
    return said("E7", { next: this.asking.state.next, either, has,
      units: either ? units.map(([unit]) => GIVEN.names[unit]).join(" or ") : one });
  }

  nothing(event) {
    const [kind, field] = event.split(" ");
    const { state } = this.asking;
    const row = this.asking.about(event);
    if (["read", "finish", "store"].includes(kind)) {
      const unit = GIVEN.names[field];
      return row ? said(`E15 ${state.phases[row]}`, { unit, it: this.reservation(row) }) : said("E15 unit", { unit });
    }
    if (kind === "exchange") {
      return said("E15 exchange");
    }
    if (kind === "return" && row) {
      return said("E15 load", { it: this.reservation(row), place: keyOf(state.places, row) ?? "" });
    }
    const isThere = GIVEN.numbers[kind].includes(Number(field));
    return said(`E15 ${kind}`, { number: isThere ? String(Number(field)) : "", none: String(Number(field)) });
  }

  // ---- the panel ----

  /** The rows of the panel now, by their parts. */
  panel(log) {
    const { state } = this.asking;
    const labelled = (row, ...more) => [String(row), this.rows[row].text, ...more];
    const each = (part, more) =>
      Object.fromEntries(Object.entries(part).map(([key, row]) => [key, labelled(row, ...more(row))]));
    const load = (row) => said("panel load", { place: keyOf(state.places, row) ?? "" });
    return {
      machine: this.machine(log), units: each(state.units, (row) => [this.phase(row)]),
      places: each(state.places, (row) => [said("panel word", this.word(row, state))]),
      channels: each(state.channels, (row) => [load(row)]), banks: each(state.banks, () => []),
      registers: each(state.registers, (row) => [GIVEN.names[this.rows[row].unit]]),
    };
  }

  phase(row) {
    const { state } = this.asking;
    const awaited = awaitedIn(state).filter(([waiting]) => waiting === row)
      .map(([, register, producer]) => said("awaits", { register, producer: String(producer) }));
    return said("panel phase", { phase: state.phases[row], awaited });
  }

  machine(log) {
    const { asked, halt, fault } = this.asking.state;
    const state = said("panel state", { halt: halt === RUNNING ? "" : halt, fault: String(fault || "") });
    return { Machine: state, Next: this.next(), Exchange: said("panel exchange", { package: asked }), Log: log };
  }

  /** What is issued next. */
  next() {
    const { halt, now, next, address, parcel } = this.asking.state;
    if (this.asking.isOpen) {
      return said(halt === RUNNING ? "panel branch" : "panel none");
    }
    const text = next === OUT_OF_RANGE ? "" : next;
    return said("panel next", { text, address, parcel: now.held === null ? "" : parcel });
  }
}
