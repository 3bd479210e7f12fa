// The assembler of tools/assemble. The words, patterns and faults of its language are those of language.json, and the
// forms of instructions those of tools/cdc6600/assembling. tools/check driving compares the two assemblers.

const LANGUAGE = GIVEN.language;
const { limits: LIMITS } = GIVEN;
const PARCELS = 4;
const PASS_PARCEL = 0o46000;
const INDEX_BITS = 18n;
const WORD_BITS = 60n;
const MIDDLE = 36n;
const FIRST_X = 8;
const FIELDS = /jk|[ijkK]/g;
const FORMS = GIVEN.forms.map((it) => ({ ...it, operation: whole(it.operation), operands: whole(it.operands),
  hasValue: /\(\?<(K|jk)>/.test(it.operands), row: GIVEN.instructions.find((row) => row.code === it.code) ?? null }));
// The operations that stand for others.
const SHORT = { BSSZ: "BSS", CON: "DATA" };

function whole(pattern) { return new RegExp(`^(?:${pattern})$`, "s"); }

/** What a pattern of the language finds in a text, from a place on. */
function match(name, text, at = 0) {
  const pattern = new RegExp(LANGUAGE.patterns[name], "sy");
  pattern.lastIndex = at;
  return pattern.exec(text);
}

const isWhole = (name, text) => whole(LANGUAGE.patterns[name]).test(text);
const isSource = (text) => !/^core /.test(text);

class Wrong extends Error {
  constructor(column, fault, given = {}) {
    super(filled(LANGUAGE.faults[fault], given));
    this.column = column;
  }
}

function quoted(text) {
  const all = [...text];
  return all.length <= LANGUAGE.longest ? `'${text}'` : `'${all.slice(0, LANGUAGE.longest).join("")}..'`;
}

// ---- lines ----

class Line {
  constructor(number, text, parts = {}) {
    const none = { label: "", operation: "", operands: "", column: 1, operandsColumn: 1 };
    Object.assign(this, { ...none, ...parts, number, text });
  }

  get statement() { return `${this.operation} ${this.operands}`.trimEnd(); }

  get fields() { return this.parted(" "); }

  get values() { return this.parted(","); }

  /** The parts of the operands between marks that are in no text, each with its column. */
  parted(mark) {
    const { operands } = this;
    const marks = [...operands.matchAll(new RegExp(`${LANGUAGE.patterns.text}|${mark}`, "gs"))]
      .filter((it) => it[0] === mark).map((it) => it.index);
    const begins = operands ? [0, ...marks.map((at) => at + 1)] : [];
    return begins.map((at, n) => [operands.slice(at, marks[n]), this.operandsColumn + at]);
  }

  checkLetters() {
    const { label, operation, operands, column: at, operandsColumn } = this;
    for (const [part, column] of [[label, 1], [operation, at], [operands, operandsColumn]]) {
      const read = part.replace(new RegExp(LANGUAGE.patterns.byte, "gs"), "");
      if (new RegExp(LANGUAGE.patterns["small letter"]).test(read)) {
        throw new Wrong(column, "small letters", { text: quoted(part) });
      }
    }
  }
}

function readLine(number, text) {
  if (text.startsWith(LANGUAGE.comment)) {
    return new Line(number, text);
  }
  const [found, label, operation, gap] = match("line", text);
  const column = operation ? found.length - gap.length - operation.length + 1 : text.length + 1;
  const operandsColumn = column + operation.length + Math.max(gap.length, 1);
  const rest = text.slice(found.length);
  const isSetter = LANGUAGE.setters.includes(operation);
  const read = isSetter ? rest.replace(new RegExp(LANGUAGE.patterns.tab, "g"), " ") : rest;
  let [operands] = match("operands", read);
  if (LANGUAGE.alone.includes(operation)) {
    if (gap === " " && operands) {
      throw new Wrong(operandsColumn, "operands of none", { text: quoted(operands), operation });
    }
    operands = "";
  }
  return new Line(number, text, { label, operation, operands, column, operandsColumn });
}

// ---- values ----

const octalOf = (number) => (number < 0n ? `-${(-number).toString(8)}` : number.toString(8));

function numberIn(term, column) {
  const [octal, decimal] = [whole(LANGUAGE.patterns.octal).exec(term), whole(LANGUAGE.patterns.decimal).exec(term)];
  if (term.length > LANGUAGE.digits) {
    throw new Wrong(column, "long number", { count: String([...term].length), most: String(LANGUAGE.digits) });
  }
  if (octal || decimal) {
    return octal ? BigInt(`0o${octal[1]}`) : BigInt(decimal[1]);
  }
  throw new Wrong(column, "no number", { text: quoted(term) });
}

function termOf(term, column, names, above) {
  if (!term) {
    throw new Wrong(column, "missing");
  }
  if (/^[0-9][\x00-\x7f]*$/.test(term)) {
    return numberIn(term, column);
  }
  if (isWhole("register", term)) {
    throw new Wrong(column, "register", { name: term });
  }
  if (!isWhole("name", term)) {
    throw new Wrong(column, "no value", { text: quoted(term) });
  }
  if (!(term in names)) {
    throw new Wrong(column, "undefined", { name: term, above });
  }
  return names[term];
}

/** The number that a text stands for, which begins at this column. */
function valueOf(text, column, names, above = false) {
  let [total, at] = [0n, 0];
  while (at < text.length || at === 0) {
    const [, sign, term] = match(at ? "further term" : "first term", text, at);
    at += sign.length;
    const value = termOf(term, column + at, names, above);
    total += sign === "-" ? -value : value;
    at += term.length;
  }
  return total;
}

function within(number, least, most, column) {
  if (number < least || number > most) {
    throw new Wrong(column, "range", { number: octalOf(number), least: octalOf(least), most: octalOf(most) });
  }
  return number;
}

/** A number as so many bits: a negative one is the complement of its magnitude. */
function fitted(number, bits, column) {
  const ones = (1n << bits) - 1n;
  const found = within(number, -(ones >> 1n), ones, column);
  return found >= 0n ? found : ones + found;
}

// ---- texts of instructions and of DATA ----

const isText = (value) => match("begin of a text", value) !== null;
const codeOf = (character) => BigInt(LANGUAGE.characters.indexOf(character) + 1);

function wordsOf(value, column) {
  const text = value.slice(2, -1);
  if (!(isWhole("text", value) && text)) {
    throw new Wrong(column, "no text", { text: quoted(value) });
  }
  [...text].forEach((character, at) => {
    if (!codeOf(character)) {
      throw new Wrong(column + at + 2, "no display code", { text: character });
    }
  });
  const fill = LANGUAGE.fills[value[0]];
  const codes = [...text].map(codeOf);
  while (codes.length % 10) {
    codes.push(fill ? codeOf(fill) : 0n);
  }
  return Array.from({ length: codes.length / 10 }, (_, n) =>
    codes.slice(10 * n, 10 * n + 10).reduce((word, code) => (word << 6n) + code, 0n));
}

class Instruction {
  constructor(row, digits) { Object.assign(this, { row, digits }); }

  get text() { return this.row.text.replace(FIELDS, (name) => this.digits[name].toString(8)); }

  get parcels() {
    const { digits, row: { code, long } } = this;
    const [j, k] = "jk" in digits ? [digits.jk >> 3, digits.jk & 7] : [digits.j ?? 0, digits.k ?? 0];
    const i = code.length === 3 ? Number(code[2]) : digits.i ?? 0;
    const upper = (parseInt(code.slice(0, 2), 8) << 9) + (i << 6) + (j << 3);
    return long ? [upper + (digits.K >> 15), digits.K & 0o77777] : [upper + k];
  }
}

/** An instruction as it is written: its row, its registers' digits, and the text of its value with its column. */
class Written {
  constructor(row, digits, name, value, column) { Object.assign(this, { row, digits, name, value, column }); }

  get parcels() { return this.row.long ? 2 : 1; }

  instruction(names) {
    if (!this.name) {
      return new Instruction(this.row, this.digits);
    }
    const value = valueOf(this.value, this.column, names);
    const number = this.name === "jk" ? within(value, 0n, BigInt(LANGUAGE["most count"]), this.column)
      : fitted(value, INDEX_BITS, this.column);
    return new Instruction(this.row, { ...this.digits, [this.name]: Number(number) });
  }
}

const formsOf = (operation) => FORMS.map((form) => [form, form.operation.exec(operation)]).filter(([, found]) => found);

function fitting(form, fields, line) {
  const name = ["K", "jk"].find((it) => it in fields) ?? "";
  const value = fields[name] ?? "";
  // The value ends the operands of each form that has one.
  const at = line.operandsColumn + (name ? line.operands.length - value.length : 0);
  const digits = Object.fromEntries(Object.entries(fields).filter(([key]) => key !== name)
    .map(([key, digit]) => [key, Number(digit)]));
  const isSigned = value.startsWith("+");
  return new Written(form.row, digits, name, isSigned ? value.slice(1) : value, isSigned ? at + 1 : at);
}

/** A line of a short form with the text that it stands for. If there is a value, it ends the operands of both. */
function rewritten(line, text, fields) {
  const [operation, operands] = text.replace(FIELDS, (name) => fields[name].replace(/^\+/, "")).split(" ");
  const at = line.operandsColumn + line.operands.length - operands.length;
  return new Line(line.number, line.text, { ...line, operation, operands, operandsColumn: at });
}

function written(line) {
  const found = formsOf(line.operation);
  if (!found.length) {
    if (isWhole("floating point", line.operation)) {
      throw new Wrong(line.column, "floating point", { text: quoted(line.statement) });
    }
    throw new Wrong(line.column, "no operation", { text: quoted(line.operation), others: LANGUAGE.others });
  }
  const rank = ([form]) => 2 * Number(Boolean(form.standsFor)) + Number(form.hasValue);
  for (const [form, operation] of [...found].sort((one, other) => rank(one) - rank(other))) {
    const operands = form.operands.exec(line.operands);
    const fields = { ...operation.groups, ...operands?.groups };
    if (operands) {
      return form.standsFor ? written(rewritten(line, form.standsFor, fields)) : fitting(form, fields, line);
    }
  }
  const shown = found.map(([form]) => form.shown || LANGUAGE.faults.none);
  const forms = shown.length > 1 ? `${shown.slice(0, -1).join(", ")} or ${shown.at(-1)}` : shown[0];
  const { operation, operands } = line;
  const fault = operands ? "doesn't fit" : "no operands";
  throw new Wrong(line.operandsColumn, fault, { text: quoted(operands), operation, forms });
}

// ---- the program ----

/** A word of instructions: its address, and the lines that they are from. */
class Coded {
  constructor(address) { Object.assign(this, { address, parts: [], instructions: [] }); }

  get number() { return this.parts[0][0].number; }

  get free() { return PARCELS - this.parts.reduce((sum, [, it]) => sum + it.parcels, 0); }

  resolve(program) {
    for (const [line, it] of this.parts) {
      program.guarded(line.number, () => this.instructions.push(it.instruction(program.names)));
    }
  }

  get word() {
    const parcels = this.instructions.flatMap((it) => it.parcels);
    const filledUp = [...parcels, ...Array(PARCELS).fill(PASS_PARCEL)].slice(0, PARCELS);
    return filledUp.reduce((word, parcel) => (word << 15n) + BigInt(parcel), 0n);
  }

  get deckLine() { return `code ${this.instructions.map((it) => it.text).join("; ")}`; }
}

/** A word of DATA: its address, its line, the text of its value with its column, and the word if it is known. */
class Given {
  constructor(address, line, text, column, word) { Object.assign(this, { address, line, text, column, word }); }

  get number() { return this.line.number; }

  resolve(program) {
    if (this.word === null) {
      program.guarded(this.number, () => {
        this.word = fitted(valueOf(this.text, this.column, program.names), WORD_BITS, this.column);
      });
    }
  }

  get deckLine() { return `word ${octal(this.word, 20)}`; }
}

class Program {
  constructor(text) {
    const lines = text.split("\n");
    this.texts = (lines.at(-1) ? lines : lines.slice(0, -1)).map((it) => (it.endsWith("\r") ? it.slice(0, -1) : it));
    Object.assign(this, { found: new Map(), names: Object.create(null), defined: {}, words: new Map(), settings: [],
      address: 0, top: 0, open: null, begins: {}, end: 0 });
    this.texts.forEach((line, n) => this.guarded(n + 1, () => this.read(n + 1, line)));
    this.close();
    this.words.forEach((word) => word.resolve(this));
  }

  /** Does some work on a line, and keeps what is wrong with the line. */
  guarded(number, work) {
    try {
      work();
    } catch (wrong) {
      if (!(wrong instanceof Wrong)) {
        throw wrong;
      }
      const column = [...(this.texts[number - 1] ?? "").slice(0, wrong.column - 1)].length
        + Math.max(wrong.column - 1 - (this.texts[number - 1] ?? "").length, 0) + 1;
      this.found.set(`${number} ${column} ${wrong.message}`, [number, column, wrong.message]);
    }
  }

  /** A line for each fault, in the order of the source, and a last one if there are too many. */
  get faults() {
    const compare = (one, other) => one[0] - other[0] || one[1] - other[1] || (one[2] < other[2] ? -1 : 1);
    const found = [...this.found.values()].sort(compare);
    const lines = found.map(([number, column, what]) => `${number}:${column}: ${what}`);
    const most = LANGUAGE["most faults"];
    const more = lines.length > most ? [filled(LANGUAGE.faults.more, { count: String(lines.length - most) })] : [];
    return [...lines.slice(0, most), ...more];
  }

  read(number, text) {
    const line = readLine(number, text);
    const { label, operation } = line;
    if (line.fields.length > 1 && !LANGUAGE.setters.includes(operation)) {
      throw new Wrong(line.fields[1][1] - 1, "blank");
    }
    line.checkLetters();
    if (this.end && (label || operation)) {
      throw new Wrong(1, "after the end", { line: String(this.end) });
    }
    if (operation === LANGUAGE.end) {
      this.finish(line);
    } else if (operation === "EQU") {
      this.equal(line);
    } else {
      this.statement(line);
    }
  }

  statement(line) {
    const { label, operation, number } = line;
    const works = { DATA: this.data, BSS: this.reserve, ORG: this.move };
    const work = works[SHORT[operation] ?? operation];
    const isSetting = [...LANGUAGE.settings, ...LANGUAGE.setters].includes(operation);
    if (label && (isSetting || operation === "ORG")) {
      throw new Wrong(1, "takes no label", { operation });
    }
    if (label || work) {
      this.close();
    }
    if (label) {
      this.guarded(number, () => this.define(line, BigInt(this.address)));
      this.begins[number] = this.address;
    }
    if (isSetting) {
      this.settings.push(line);
    } else if (work) {
      work.call(this, line);
    } else if (operation) {
      this.instruct(line, written(line));
    }
  }

  define(line, value) {
    const name = line.label;
    if (!isWhole("name", name)) {
      throw new Wrong(1, "no label", { text: quoted(name) });
    }
    if (isWhole("register", name)) {
      throw new Wrong(1, "name of a register", { name });
    }
    if (name in this.names) {
      throw new Wrong(1, "defined", { name, line: String(this.defined[name]) });
    }
    this.names[name] = value;
    this.defined[name] = line.number;
  }

  /** The value of a line's operands, by the names that are defined above it. */
  known(line) {
    if (!line.operands) {
      throw new Wrong(line.operandsColumn, "no operand", { operation: line.operation });
    }
    return valueOf(line.operands, line.operandsColumn, this.names, true);
  }

  finish(line) {
    if (line.label) {
      throw new Wrong(1, "takes no label", { operation: LANGUAGE.end });
    }
    if (!["", LANGUAGE.start].includes(line.operands)) {
      throw new Wrong(line.operandsColumn, "operands of END", { text: quoted(line.operands) });
    }
    this.end = line.number;
  }

  equal(line) {
    if (!line.label) {
      throw new Wrong(1, "no name");
    }
    this.define(line, this.known(line));
  }

  move(line) { this.address = Number(within(this.known(line), 0n, BigInt(LIMITS.words - 1), line.operandsColumn)); }

  reserve(line) {
    const count = Number(within(this.known(line), 0n, BigInt(LIMITS.words), line.operandsColumn));
    this.begins[line.number] = this.address;
    this.address += count;
    this.top = Math.max(this.top, this.address);
  }

  data(line) {
    if (!line.operands) {
      throw new Wrong(line.operandsColumn, "no values", { operation: line.operation });
    }
    for (const [text, column] of line.values) {
      for (const word of isText(text) ? wordsOf(text, column) : [null]) {
        this.place(line, new Given(this.address, line, text, column, word));
        this.address += 1;
      }
    }
  }

  /** Places an instruction: in the word before if it has room, else in the next one. */
  instruct(line, it) {
    if (this.open && this.open.free < it.parcels) {
      this.close();
    }
    const isNew = !this.open;
    this.open = this.open ?? new Coded(this.address);
    this.open.parts.push([line, it]);
    if (isNew) {
      this.place(line, this.open);
    }
    if (LANGUAGE.unconditional.includes(line.operation)) {
      this.close();
    }
  }

  close() {
    if (this.open) {
      this.open = null;
      this.address += 1;
    }
  }

  place(line, word) {
    const other = this.words.get(word.address);
    if (other) {
      throw new Wrong(line.column, "placed", { address: octal(word.address), line: String(other.number) });
    }
    this.words.set(word.address, word);
    this.begins[line.number] = this.begins[line.number] ?? word.address;
    this.top = Math.max(this.top, word.address + 1);
  }
}

// ---- the package, the memory and what is shown ----

class Settings {
  constructor(program) {
    const last = new Line(Math.max(program.texts.length, 1), "");
    Object.assign(this, { program, values: {}, lines: {}, registers: {}, shown: [] });
    program.settings.forEach((line) => program.guarded(line.number, () => this.read(line)));
    program.guarded(last.number, () => {
      if (!(LANGUAGE.start in program.names)) {
        throw new Wrong(1, "no start");
      }
    });
    const value = (name) => this.values[name] ?? LANGUAGE.defaults[name];
    this.reference = value("RA");
    this.package = value("PACKAGE");
    this.length = this.values.FL ?? program.top;
    this.needed = Math.max(this.reference + program.top, this.package + LIMITS.package, LIMITS.least);
    this.size = Math.min(Math.max(this.needed, this.reference + this.length), LIMITS.words);
    this.judge(this.lines.CORE ?? last, (column) => this.judgeMemory(column));
    this.judge(this.lines.PACKAGE ?? this.lines.RA ?? last, (column) => this.judgePackage(column));
    for (const [line, address, count] of this.shown) {
      program.guarded(line.number, () => this.judgeShown(line.operandsColumn, address, count));
    }
  }

  judge(line, work) { this.program.guarded(line.number, () => work(line.column)); }

  fields(line, least, most, wanted) {
    const { fields } = line;
    const expected = LANGUAGE.faults[wanted];
    if (fields.length < least) {
      const column = line.operandsColumn + line.operands.length;
      throw new Wrong(column, "too few", { operation: line.operation, wanted: expected });
    }
    if (fields.length > most) {
      throw new Wrong(fields[most][1], "too much", { text: quoted(fields[most][0]), wanted: expected });
    }
    return fields;
  }

  value([text, column]) { return valueOf(text, column, this.program.names); }

  read(line) {
    const name = line.operation;
    if (LANGUAGE.setters.includes(name)) {
      return name === LANGUAGE.setters[0] ? this.set(line) : this.show(line);
    }
    const [field] = this.fields(line, 1, 1, "a value");
    if (name in this.lines) {
      throw new Wrong(line.column, "given twice", { operation: name, line: String(this.lines[name].number) });
    }
    this.lines[name] = line;
    const value = this.value(field);
    if (name === "CORE" || name === "PACKAGE") {
      const [least, most] = name === "CORE" ? [LIMITS.least, LIMITS.words] : [0, LIMITS.words - LIMITS.package];
      this.values[name] = Number(within(value, BigInt(least), BigInt(most), field[1]));
    } else {
      this.values[name] = Number(fitted(value, INDEX_BITS, field[1]));
    }
    return undefined;
  }

  set(line) {
    const [[name, at], field] = this.fields(line, 2, 2, "a register");
    if (!isWhole("register", name) || name === "B0") {
      throw new Wrong(at, "can't be set", { text: quoted(name) });
    }
    if (name in this.registers) {
      throw new Wrong(at, "set twice", { name });
    }
    this.registers[name] = 0n;
    this.registers[name] = fitted(this.value(field), name[0] === "X" ? WORD_BITS : INDEX_BITS, field[1]);
  }

  show(line) {
    const fields = this.fields(line, 1, 2, "an address");
    if (this.shown.length === LIMITS.shows) {
      throw new Wrong(line.column, "too many", { most: String(LIMITS.shows) });
    }
    const address = this.value(fields[0]);
    const count = fields[1] ? within(this.value(fields[1]), 1n, BigInt(LIMITS.words), fields[1][1]) : 1n;
    this.shown.push([line, address, count]);
  }

  judgeMemory(column) {
    const needed = octal(this.needed);
    if (this.needed > LIMITS.words) {
      throw new Wrong(column, "too large", { needed, most: octal(LIMITS.words) });
    }
    this.size = this.values.CORE ?? this.size;
    if (this.size < this.needed) {
      throw new Wrong(column, "small core", { needed });
    }
  }

  judgePackage(column) {
    const taken = [...this.program.words.keys()].map((address) => this.reference + address)
      .filter((address) => address >= this.package && address < this.package + LIMITS.package);
    if (taken.length) {
      throw new Wrong(column, "package", { package: octal(this.package), word: octal(Math.min(...taken)) });
    }
  }

  judgeShown(column, address, count) {
    const last = address + count - 1n;
    const reference = BigInt(this.reference);
    if (address < -reference || reference + last >= BigInt(this.size)) {
      throw new Wrong(column, "shown", { first: octalOf(address), last: octalOf(last) });
    }
  }

  get packageWords() {
    const { registers } = this;
    const head = { P: this.program.names[LANGUAGE.start], RA: BigInt(this.reference), FL: BigInt(this.length),
      EM: BigInt(this.values.EM ?? LANGUAGE.defaults.EM) };
    const value = (name) => registers[name] ?? 0n;
    const words = Array.from({ length: LIMITS.package }, (_, at) =>
      (at < FIRST_X ? (value(`A${at}`) << INDEX_BITS) + value(`B${at}`) : value(`X${at - FIRST_X}`)));
    Object.entries(LANGUAGE.head).forEach(([name, at]) => { words[at] += head[name] << MIDDLE; });
    return words;
  }
}

// ---- what comes of it ----

function deckOf(program, settings) {
  const lines = [`core ${settings.size}`];
  const placed = new Map();
  settings.packageWords.forEach((word, n) => word && placed.set(settings.package + n, `word ${octal(word, 20)}`));
  program.words.forEach((it) => placed.set(settings.reference + it.address, it.deckLine));
  for (const [address, line] of [...placed].sort(([one], [other]) => one - other)) {
    if (!placed.has(address - 1) && address) {
      lines.push(`at ${octal(address)}`);
    }
    lines.push(line);
  }
  lines.push(`start ${octal(settings.package)}`);
  for (const [, address, count] of settings.shown) {
    const first = BigInt(settings.reference) + address;
    lines.push(`show ${octal(first)} ${octal(first + count - 1n)}`);
  }
  return [...lines, "end", ""].join("\n");
}

/** The rows of the listing: the number of the line, or 0, with the address and the word that begin with it. */
function rowsOf(program) {
  const ofLines = {};
  program.words.forEach((it) => {
    ofLines[it.number] = [...ofLines[it.number] ?? [], [octal(it.address, 6), octal(it.word, 20)]];
  });
  return program.texts.flatMap((text, n) => {
    const begins = program.begins[n + 1];
    const [first, ...others] = ofLines[n + 1] ?? [[begins === undefined ? "" : octal(begins, 6), ""]];
    return [[n + 1, ...first, text], ...others.map((it) => [0, ...it, ""])];
  });
}

/** The line whose instruction begins at a parcel of a word of the program, or none. */
function lineAt(program, address, parcel) {
  let at = 0;
  for (const [line, it] of program.words.get(address)?.parts ?? []) {
    if (at === parcel) {
      return line.number;
    }
    at += it.parcels;
  }
  return null;
}

/** A source program, assembled: its faults, or its deck, its listing and its names. */
function assemble(text) {
  const program = new Program(text);
  const settings = new Settings(program);
  const { faults } = program;
  if (faults.length) {
    return { faults };
  }
  const rows = rowsOf(program);
  const listed = ([number, address, word, line]) =>
    (number ? `${`${address} ${word}`.trim().padEnd(27)} ${line}`.trimEnd() : `${address} ${word}`);
  const names = Object.fromEntries(Object.entries(program.names).map(([name, value]) => [name, Number(value)]));
  const here = (reference, address, parcel) =>
    (reference === settings.reference ? lineAt(program, address, parcel) : null);
  return { faults, rows, names, deck: deckOf(program, settings), listing: rows.map(listed), lineAt: here };
}
