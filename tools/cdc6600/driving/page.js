// The page: the program's box, the buttons of the events, and what is shown of the machine.

// The rows that a table has at first, the columns of the timeline, and how many of these are added at a time if more are
// asked for. A browser takes long for many of them, also if they are out of sight, and for many lines of a listing.
const MOST = { events: 20, reservations: 20, columns: 40 };
const MORE = 300;
const MOST_LINES = 3000;
// A parcel with the instruction that does nothing.
const PASS = "46000";
let library = null;
let driven = null;
let program = null;
let timeline = null;
// The rows of the listing, by the numbers of their lines or the addresses of their words, and what is marked there.
let listing = new Map();
let marked = { row: null, parcel: "" };
// The most rows of each table, and the columns that the timeline has at least.
let most = {};

function element(name, text, attributes = {}) {
  const made = document.createElement(name);
  made.textContent = text;
  Object.entries(attributes).forEach(([key, value]) => made.setAttribute(key, value));
  return made;
}

const cells = (row, texts) => row.append(...texts.map((it) => element("td", it)));
const withEnd = (text) => (text === "" || text.endsWith("\n") ? text : `${text}\n`);

// ---- the program ----

/** What is in the box: the deck with the events behind it, and for a source program its listing; or what is wrong. */
function read(text) {
  if (isSource(text)) {
    const source = assemble(text);
    return { text, source, faults: source.faults, deck: source.faults.length ? "" : source.deck, events: [] };
  }
  const given = withEnd(text);
  const end = /^end$/m.exec(given);
  const deck = end ? `${given.slice(0, end.index)}end\n` : given;
  const events = end ? given.slice(end.index + 4).split("\n").filter(Boolean) : [];
  return { text, source: null, faults: [], deck, events };
}

/** What is wrong with the program, and its line marked in the box; nothing if all is right. */
function showFaults(lines) {
  byId("fault").textContent = lines.join("\n");
  const found = /^line (\d+)|^(\d+):(\d+):|line (\d+)/.exec(lines[0] ?? "");
  if (found) {
    const number = Number(found[1] ?? found[2] ?? found[4]);
    const before = byId("text").value.split("\n").slice(0, number - 1);
    const from = before.reduce((sum, it) => sum + it.length + 1, 0);
    const length = byId("text").value.slice(from).split("\n")[0].length;
    byId("text").focus();
    byId("text").setSelectionRange(from, from + length);
  }
}

const faultOf = (told) => (told ? [told.trim().replace("cdc6600: ", "")] : []);

function print(words, text) {
  setHidden(byId("printed"), false);
  byId("printed-words").textContent = words;
  byId("dump").textContent = text;
}

/** Starts the program in the box, and makes the events behind its deck; whether it is accepted. */
function start(events = null) {
  setHidden(byId("printed"), true);
  byId("linked").replaceChildren();
  program = read(byId("text").value);
  driven?.machine.free();
  driven = program.faults.length ? null : new Driven(library, program.deck);
  const faults = driven ? faultOf(driven.booted.told) : program.faults;
  showFaults(faults);
  setHidden(byId("driving"), faults.length > 0);
  if (faults.length) {
    driven?.machine.free();
    driven = null;
    return false;
  }
  prepareWords();
  prepareListing();
  most = { ...MOST };
  const wrong = replay(events ?? program.events);
  show();
  byId("wrong").textContent = wrong;
  return true;
}

/** Makes events up to an end or a drain; what is wrong with a line that is none. */
function replay(events) {
  for (const event of events) {
    if (event === "drain") {
      driven.drain();
    }
    if (event === "drain" || event === "end") {
      return "";
    }
    const step = driven.make(event);
    if (step.wrong) {
      return step.wrong;
    }
  }
  return "";
}

const ENDINGS = ["The program stopped.", "", "",
  "The machine is halted by an instruction that it refuses, or by a fetch out of range.",
  "The fault flag is set: a reference was out of range.", "The budget of a million instructions is used up."];

function run() {
  const given = read(byId("text").value);
  const ran = given.faults.length ? { printed: "", told: "" } : attempt(() => library.run(given.deck));
  showFaults(given.faults.length ? given.faults : faultOf(ran.told));
  setHidden(byId("printed"), true);
  if (ran.printed) {
    print(`Run to its end, one instruction at a time. ${ENDINGS[ran.status] ?? ""}`, ran.printed);
    byId("printed").focus();
  }
}

function list() {
  const given = read(byId("text").value);
  const ran = given.faults.length ? { printed: "", told: "" } : attempt(() => library.list(given.deck));
  showFaults(given.faults.length ? given.faults : faultOf(ran.told));
  setHidden(byId("printed"), true);
  if (ran.printed) {
    const [words, lines] = given.source
      ? ["Addresses, words and lines of the source program.", given.source.listing.join("\n")]
      : ["The words of the deck, with their instructions.", ran.printed];
    print(words, lines);
    byId("printed").focus();
  }
}

/** Starts the program, and brings the machine in sight. */
function startAndShow() {
  if (start()) {
    byId("step").focus({ preventScroll: true });
    byId("step").scrollIntoView();
  }
}

function choose() {
  const { about, text } = Object.values(GIVEN.examples).flat()[byId("example").value];
  byId("text").value = text;
  byId("about").textContent = about;
  start();
}

// ---- what is shown ----

function showStep() {
  const step = driven.steps.at(-1);
  byId("step").classList.toggle("refused", Boolean(step?.refused));
  write(byId("which"), step ? `Event ${step.number}` : "Started");
  write(byId("event"), step?.event ?? "");
  write(byId("verdict"), step ? (step.refused ? "Refused" : "Made") : "");
  setHidden(byId("verdict"), !step);
  write(byId("answer"), step?.answer ?? "");
  write(byId("words"), step?.words ?? said("booted"));
}

/** The rows of the words that the deck shows. */
function prepareWords() {
  const names = Object.keys(driven.start).filter((it) => /^\d/.test(it));
  const words = document.querySelector(".kind-M tbody");
  words.replaceChildren(...names.map((name) => {
    const row = element("tr", "", { id: `values-${name}` });
    row.append(element("th", name, { scope: "row" }));
    cells(row, ["", ""]);
    return row;
  }));
  setHidden(words.parentElement, names.length === 0);
}

const DRAINED = ["Nothing is pending, and the machine's dump is NOT that of its log.",
  "Nothing is pending. The machine's dump is that of its log, one instruction at a time, as the theorem says."];

function showMachineNow() {
  const before = driven.steps.at(-2) ?? driven.boot;
  const now = driven.steps.length ? driven.last : { ...driven.boot, holds: [] };
  const values = Object.fromEntries(Object.entries(driven.last.values).map(([name, it]) => [name, [it, numberOf(it)]]));
  const changed = Object.fromEntries((driven.last.changed ?? []).map((name) => [name, true]));
  showParts(now, driven.steps.length ? before : now, values, changed);
  write(byId("drained"), driven.machine.isDrained ? DRAINED[Number(driven.agrees())] : "");
}

function button(event, note) {
  const row = driven.asking.about(event);
  const made = element("button", event, { type: "button", "data-event": event, "data-row": row });
  if (note) {
    made.append(element("small", note));
  }
  made.addEventListener("click", () => act(event));
  return made;
}

/** A button that would do nothing keeps the focus, so it isn't disabled. */
function setIdle(id, isIdle) {
  byId(id).setAttribute("aria-disabled", isIdle);
}

function refusal({ event, answer }, words) {
  const row = element("li", "");
  const why = element("span", "");
  why.append(element("code", answer), ` ${words}`);
  const tried = button(event, "");
  tried.classList.add("plain");
  row.append(tried, why);
  return row;
}

/** Makes the children of an element those of these keys. A child that is there stays, because a browser takes long to
 * lay out a whole table again. */
function setChildren(parent, wanted) {
  const there = new Map([...parent.children].map((child) => [child.key, child]));
  const keys = new Set(wanted.map(([key]) => key));
  there.forEach((child, key) => keys.has(key) || child.remove());
  let at = parent.firstElementChild;
  for (const [key, make] of wanted) {
    const child = there.get(key) ?? Object.assign(make(), { key });
    if (child === at) {
      at = at.nextElementSibling;
    } else {
      parent.insertBefore(child, at);
    }
  }
}

/** The events that can be tried, as the children of two elements, each with its key: those that the machine accepts and
 * those that it refuses. */
function offered() {
  const offers = driven.offers();
  const [refused, made] = [true, false].map((is) => offers.filter((it) => isRefusal(it.answer) === is));
  const may = made.map(({ event }) => {
    const note = driven.about(event);
    return [`${event}|${note}`, () => button(event, note)];
  });
  const waits = refused.map((it) => {
    const why = driven.words.why(it);
    return [`${it.event}|${it.answer}|${why}`, () => refusal(it, why)];
  });
  return { may, waits };
}

/** Takes the focus from the button that has it, if that button is going to be removed; this button, or none. */
function leave({ may, waits }) {
  const held = document.activeElement;
  const child = held?.closest("#may > *, #waits > *");
  if (!child || [...may, ...waits].some(([key]) => key === child.key)) {
    return null;
  }
  held.blur();
  return held;
}

/** Shows the events that can be tried. */
function showOffers({ may, waits }) {
  setChildren(byId("may"), may);
  setHidden(byId("none"), may.length > 0);
  setChildren(byId("waits"), waits);
  setHidden(byId("waiting"), waits.length === 0);
  const next = driven.next();
  write(byId("next").lastElementChild, next || "nothing can be made");
  setIdle("next", next === "");
  write(byId("redo").lastElementChild, driven.undone[0] ?? "an event taken back");
  setIdle("redo", driven.undone.length === 0);
  ["undo", "to-start"].forEach((id) => setIdle(id, driven.steps.length === 0));
  setIdle("drain", driven.machine.isDrained);
}

/** The button of the same event as one that is gone, or of the same reservation, or the first one. */
function successor(gone) {
  const find = (name) => document.querySelector(`#events-now [data-${name}="${gone[name]}"]`);
  const same = find("event") ?? (gone.row === "0" ? null : find("row"));
  return same ?? byId("may").firstElementChild ?? byId("next");
}

/** The lines of the listing: for each the number of its line in the source program or 0, its address, its word and its
 * text. */
function listingLines() {
  if (program.source) {
    return program.source.rows;
  }
  const lines = library.list(program.deck).printed.trimEnd().split("\n");
  return lines.map((line) => [0, line.slice(0, 6), line.slice(7, 27), line.slice(28)]);
}

/** Makes the rows of the listing, once for a program. */
function prepareListing() {
  const lines = listingLines().slice(0, MOST_LINES);
  const rows = lines.map(([number, address, word, text]) => {
    const row = element("tr", "");
    cells(row, [address, word, text]);
    return [program.source ? number : address, row];
  });
  byId("listing").replaceChildren(...rows.map(([, row]) => row));
  listing = new Map(rows);
  marked = { row: null, parcel: "" };
}

/** How many instructions a word has from a parcel on. */
function instructionsFrom(word, parcel) {
  const rest = PASS.repeat(parcel) + word.slice(5 * parcel);
  const [line] = library.list(`core 32\nword ${rest}\nstart 0\nend\n`).printed.split("\n");
  return line.slice(28).split("; ").length - parcel;
}

/** Marks the instruction at a parcel in a row of the listing. */
function markInstruction({ cells: [, word, text] }, parcel) {
  const parts = text.textContent.split("; ");
  const here = parts.length - instructionsFrom(word.textContent, parcel);
  text.replaceChildren(...parts.flatMap((it, n) => [...(n ? ["; "] : []), n === here ? element("mark", it) : it]));
}

/** Where the next instruction is: the number of its line or the address of its word, or none if that is open. The
 * listing of a deck has absolute addresses, and no call tells that of the next instruction: it tells P, which is
 * relative to RA. So RA is added here, which takes one rule of the machine. */
function nextAt() {
  const { now, parcel } = driven.asking.state;
  if (driven.asking.isOpen) {
    return null;
  }
  return program.source ? program.source.lineAt(now.ra, now.p, Number(parcel)) : octal(now.ra + now.p, 6);
}

/** Marks the next instruction in the listing; its row, if another one is marked than before, or none. */
function showListing() {
  write(byId("next-is"), `Next: ${driven.last.machine.Next}.`);
  const last = marked;
  marked = { row: listing.get(nextAt()) ?? null, parcel: driven.asking.state.parcel };
  if (marked.row === last.row && marked.parcel === last.parcel) {
    return null;
  }
  if (last.row) {
    last.row.classList.remove("here");
    last.row.removeAttribute("aria-current");
    last.row.cells[2].textContent = last.row.cells[2].textContent;
  }
  if (marked.row) {
    marked.row.classList.add("here");
    marked.row.setAttribute("aria-current", "true");
    if (!program.source) {
      markInstruction(marked.row, Number(marked.parcel));
    }
  }
  return marked.row;
}

const isTimed = () => byId("minor-cycles").checked;

function reservationRow(it) {
  const { text, unit } = driven.asking.rows[it.number];
  const row = element("tr", "");
  row.append(element("th", it.number, { scope: "row" }));
  const shown = (number) => (isTimed() ? driven.steps[number - 1].cycle : number);
  cells(row, [text, GIVEN.names[unit], ...momentsOf(it, shown)]);
  return row;
}

function eventRow(it) {
  const row = element("tr", "");
  row.append(element("th", it.number, { scope: "row" }));
  if (isTimed()) {
    row.append(element("td", it.cycle, { class: "cycle" }));
  }
  [it.event, it.answer].forEach((text) => row.appendChild(element("td", "")).append(element("code", text)));
  cells(row, [it.refused ? said("refused", { why: it.words }) : it.words]);
  row.classList.toggle("refused", it.refused);
  return row;
}

/** Shows what the numbers in the tables and above the columns are, and with minor cycles the total. */
function showTotal() {
  const { total } = driven.clock;
  setHidden(byId("cycle"), !isTimed());
  write(byId("counted"), isTimed() ? "A number is a minor cycle." : "A number is that of the event.");
  write(byId("total"), isTimed() ? `${total} minor cycles in all. The number above a column is a minor cycle.` : "");
}

/** Draws all events again, with minor cycles or without. */
function redraw() {
  ["events", "reservations"].forEach((id) => byId(id).replaceChildren());
  show();
}

/** Shows the last rows of the tables. */
function showTables() {
  const steps = driven.steps.slice(-most.events).reverse();
  setChildren(byId("events"), steps.map((it) => [it, () => eventRow(it)]));
  setHidden(byId("more-events"), steps.length === driven.steps.length);
  const rows = driven.reservations();
  setChildren(byId("reservations"), rows.slice(-most.reservations).map((it) => [it, () => reservationRow(it)]));
  setHidden(byId("more-reservations"), rows.length <= most.reservations);
}

function showTimeline() {
  timeline.draw(driven, isTimed(), most.columns);
  setHidden(byId("more-columns"), timeline.first === 0);
}

/** Shows more rows of a table, or more columns of the timeline. */
function showMore(name, count = MORE) {
  most[name] += count;
  showTables();
  showTimeline();
}

function show() {
  const offers = offered();
  // This comes first, because a browser that removes the button with the focus lays the page out at once.
  const left = leave(offers);
  showStep();
  showMachineNow();
  showOffers(offers);
  showTimeline();
  showTotal();
  const here = showListing();
  showTables();
  write(byId("wrong"), "");
  // What asks for sizes comes last, so that the browser lays the page out once.
  if (left) {
    successor(left.dataset).focus({ preventScroll: true });
  }
  timeline.follow();
  if (here) {
    byId("lines").scrollTop = here.offsetTop - byId("lines").clientHeight / 2;
  }
}

// ---- what is made ----

function act(event) {
  if (event === "drain") {
    driven.drain();
    show();
    return;
  }
  const step = event ? driven.make(event) : {};
  if (step.wrong) {
    byId("wrong").textContent = step.wrong;
  } else if (event) {
    show();
  }
}

/** Makes next events until what the form says, or issues until one is refused. */
function goOn() {
  const kind = byId("end").value;
  const what = byId("what").value.trim().toUpperCase();
  const number = /^[0-7]{1,6}$/.test(what) ? parseInt(what, 8) : null;
  const address = program.source?.names[what] ?? number;
  const before = driven.valueOf(what, number);
  if (kind === "changes" && before === null) {
    byId("wrong").textContent = "Say which: a register, X6 for example, or the address of a word of memory.";
    return;
  }
  if (kind === "at" && address === null) {
    byId("wrong").textContent = "Say where: the address of a word in the program, or a label.";
    return;
  }
  const isAt = (made) => {
    const { now, parcel } = driven.asking.state;
    return made > 0 && !driven.asking.isOpen && now.p === address && parcel === "0";
  };
  const [isEnd, next] = {
    at: [isAt], changes: [() => driven.valueOf(what, number) !== before],
    refused: [() => isRefusal(driven.asking.judge("issue").answer), () => "issue"],
  }[kind];
  const came = driven.until(isEnd, next);
  show();
  byId("wrong").textContent = came ? "" : "It doesn't come to that: no event is left, or a thousand were made.";
}

// ---- files and links ----

function keep(name, text) {
  const href = URL.createObjectURL(new Blob([text], { type: "text/plain" }));
  const link = element("a", "", { href, download: name });
  link.click();
  setTimeout(() => URL.revokeObjectURL(href), 1000);
}

function keepText() {
  const { source, events } = read(byId("text").value);
  keep(source ? "program.source" : events.length ? "program.session" : "program.deck", withEnd(byId("text").value));
}

const LONGEST_LINK = 8000;
const LINKED = "#job=";

/** A link to this page with the program and the events in it. */
function linkNow() {
  const text = program.source ? program.text : program.deck;
  const bytes = new TextEncoder().encode(JSON.stringify([text, driven.steps.map((it) => it.event)]));
  const coded = btoa(String.fromCharCode(...bytes)).replaceAll("+", "-").replaceAll("/", "_").replace(/=+$/, "");
  return `${location.href.split("#")[0]}${LINKED}${coded}`;
}

function makeLink() {
  const link = linkNow();
  if (link.length > LONGEST_LINK) {
    byId("linked").textContent = "The session is too long for a link. Keep it as a file.";
    return;
  }
  byId("linked").replaceChildren(element("a", "This session", { href: link }), ", a link to copy.");
  history.replaceState(null, "", link);
}

/** The program and the events that the address has; or none. */
function linked() {
  if (!location.hash.startsWith(LINKED)) {
    return null;
  }
  try {
    const coded = location.hash.slice(LINKED.length).replaceAll("-", "+").replaceAll("_", "/");
    const [text, events] = JSON.parse(new TextDecoder().decode(Uint8Array.from(atob(coded), (it) => it.charCodeAt(0))));
    return typeof text === "string" && Array.isArray(events) ? { text, events: events.map(String) } : null;
  } catch {
    return null;
  }
}

function openLink() {
  const found = linked();
  if (found) {
    byId("text").value = found.text;
    byId("about").textContent = "From a link.";
    start(found.events);
  }
  return found !== null;
}

async function openFile() {
  const [file] = byId("file").files;
  if (file) {
    byId("text").value = (await file.text()).replaceAll("\r\n", "\n");
    byId("about").textContent = file.name;
    byId("file").value = "";
    start();
  }
}

// ---- the beginning ----

function addExamples() {
  let number = 0;
  for (const [kind, examples] of Object.entries(GIVEN.examples)) {
    const group = element("optgroup", "", { label: kind });
    group.append(...examples.map((it) => element("option", it.name, { value: number++ })));
    byId("example").append(group);
  }
}

function listen() {
  const unlessIdle = (id, work) => byId(id).addEventListener("click", () => {
    if (byId(id).getAttribute("aria-disabled") !== "true") {
      work();
    }
  });
  const clicked = { start: startAndShow, run, list, open: () => byId("file").click(), keep: keepText, link: makeLink,
    "keep-session": () => keep("program.session", driven.session()),
    "keep-deck": () => keep("program.deck", driven.deck) };
  Object.entries(clicked).forEach(([id, work]) => byId(id).addEventListener("click", work));
  Object.keys(MOST).forEach((name) => byId(`more-${name}`).addEventListener("click", () => showMore(name)));
  ["events", "reservations"].forEach((name) =>
    window.addEventListener("beforeprint", () => driven && showMore(name, Infinity)));
  const shown = (work) => () => { work(); show(); };
  unlessIdle("next", () => act(driven.next()));
  unlessIdle("drain", shown(() => driven.drain()));
  unlessIdle("undo", shown(() => driven.undo()));
  unlessIdle("redo", shown(() => driven.redo()));
  unlessIdle("to-start", shown(() => driven.undo(driven.steps.length)));
  byId("example").addEventListener("change", choose);
  byId("file").addEventListener("change", openFile);
  byId("minor-cycles").addEventListener("change", redraw);
  byId("end").addEventListener("change", () => { setHidden(byId("what"), byId("end").value === "refused"); });
  const submitted = { until: goOn, other: () => act(byId("typed").value.trim()) };
  Object.entries(submitted).forEach(([id, work]) => byId(id).addEventListener("submit", (event) => {
    event.preventDefault();
    work();
  }));
  window.addEventListener("hashchange", openLink);
}

async function begin() {
  const bytes = Uint8Array.from(atob(MODULE), (it) => it.charCodeAt(0));
  if (!canRun(bytes)) {
    setHidden(byId("unable"), false);
    return;
  }
  library = await Library.of(bytes);
  setHidden(byId("unproved"), library.isProved !== false);
  timeline = new Timeline(byId("picture"), byId("labels"));
  addExamples();
  listen();
  setHidden(byId("app"), false);
  if (!openLink()) {
    choose();
  }
  document.documentElement.dataset.ready = "true";
}

begin();
