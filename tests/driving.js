// Functions that use the page that drives a machine, for its test. They come after those of looking.js.

const click = (id) => byId(id).click();
const texts = (selector) => all(selector).map((it) => it.textContent);

const isReady = () => document.documentElement.dataset.ready || null;

/** A call of the library, with texts in base 64. */
function called(what, ...given) {
  const ran = attempt(() => library[what](...given.map(atob)));
  return [ran.status, btoa(ran.printed), btoa(ran.told)];
}

/** Starts a program. */
function begin(program) {
  byId("text").value = atob(program);
  click("start");
}

/** The session that the page has made, what it shows after each event, its table of the reservations, and its minor
 * cycles in all. */
function made() {
  const names = ["event", "answer", "words", "refused", "holds", "machine", "units", "places", "channels", "banks",
    "registers", "cycle"];
  const steps = driven.steps.map((step) => ({
    ...Object.fromEntries(names.map((name) => [name, step[name]])),
    values: Object.fromEntries(step.changed.map((name) => [name, [step.values[name], numberOf(step.values[name])]])),
  }));
  const rows = driven.reservations().map((it) => {
    const { text: said, unit } = driven.asking.rows[it.number];
    return [String(it.number), said, unit, ...momentsOf(it)];
  });
  return [driven.session(), steps, rows, driven.clock.total];
}

/** Draws numbers below others. */
const drawnFrom = (seed) => (n) => {
  seed = (seed * 1103515245 + 12345) % 2147483648;
  return Math.floor(seed / 65536) % n;
};

/** Makes events that are drawn: mostly some that the machine accepts, sometimes any one or a peripheral access. Now and
 * then the last events are taken back. */
function walk(seed, count) {
  const draw = drawnFrom(seed);
  const others = ["read shift", "store branch", "accept 3", "return 2", "bank 7", "exchange", "ask 777777",
    "ppread 111", "ppwrite 112 17", "ppread 777777", "issue", "accept 9", "bank 40", "return 0"];
  for (let k = 0; k < count; k++) {
    const offers = driven.offers();
    const accepted = offers.filter(({ event, answer }) => !answer.startsWith("E") && !event.startsWith("ask"));
    const kind = draw(8);
    const some = kind === 0 ? others : (kind === 1 || !accepted.length ? offers : accepted).map((it) => it.event);
    driven.make(some[draw(some.length)]);
    if (k % 15 === 14) { driven.undo(1 + draw(3)); }
  }
  show();
}

/** Makes events that are drawn, by their buttons, so that each is shown. Now and then the last one is taken back. */
function play(seed, count) {
  const draw = drawnFrom(seed);
  for (let k = 0; k < count; k++) {
    const offers = all("#may button");
    const some = offers.filter((it) => !it.dataset.event.startsWith("ask"));
    const from = some.length ? some : offers;
    from[draw(from.length)].click();
    if (k % 9 === 8) { click("undo"); }
  }
}

/** All that is shown of the session: texts, marks, and what is drawn, in the order of its positions. */
function seen() {
  const drawn = (selector) => all(selector).map((it) =>
    [...["x", "y", "width", "class"].map((name) => it.getAttribute(name)), it.textContent].join(" ")).sort();
  const frame = document.querySelector(".frame").style;
  return {
    step: texts("#step *"), may: texts("#may button"), waits: texts("#waits li"),
    next: texts("#next, #drained, #next-is"),
    panel: texts("#panel dd, #panel tr, #panel li"), marks: all("#panel .changed, #panel .taken").map((it) => it.id),
    events: texts("#events tr"), reservations: texts("#reservations tr"), listing: texts("#listing tr"),
    here: texts("#listing .here, #listing mark"), names: drawn("#labels g text"), columns: drawn("#picture text"),
    bars: drawn("#picture rect"), size: [frame.width, frame.height],
  };
}

/** Shows all rows of the tables. */
const showRows = () => ["more-events", "more-reservations"].forEach(click);

/** Shows earlier columns of the timeline; how many columns it had, and has then. */
function showColumns() {
  const count = () => all("#picture text.quiet").length;
  const before = count();
  click("more-columns");
  return [before, count()];
}

/** Whether the mark of the last event is in sight in the box that is scrolled. */
function isLastInSight() {
  const box = boxOf(byId("scroll"));
  const marks = all("#picture text:not(.quiet)").map(boxOf);
  const last = marks.reduce((one, other) => (other.x > one.x ? other : one));
  return last.top >= box.top && last.bottom <= box.bottom && last.left >= box.left && last.right <= box.right;
}

/** What is shown with minor cycles, or without them again: the numbers above the columns, those of the events in their
 * table, first ones first, the table of the reservations, and the total. */
function timed() {
  click("minor-cycles");
  const moments = (row) => [...row.cells].slice(3, -1).map((it) => it.textContent);
  return [
    texts("#picture text.quiet"), texts("#events td.cycle").reverse(), all("#reservations tr").map(moments),
    texts("#total")[0].split(" ")[0],
  ];
}

/** Takes all events back, and makes them again one by one; how many there are, or nothing if some can't be taken
 * back. */
function again() {
  const isIdle = (id) => byId(id).getAttribute("aria-disabled") === "true";
  click("to-start");
  const isStart = isIdle("undo") && all("#events tr").length === 0;
  while (!isIdle("redo")) { click("redo"); }
  return isStart ? driven.steps.length : null;
}

/** The element that has the focus, its name, and the number of events. */
const focus = () => [document.activeElement.tagName, document.activeElement.id, driven.steps.length];

/** On paper: the controls that are shown, the parts that aren't, and the number of events in the table. */
function printed() {
  window.dispatchEvent(new Event("beforeprint"));
  return {
    controls: ["#start", "#next", "#may", "#waits", "#end", "#typed", "#link"].filter(isShown),
    missing: ["#text", "#step", "#panel", "#picture", "#reservations", "#listing"].filter((it) => !isShown(it)),
    events: all("#events tr").filter((it) => it.checkVisibility()).length,
  };
}

/** What is told of a refused program, and what of it is marked. */
function fault() {
  const { value, selectionStart, selectionEnd } = byId("text");
  return [text("fault"), value.slice(selectionStart, selectionEnd)];
}

/** The part of the session's link after the page. */
function fragment() {
  click("link");
  return new URL(document.querySelector("#linked a").href).hash;
}

/** The session as the file that is kept: its text and its name. */
async function kept() {
  const [make, press] = [URL.createObjectURL, HTMLAnchorElement.prototype.click];
  let [file, name] = [null, ""];
  URL.createObjectURL = (blob) => { file = blob; return "about:blank"; };
  HTMLAnchorElement.prototype.click = function () { name = this.download; };
  click("keep-session");
  [URL.createObjectURL, HTMLAnchorElement.prototype.click] = [make, press];
  return [await file.text(), name];
}

/** Opens a file with a text. */
function openFile(said, name) {
  const given = new DataTransfer();
  given.items.add(new File([said], name));
  byId("file").files = given.files;
  byId("file").dispatchEvent(new Event("change"));
}

/** Goes on until something; the number of events with the last one, or after issues the refusal of a further one. */
function goOn(kind, what) {
  byId("end").value = kind;
  byId("what").value = what;
  if (kind === "refused") {
    ["ask 40", "exchange"].forEach((it) => act(it));
  }
  byId("until").requestSubmit();
  const { answer } = driven.asking.judge("issue");
  return kind === "refused" ? answer.split(" ")[0] : `${driven.steps.length} ${driven.last.event}`;
}

/** Chooses an example and makes so many next events; what the listing marks as next. */
function listed(name, count) {
  const example = byId("example");
  example.value = [...example.options].find((it) => it.textContent === name).value;
  example.dispatchEvent(new Event("change"));
  for (let k = 0; k < count; k++) {
    act(k < 2 ? driven.next() : "issue");
  }
  const row = document.querySelector("#listing .here");
  return (row.querySelector("mark") ?? row.cells[2]).textContent;
}

/** What the page makes of source programs: for each its faults, or its deck and its listing. */
const assembled = (sources, name) => sources.map((source) => {
  const { faults, deck = "", listing = [] } = assemble(source);
  return [faults.map((it) => `${name}:${/^\d+:/.test(it) ? "" : " "}${it}`), deck, listing];
});
