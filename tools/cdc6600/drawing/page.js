// The cursor of a page: it steps through the events, and shows for each one its words and, by panel.js, the machine.

const session = JSON.parse(document.getElementById("session").textContent);
const steps = session.steps;
let shown = 0;
let isOpen = true;
let noting = 0;

// The values after each step, by their names: an event has only those that it changes.
const values = [];
steps.reduce((before, step) => {
  values.push({ ...before, ...step.values });
  return values[values.length - 1];
}, session.values);

// The machine after the event or, while its answer is hidden, before it.
function showPanel(step, before) {
  const now = isOpen ? step : { ...before, holds: [] };
  const [after, changed] = isOpen ? [values[shown], step.values] : [values[shown - 1] ?? session.values, {}];
  showParts(now, before, after, changed);
  byId("title-panel").textContent = `The machine ${isOpen ? "after" : "before"} this event`;
}

function showStep(step) {
  byId("which").textContent = `Event ${shown + 1}${session.cycles ? `, cycle ${session.cycles[shown]}` : ""}`;
  byId("event").textContent = step.event;
  byId("answer").textContent = step.answer;
  byId("words").textContent = step.words;
  byId("verdict").textContent = step.refused ? "Refused" : "Made";
  byId("step").classList.toggle("refused", step.refused && isOpen);
  byId("told").hidden = !isOpen;
  byId("ask").hidden = isOpen;
}

function place(element, x, y) {
  const picture = element.ownerSVGElement;
  element.setAttribute("x", x);
  element.setAttribute("y", y);
  element.setAttribute("width", Math.max(picture.getAttribute("width") - x, 0));
  element.setAttribute("height", Math.max(picture.getAttribute("height") - y, 0));
}

// Covers the events whose answers are hidden in the picture, and the rows of what isn't issued yet. If none is hidden,
// nothing is covered, so that the cursor keeps its lower edge.
function showVeils() {
  const isHiding = byId("hiding").checked;
  const told = isHiding ? shown + Number(isOpen) : steps.length;
  const column = told < steps.length ? session.columns[told] : Infinity;
  const height = byId("picture").getAttribute("height");
  place(byId("veil"), Math.min(session.left + session.column * column, session.width), session.head);
  for (const element of document.querySelectorAll(".below")) {
    place(element, 0, told < steps.length ? session.below[told] : height);
  }
  document.body.classList.toggle("predicting", isHiding);
}

// A button that would do nothing keeps the focus, so it isn't disabled.
function showControls(step) {
  const isFirst = shown === 0;
  const isLast = shown === steps.length - 1;
  byId("number").textContent = shown + 1;
  byId("slider").value = shown + 1;
  byId("slider").setAttribute("aria-valuetext", `${shown + 1} of ${steps.length}, ${step.event}`);
  const idle = { first: isFirst, back: isFirst, next: isLast && isOpen, last: isLast };
  if (session.cycles) {
    Object.assign(idle, { "cycle-back": cycleFrom(-1) === shown, "cycle-on": cycleFrom(1) === shown });
  }
  for (const [id, isIdle] of Object.entries(idle)) {
    byId(id).setAttribute("aria-disabled", isIdle);
  }
}

// The part of the picture that is in sight is that around the event's mark.
function showCursor() {
  const x = session.left + session.column * session.columns[shown];
  const box = byId("scroll");
  for (const cursor of document.querySelectorAll(".cursor")) {
    cursor.setAttribute("x", x);
  }
  const covered = byId("labels").getBoundingClientRect().width;
  box.scrollLeft = x + session.column / 2 - covered - (box.clientWidth - covered) / 2;
  box.scrollTop = steps[shown].line - (box.clientHeight + byId("heads").clientHeight) / 2;
  for (const row of document.querySelectorAll(".events .current")) {
    row.classList.remove("current");
  }
  byId(`row-${shown + 1}`).classList.add("current");
}

function show(n, isAsked = false) {
  const last = shown;
  shown = Math.min(Math.max(n, 0), steps.length - 1);
  isOpen = isAsked || !byId("hiding").checked || (isOpen && shown === last);
  const step = steps[shown];
  showPanel(step, shown ? steps[shown - 1] : session.boot);
  showStep(step);
  showControls(step);
  showVeils();
  showCursor();
  byId("ending").classList.toggle("later", shown < steps.length - 1);
}

// The step that the address names, as #event-7; else the one that is shown.
function named() {
  const found = location.hash.match(/^#event-(\d+)$/);
  return found ? Number(found[1]) - 1 : shown;
}

// Shows a step, and has the address name it. A browser takes only so many changes of an address in a second.
function go(n) {
  show(n);
  clearTimeout(noting);
  noting = setTimeout(() => history.replaceState(null, "", `#event-${shown + 1}`), 200);
}

// The last event of the next minor cycle with an event, or of the one before; else the one that is shown.
function cycleFrom(direction) {
  const now = session.cycles[shown];
  const others = session.cycles.filter((it) => direction * (it - now) > 0);
  return others.length ? session.cycles.lastIndexOf(direction > 0 ? others[0] : others[others.length - 1]) : shown;
}

// A step forward from an event whose answer is hidden shows the answer.
const ask = () => show(shown, true);
const hide = () => {
  isOpen = false;
  show(shown);
};
const moves = {
  ArrowLeft: () => go(shown - 1), ArrowRight: () => (isOpen ? go(shown + 1) : ask()), Home: () => go(0),
  End: () => go(steps.length - 1),
};
const cycleMoves = { ArrowLeft: () => go(cycleFrom(-1)), ArrowRight: () => go(cycleFrom(1)) };

const isFree = (event) => !(event.altKey || event.ctrlKey || event.metaKey);
const isPlain = (event) => isFree(event) && !event.shiftKey;

function press(event) {
  const known = event.shiftKey ? session.cycles && cycleMoves : moves;
  if (isFree(event) && !event.target.closest("#slider, .wide") && known && event.key in known) {
    event.preventDefault();
    known[event.key]();
  }
}

function point(event) {
  const x = event.clientX - byId("picture").getBoundingClientRect().left;
  const column = Math.floor((x - session.left) / session.column);
  // In a column with several events each click goes to the next one.
  const next = session.columns[shown] === column ? session.columns.indexOf(column, shown + 1) : -1;
  const n = next >= 0 ? next : session.columns.findIndex((it) => it >= column);
  if (column >= 0 && n >= 0) {
    go(n);
  }
}

const bringInSight = () => byId("stage").scrollIntoView();

function follow(event) {
  const link = event.target.closest(".events a");
  if (link && isPlain(event)) {
    event.preventDefault();
    go(Number(link.hash.match(/\d+/)[0]) - 1);
    byId("step").focus({ preventScroll: true });
    bringInSight();
  }
}

// An address that names an event leads to the picture and the panel, and no longer to the event's row in the table.
function open() {
  for (const row of document.querySelectorAll(".events tbody tr")) {
    row.id = row.id.replace("event", "row");
  }
  turn();
  window.addEventListener("load", turn);
}

function turn() {
  show(named());
  if (location.hash.startsWith("#event-")) {
    bringInSight();
  }
}

function begin() {
  byId("stepping").hidden = false;
  byId("panel").hidden = false;
  byId("stage").classList.add("stepped");
  byId("first").addEventListener("click", moves.Home);
  byId("back").addEventListener("click", moves.ArrowLeft);
  byId("next").addEventListener("click", moves.ArrowRight);
  byId("ask").addEventListener("click", ask);
  byId("switch").hidden = false;
  byId("hiding").addEventListener("change", hide);
  if (session.cycles) {
    byId("cycles").hidden = false;
    document.body.classList.add("timed");
    byId("cycle-back").addEventListener("click", cycleMoves.ArrowLeft);
    byId("cycle-on").addEventListener("click", cycleMoves.ArrowRight);
  }
  byId("last").addEventListener("click", moves.End);
  byId("slider").addEventListener("input", (event) => go(Number(event.target.value) - 1));
  for (const id of ["picture", "heads"]) {
    byId(id).addEventListener("click", point);
  }
  document.addEventListener("keydown", press);
  document.addEventListener("click", follow);
  window.addEventListener("hashchange", turn);
  window.addEventListener("resize", showCursor);
  open();
}

if (steps.length) {
  begin();
}
