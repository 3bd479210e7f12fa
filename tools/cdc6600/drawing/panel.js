// The panel of a machine, as the pages of sessions and the page that drives a machine show it. A step has the rows of
// each part of the machine by their names, and in `holds` the numbers of the reservations that hold its event back.
"use strict";

const byId = (id) => document.getElementById(id);

// Whether something is shown otherwise than before the event.
const differs = (one, other) => JSON.stringify(one) !== JSON.stringify(other);

// Sets a text. One that is there already stays, because a browser lays out again what is set. Another one is put in its
// place, which takes a browser less than a new child.
function write(element, text) {
  if (element.textContent === text) {
    return;
  }
  if (text && element.childNodes.length === 1 && element.firstChild.nodeType === Node.TEXT_NODE) {
    element.firstChild.data = text;
  } else {
    element.textContent = text;
  }
}

// Hides an element or shows it.
function setHidden(element, isHidden) {
  if (element.hidden !== isHidden) {
    element.hidden = isHidden;
  }
}

function mark(element, row, before, holds) {
  element.classList.toggle("taken", row !== undefined);
  element.classList.toggle("changed", differs(row, before));
  element.classList.toggle("holds", row !== undefined && holds.includes(row[0]));
}

function showPart(part, step, before) {
  for (const element of document.querySelectorAll(`.${part} tbody tr`)) {
    const key = element.id.slice(part.length + 1);
    const row = step[part][key];
    mark(element, row, before[part][key], step.holds);
    [...element.cells].slice(1).forEach((cell, at) => write(cell, row ? row[at] : ""));
  }
}

function showMachine(step, before) {
  for (const [key, text] of Object.entries(step.machine)) {
    const element = byId(`machine-${key}`);
    write(element, text);
    element.classList.toggle("changed", text !== before.machine[key]);
  }
}

function showBanks(step, before) {
  for (const element of document.querySelectorAll(".cells li")) {
    const key = element.id.slice("banks-".length);
    mark(element, step.banks[key], before.banks[key], step.holds);
  }
  const busy = Object.entries(step.banks).map(([bank, row]) => `${bank} by ${row[1]} (reservation ${row[0]})`);
  write(byId("busy"), busy.length ? `Busy: ${busy.join(", ")}.` : "None is busy.");
}

// A row of the table of the reserved registers, without its texts.
function registerRow(register, count) {
  const element = document.createElement("tr");
  element.id = `registers-${register}`;
  const head = document.createElement("th");
  head.scope = "row";
  head.textContent = register;
  element.append(head, ...Array.from({ length: count }, () => document.createElement("td")));
  return element;
}

function showRegisters(step, before) {
  const table = byId("registers");
  const rows = Object.entries(step.registers).map(([register, row]) => {
    const element = byId(`registers-${register}`) ?? registerRow(register, row.length);
    row.forEach((text, at) => write(element.cells[at + 1], text));
    mark(element, row, before.registers[register], step.holds);
    return element;
  });
  if (rows.length !== table.rows.length || rows.some((it, at) => it !== table.rows[at])) {
    table.replaceChildren(...rows);
  }
  setHidden(table.parentElement, rows.length === 0);
  setHidden(byId("unreserved"), rows.length > 0);
}

function showValues(after, changed) {
  for (const element of document.querySelectorAll(".values tbody tr")) {
    const name = element.id.slice("values-".length);
    after[name].forEach((text, at) => write(element.cells[at + 1], text));
    element.classList.toggle("changed", name in changed);
  }
}

// The parts of the machine after a step, marked where they were otherwise before. `values` has the texts of all values,
// and `changed` those that the event has changed.
function showParts(step, before, values, changed) {
  for (const part of ["units", "places", "channels"]) {
    showPart(part, step, before);
  }
  showMachine(step, before);
  showValues(values, changed);
  showBanks(step, before);
  showRegisters(step, before);
}
