// The timeline: a row for the machine and one for each reservation, and a column for each event. An event adds its
// column to what is drawn, because a browser takes long to draw a whole timeline again.

const LINE = 22;
const COLUMN = 40;
const MARGIN = 10;
// Columns are taken away by so many at once, and there is room for some more: a browser lays out all texts again if they
// move, or if the size of the picture changes. So its frame has the size of what is drawn.
const COLUMNS_TAKEN = 20;
const roomFor = (count) => 100 * Math.ceil(count / 100) + COLUMNS_TAKEN;
const SVG = "http://www.w3.org/2000/svg";
const MACHINE = "machine";

const middle = (n) => COLUMN * n + COLUMN / 2;
const heightOf = (row) => LINE * (row + 2) - 6;

/** How the rows are drawn in a state: in the unit, in the hopper or in the channel. A load in the hopper has a channel
 * too. */
function barsIn({ asked, units, places, channels }) {
  const bars = new Map(asked ? [[0, "reserved"]] : []);
  for (const [part, kind] of [[channels, "channel"], [places, "hopper"], [units, "reserved"]]) {
    Object.values(part).forEach((row) => bars.set(row, kind));
  }
  return bars;
}

function drawn(name, attributes, text = "") {
  const element = document.createElementNS(SVG, name);
  Object.entries(attributes).forEach(([key, value]) => element.setAttribute(key, value));
  element.textContent = text;
  return element;
}

/** Sets attributes that are otherwise now. */
function change(element, attributes) {
  Object.entries(attributes).filter(([key, value]) => element.getAttribute(key) !== String(value))
    .forEach(([key, value]) => element.setAttribute(key, value));
}

/** Those of some items that stay in sight. The elements of the others are removed. */
function kept(items, stays) {
  items.filter((it) => !stays(it)).forEach((it) => it.element.remove());
  return items.filter(stays);
}

class Timeline {
  constructor(picture, labels) {
    Object.assign(this, { picture, labels, frame: picture.parentElement });
    this.driven = null;
  }

  /** Clears what is drawn. The rows of reservations have a group of their own, because that of the machine stays on top
   * if they move. */
  begin(driven) {
    const drawing = { steps: driven.steps, count: 0, items: [], bars: new Map(), names: [], first: 0, top: 1 };
    Object.assign(this, { driven, ...drawing });
    [this.machine, this.reservations, this.named] = ["", "", ""].map(() => drawn("g", {}));
    this.picture.replaceChildren(this.machine, this.reservations);
    const paper = drawn("rect", { width: "100%", height: "100%", class: "paper" });
    this.labels.replaceChildren(paper, drawn("text", { x: 4, y: heightOf(0) }, MACHINE), this.named);
  }

  /** Draws at least so many of the last events of a driven machine, if there are as many, with the reservations that
   * were pending then. A column has the minor cycle of its event at its head, or else the number of the event. */
  draw(driven, isTimed, least) {
    const { steps, asking: { rows } } = driven;
    const first = Math.max(COLUMNS_TAKEN * Math.floor((steps.length - least) / COLUMNS_TAKEN), 0);
    if (this.driven !== driven || this.isTimed !== isTimed || first < this.first) {
      this.begin(driven);
      this.isTimed = isTimed;
    }
    this.takeBack(steps);
    for (let n = Math.max(this.count, first); n < steps.length; n++) {
      this.add(steps, n);
    }
    this.count = steps.length;
    if (first > this.first) {
      this.items = kept(this.items, (it) => it.end >= first);
      this.items.filter((it) => it.begin < first).forEach((it) => this.cut(it, first));
      const top = Math.min(...this.items.map((it) => it.row || rows.length));
      Object.assign(this, { first, top });
    }
    this.show(rows);
  }

  /** Takes the columns away of events that were taken back: then there is another list of steps. */
  takeBack(steps) {
    let count = this.steps === steps ? this.count : Math.min(this.count, steps.length);
    while (count > 0 && this.steps[count - 1] !== steps[count - 1]) {
      count -= 1;
    }
    if (count < this.count) {
      this.items = kept(this.items, (it) => it.begin < count);
      this.items.filter((it) => it.end >= count).forEach((it) => this.lengthen(it, count - 1));
      this.bars = new Map(this.items.filter((it) => it.kind).map((it) => [it.row, it]));
    }
    Object.assign(this, { steps, count });
  }

  /** Draws the column of an event, with the bars that lead there from the event before it. */
  add(steps, n) {
    const { mark, refused, cycle } = steps[n];
    this.text(0, n, 16, "quiet", this.isTimed ? cycle : n + 1);
    this.text(mark.row, n, heightOf(mark.row), refused ? "bad" : "", mark.mark);
    for (const [row, kind] of n ? barsIn(steps[n - 1].state) : []) {
      const bar = this.bars.get(row);
      if (bar?.kind === kind && bar.end === n - 1) {
        this.lengthen(bar, n);
      } else {
        const place = { x: middle(n - 1), y: heightOf(row) - 11, width: COLUMN, height: 14 };
        const item = { row, kind, begin: n, end: n, element: drawn("rect", { ...place, class: kind }) };
        this.bars.set(row, item);
        this.put(item, "prepend");
      }
    }
  }

  text(row, n, y, name, text) {
    const element = drawn("text", { x: middle(n), y, "text-anchor": "middle", class: name }, text);
    this.put({ row, begin: n, end: n, element }, "append");
  }

  put(item, where) {
    this.items.push(item);
    (item.row ? this.reservations : this.machine)[where](item.element);
  }

  /** Has a bar begin with this column as its first. */
  cut(bar, begin) {
    bar.begin = begin;
    bar.element.setAttribute("x", middle(begin - 1));
    this.lengthen(bar, bar.end);
  }

  /** Has a bar end at a column. It begins at the one before its first. */
  lengthen(bar, end) {
    bar.end = end;
    bar.element.setAttribute("width", COLUMN * (end - bar.begin + 1));
  }

  /** Scrolls to the last column, and to the row of its event. */
  follow() {
    const box = this.frame.parentElement;
    box.scrollLeft = box.scrollWidth;
    const row = this.steps.at(-1)?.mark.row;
    if (row) {
      const [above, below] = [row - this.top, row - this.top + 3].map((it) => LINE * it);
      box.scrollTop = Math.min(Math.max(box.scrollTop, below - box.clientHeight), above);
    }
  }

  /** Adds the labels of new rows, and brings the rows in sight that have something in these columns. */
  show(rows) {
    const { first, top } = this;
    const changed = this.names.find((it) => it.text !== rows[it.row]?.text)?.row ?? Infinity;
    this.names = kept(this.names, (it) => it.row >= top && it.row < changed);
    for (let row = Math.max((this.names.at(-1)?.row ?? 0) + 1, top); row < rows.length; row++) {
      const { text } = rows[row];
      const label = `${String(row).padStart(2)} ${text}`;
      const element = drawn("text", { x: 4, y: heightOf(row), "xml:space": "preserve" }, label);
      this.names.push({ row, text, element, size: label.length });
      this.named.append(element);
    }
    const [left, up] = [MARGIN + 8 * Math.max(MACHINE.length, ...this.names.map((it) => it.size)), LINE * (1 - top)];
    const across = left - COLUMN * first;
    const lines = rows.length - top + 2;
    const height = LINE * lines + MARGIN;
    change(this.picture, { width: COLUMN * roomFor(this.count - first), height: LINE * roomFor(lines) });
    change(this.machine, { transform: `translate(${across} 0)` });
    change(this.reservations, { transform: `translate(${across} ${up})` });
    change(this.named, { transform: `translate(0 ${up})` });
    Object.assign(this.frame.style, { width: `${across + COLUMN * this.count + MARGIN}px`, height: `${height}px` });
    change(this.labels, { width: left, height });
  }
}
