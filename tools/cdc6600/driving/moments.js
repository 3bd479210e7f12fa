// The table of the reservations: the numbers of each one's events, and what held it last. An event changes the rows of
// a few reservations. Those of the others stay the same objects, so nothing of them is worked out or drawn again.

const MOMENTS = ["issue", "read", "finish", "store", "accept", "return"];

/** What held a reservation, as tools/timeline --table has it. */
function heldBy({ event, answer, rows }) {
  const by = filled("[ ({numbers:reservation|reservations} {numbers})]", { numbers: rows.map(String) });
  return `${event.split(" ")[0]}: ${answer}${by}`;
}

/** The texts of a row behind the reservation's instruction and unit. `shown` gives what is shown for an event by its
 * number. */
const momentsOf = (row, shown = (number) => number) =>
  [...MOMENTS.map((kind) => (row[kind] ? shown(row[kind]) : "")), row.held ?? ""];

class Moments {
  constructor() {
    // The rows by the numbers of their reservations, which begin with 1, and what held the next issue last.
    this.rows = [null];
    this.issuing = "";
  }

  /** The table after some events. A row that is as it was in another table is the same object. */
  static after(steps, { rows }) {
    const table = new Moments();
    steps.forEach((it) => table.note(it));
    table.rows = table.rows.map((row, number) => (differs(row, rows[number]) ? row : rows[number]));
    return table;
  }

  /** Sets a text in the row of a reservation. */
  set(number, name, text) {
    if (this.rows[number]?.[name] !== text) {
      this.rows[number] = { ...this.rows[number], number, [name]: text };
    }
  }

  /** Notes what holds up reservations, and the next issue as that of the reservation 0. */
  hold(held) {
    for (const [row, text] of held) {
      if (row) {
        this.set(row, "held", text);
      } else {
        this.issuing = text;
      }
    }
  }

  /** Notes an event, and what was held up before it. */
  note({ number, event, held, refused, mark: { row } }) {
    this.hold(held);
    const [kind] = event.split(" ");
    if (!refused && row) {
      this.set(row, kind, String(number));
    }
    if (!refused && (kind === "issue" || kind === "exchange")) {
      if (row && this.issuing) {
        this.set(row, "held", this.issuing);
      }
      this.issuing = "";
    }
  }
}
