// The sentences of words.json, filled with what they are about, as tools/cdc6600/drawing/sentences.py fills them.

const PART = /\[((?:[^\][{}]|\{[^{}]*\})*)\]/g;
const BAR = /\|(?![^{]*\})/;
const NAME = /\{(\??)(\w+)(?::([^|{}]*)\|([^{}]*))?\}/g;

const isGiven = (value) => (Array.isArray(value) ? value.length > 0 : Boolean(value));
const sentence = (text) => text.charAt(0).toUpperCase() + text.slice(1);

/** Parts of a sentence with commas between them, and an `and` before the last. */
const enumerated = (parts) =>
  (parts.length < 2 ? parts.join("") : `${parts.slice(0, -1).join(", ")} and ${parts.at(-1)}`);

/** A text with what is given for its names. */
function filled(text, given) {
  const whole = text.replace(PART, (_, found) => {
    const [first, ...otherwise] = found.split(BAR);
    return [...first.matchAll(NAME)].every((it) => isGiven(given[it[2]])) ? first : otherwise.join("");
  });
  return whole.replace(NAME, (_, isTest, name, one, several) => {
    const value = given[name] ?? "";
    if (one !== undefined) {
      return value.length === 1 ? one : several;
    }
    return isTest ? "" : Array.isArray(value) ? enumerated(value) : value;
  });
}

/** The sentence of a key. */
const said = (key, given = {}) => filled(GIVEN.sentences[key], given);
