// Functions that look at a page, for the tests of pages in a browser. View of browsing.py calls them.

// The least that text has to differ from the colour behind it, by the guidelines for accessible pages.
const LEAST_CONTRAST = 4.5;

const byId = (id) => document.getElementById(id);
const all = (selector) => [...document.querySelectorAll(selector)];
const text = (id) => byId(id).textContent;
const isShown = (selector) => document.querySelector(selector).checkVisibility();
const boxOf = (it) => it.getBoundingClientRect();
const middleOf = ({ left, right }) => (left + right) / 2;
const isWithin = (x, { left, right }) => left <= x && x <= right;

/** Follows a link, or presses a button that may be out of sight. */
const follow = (selector) => document.querySelector(selector).click();

/** Gives the focus to the first element of a selector, if there is one. */
const focusOn = (selector) => document.querySelector(selector)?.focus();

/** Puts an element at the lower end of the window. */
const scrollTo = (selector) => document.querySelector(selector).scrollIntoView(false);

/** The rows of a part of the panel that have something. */
const rowsOf = (part) => Object.fromEntries(all(`.${part} tbody tr`)
  .filter((row) => row.cells[1].textContent && row.checkVisibility())
  .map((row) => [row.id.slice(part.length + 1), [...row.cells].slice(1).map((cell) => cell.textContent)]));

/** The values of the panel by their names, each with whether it is marked. */
const values = () => Object.fromEntries(all(".values tbody tr").map(({ id, cells: [name, digits, number] }) =>
  [id.slice("values-".length),
    [digits.textContent, number.textContent, getComputedStyle(name, "::before").content !== "none"]]));

/** The number in the picture under the cursor, if it is in sight. */
function column() {
  const [cursor, picture, labels] = ["cursor", "scroll", "labels"].map((id) => boxOf(byId(id)));
  const isPointed = (x) => isWithin(x, cursor) && isWithin(x, picture) && !isWithin(x, labels);
  const numbers = all('#picture text[y="22"][text-anchor="middle"]').filter((it) => isPointed(middleOf(boxOf(it))));
  return numbers.map((it) => it.textContent).join(" ");
}

/** All that is shown of the step. */
function shown() {
  const texts = ["number", "event", "answer", "words", "verdict"].map((id) => [id, text(id)]);
  const parts = ["units", "places", "channels", "registers"].map((part) => [part, rowsOf(part)]);
  const machine = all('[id^="machine-"]').map((it) => [it.id.slice("machine-".length), it.textContent]);
  return {
    ...Object.fromEntries([...texts, ...parts]), machine: Object.fromEntries(machine), values: values(),
    banks: all(".cells li.taken").map((it) => it.textContent),
    ending: isShown("#ending") ? document.querySelector("#ending pre").textContent : "",
    live: byId("step").ariaLive, column: column(), row: document.querySelector("tr.current").id,
  };
}

/** While answers are hidden: the number of the event, and whether its answer, the button for it and the table of all
 * events are in sight. */
const asked = () => [text("number"), ...["#told", "#ask", "#all-events"].map(isShown)];

/** Whether the controls, the picture and the end are in sight, and the events of the table. */
const still = () => ({
  controls: isShown("#stepping"), ending: isShown("#ending pre"),
  picture: isShown("#picture") || isShown(".pieces svg"),
  events: all(".events tbody tr").filter((row) => row.checkVisibility()).map((row) => row.cells[1].textContent),
});

/** The part of the address that names a step. */
const address = () => location.hash;

/** The links of a page that leads to others. */
const links = () => all("main a").map((it) => it.getAttribute("href"));

/** The state that the page of an exploration shows, and the dot that is chosen. */
const state = () => [text("name"), document.querySelector(".chosen").id];

/** What is wider than the window: the page, or a part of it outside the boxes that scroll. */
function wide() {
  const { clientWidth, scrollWidth } = document.documentElement;
  const parts = all("body *").filter((it) => !it.closest("#scroll > *, .wide > *"))
    .filter((it) => boxOf(it).right > clientWidth + 0.5);
  return [
    ...(scrollWidth > clientWidth ? [`the page scrolls to ${scrollWidth}`] : []),
    ...parts.slice(0, 3).map((it) => `${it.tagName} ${it.id || it.className} is wider than the window`),
  ];
}

/** What isn't in sight while one steps: the column of the event in the picture, the panel, or the controls. */
function hidden() {
  const inWindow = (it) => it.bottom > 0 && it.top < innerHeight && it.right > 0 && it.left < innerWidth;
  const picture = boxOf(byId("scroll"));
  const isPicture = inWindow(picture) && picture.top >= 0 && isWithin(middleOf(boxOf(byId("cursor"))), picture);
  return [...(isPicture ? [] : ["scroll"]), ...["panel", "next"].filter((id) => !inWindow(boxOf(byId(id))))];
}

/** What can be clicked, other than the links of a sentence, and has fewer than 24 pixels in a direction. */
const small = () => all("button, input, .links a, .events th a, #cursor")
  .filter((it) => it.checkVisibility() && (boxOf(it).width < 24 || boxOf(it).height < 24)).slice(0, 3)
  .map((it) => `${it.tagName} ${it.id || it.textContent} has ${boxOf(it).width} by ${boxOf(it).height} pixels`);

const channels = (colour) => colour.match(/[\d.]+/g).map(Number);

/** The brightness of a colour, from 0 to 1. */
function brightnessOf(colour) {
  const [r, g, b] = channels(colour).map((it) => it / 255).map((it) =>
    (it <= 0.04045 ? it / 12.92 : ((it + 0.055) / 1.055) ** 2.4));
  return 0.2126 * r + 0.7152 * g + 0.0722 * b;
}

function contrastOf(one, other) {
  const [low, high] = [brightnessOf(one), brightnessOf(other)].sort((a, b) => a - b);
  return (high + 0.05) / (low + 0.05);
}

/** The colour behind an element. */
function behind(element) {
  const colour = getComputedStyle(element).backgroundColor;
  const isClear = channels(colour).length > 3 && channels(colour)[3] === 0;
  return isClear && element.parentElement ? behind(element.parentElement) : colour;
}

/** The colour behind a text of a picture. */
function behindDrawn(drawn) {
  const { x, y, width, height } = drawn.getBBox();
  const covers = (it) => it.x <= x + width / 2 && x + width / 2 <= it.x + it.width
    && it.y <= y + height / 2 && y + height / 2 <= it.y + it.height;
  const rects = [...drawn.ownerSVGElement.querySelectorAll("rect")].filter((rect) => covers(rect.getBBox()));
  const fills = rects.map((rect) => getComputedStyle(rect).fill).filter((fill) => fill !== "none");
  return fills.at(-1) ?? behind(drawn.ownerSVGElement);
}

/** The brightness of the page, from 0 to 1. */
const brightness = () => brightnessOf(behind(document.body));

/** The texts that differ too little from the colour behind them. */
function dim() {
  const found = new Set();
  const walker = document.createTreeWalker(document.body, NodeFilter.SHOW_TEXT);
  while (walker.nextNode()) {
    const element = walker.currentNode.parentElement;
    const said = walker.currentNode.textContent.trim();
    if (said && !element.closest("script, style, title") && element.checkVisibility()) {
      const isDrawn = element.tagName === "text";
      const [style, paper] = [getComputedStyle(element), isDrawn ? behindDrawn(element) : behind(element)];
      const colour = isDrawn ? style.fill : style.color;
      const came = contrastOf(colour, paper);
      if (came < LEAST_CONTRAST) {
        found.add(`"${said.slice(0, 30)}" in ${colour} on ${paper} has the contrast ${came.toFixed(1)}`);
      }
    }
  }
  return [...found].slice(0, 5);
}
