"use strict";
// Goes from state to state of the graph: by clicks, by the buttons of events, and by keys.
(() => {
  const byId = (id) => document.getElementById(id);
  const states = JSON.parse(byId("data").textContent);
  let way = [0];

  const line = (text) => {
    const item = document.createElement("li");
    item.textContent = text;
    return item;
  };
  const button = ([event, state]) => {
    const item = document.createElement("li");
    const found = document.createElement("button");
    found.type = "button";
    found.textContent = event;
    found.addEventListener("click", () => {
      go([...way, state]);
      (byId("edges").querySelector("button") || byId("back")).focus({ preventScroll: true });
    });
    item.append(found);
    return item;
  };
  const go = (next) => {
    byId(`state-${way.at(-1)}`).classList.remove("chosen");
    way = next;
    const number = way.at(-1);
    const state = states[number];
    const dot = byId(`state-${number}`);
    dot.classList.add("chosen");
    byId("scroll").scrollLeft = dot.cx.baseVal.value - byId("scroll").clientWidth / 2;
    const events = `${state.layer} event${state.layer === 1 ? "" : "s"}`;
    byId("name").textContent = `State ${number}, after ${events}; ways to it: ${state.orders}`;
    byId("has").replaceChildren(...state.has.map(line));
    byId("edges").replaceChildren(...(state.edges.length ? state.edges.map(button) : [line("none: this is an end")]));
    byId("refused").replaceChildren(...state.refused.map(([event, answer]) => line(`${event}: ${answer}`)));
  };
  const beside = (step) => {
    const number = way.at(-1) + step;
    const isBeside = states[number] && states[number].layer === states[way.at(-1)].layer;
    return isBeside ? [...way.slice(0, -1), number] : way;
  };
  const moves = {
    ArrowLeft: () => (way.length > 1 ? way.slice(0, -1) : way),
    ArrowRight: () => (states[way.at(-1)].edges.length ? [...way, states[way.at(-1)].edges[0][1]] : way),
    ArrowUp: () => beside(-1),
    ArrowDown: () => beside(1),
    Home: () => [0],
  };
  document.addEventListener("keydown", (event) => {
    if (!moves[event.key] || event.ctrlKey || event.altKey || event.metaKey) return;
    // Elsewhere these keys scroll the page.
    if (/Up|Down/.test(event.key) && document.activeElement !== byId("scroll")) return;
    event.preventDefault();
    go(moves[event.key]());
  });
  byId("graph").addEventListener("click", (event) => {
    const found = /^state-(\d+)$/.exec(event.target.id);
    if (found) go([Number(found[1])]);
  });
  byId("back").addEventListener("click", () => go(moves.ArrowLeft()));
  byId("first").addEventListener("click", () => go(moves.Home()));
  byId("panel").hidden = false;
  go(way);
})();
