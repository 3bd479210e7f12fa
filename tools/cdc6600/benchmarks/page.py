"""What an event costs in the page that drives the machine, with its drawing, from the 1,000th event of a session on.

    tools/bench page [RUNS [PAGE]]

starts a program with a loop in the page, RUNS times, 10 if nothing is said, in Chromium and in Firefox, as far as
these are installed. Each time it makes 1,000 events at once, and then 100 one by one, by their buttons. It prints how
long the page takes to open, and of the milliseconds from a click until the browser has laid out and painted the page
the median, the 95th percentile and the most. The events are drawn among those that the machine accepts, so that units,
hopper and channels are mostly in use.

The page is that of docs/try, unless PAGE names another one. The window has 1280 by 900 pixels.
"""

import base64
import statistics
import sys
import time
from pathlib import Path

from cdc6600.checks.browsers import CLIENTS, why_left_out
from cdc6600.checks.web_driver import Browser
from cdc6600.driving.driving import NAME
from cdc6600.module.files import BUILT
from cdc6600.shared.decks import deck
from cdc6600.shared.waiting import wait_until

WINDOW, FIRST, COUNT = (1280, 900), 1000, 100
# The program of the deck `loop`, which begins again instead of its stop.
ENDLESS = deck("loop").text.replace(b"code PS\n", b"code EQ B0,B0,0\n")
READY = "return document.documentElement.dataset.ready || null;"
# Starts a program.
START = r"""
document.getElementById("text").value = atob(arguments[0]);
document.getElementById("start").click();
"""
# Makes events that are drawn, without showing them, and then shows the machine.
MADE = r"""
let [seed, count] = arguments;
window.draw = (all) => {
  seed = (seed * 1103515245 + 12345) % 2147483648;
  const own = all.filter((it) => !/^(ask|exchange)/.test(it));
  const from = own.length ? own : all;
  return from[Math.floor(seed / 65536) % from.length];
};
for (let made = 0; made < count; made++) {
  driven.make(draw(driven.offers().filter((it) => !isRefusal(it.answer)).map((it) => it.event)));
}
show();
document.getElementById("step").scrollIntoView();
"""
# Makes events by their buttons; the milliseconds of each. A message that is sent while a frame is made comes when the
# frame is painted.
TIMED = r"""
const [count] = arguments;
const frame = () => new Promise(requestAnimationFrame);
const painted = () => new Promise((done) => {
  const { port1, port2 } = new MessageChannel();
  port1.onmessage = done;
  port2.postMessage(null);
});
return (async () => {
  const took = [];
  for (let made = 0; made < count; made++) {
    const event = draw([...document.querySelectorAll("#may button")].map((it) => it.dataset.event));
    const button = document.querySelector(`#may [data-event="${event}"]`);
    button.focus();
    await frame();
    await frame();
    const begun = performance.now();
    button.click();
    await painted();
    took.push(performance.now() - begun);
  }
  return took;
})();
"""


def opened(browser: Browser, page: Path) -> float:
    """Opens the page; the seconds until it is ready."""
    begun = time.perf_counter()
    browser.open(page.as_uri())
    wait_until(lambda: bool(browser.run(READY)), "the page to be ready")
    return time.perf_counter() - begun


def timed(browser: Browser, seed: int) -> list[float]:
    """The milliseconds of each event in a further session."""
    browser.run(START, base64.b64encode(ENDLESS).decode())
    browser.run(MADE, seed, FIRST)
    return list(browser.run(TIMED, COUNT))


def main() -> int:
    words = sys.argv[1:]
    runs, page = int(words[0]) if words else 10, Path(words[1]).resolve() if words[1:] else BUILT / NAME
    for name, client in CLIENTS.items():
        if told := why_left_out(name):
            print(f"{sys.argv[0]}: {told}", file=sys.stderr)
            continue
        with client() as browser:
            browser.show_as(*WINDOW)
            seconds = opened(browser, page)
            took = [it for seed in range(runs) for it in timed(browser, seed)]
        high = statistics.quantiles(took, n=20)[-1]
        print(f"{name}: opened in {seconds:.2f} s; an event took {statistics.median(took):.1f} ms, "
              f"95 % up to {high:.1f}, at most {max(took):.1f}", flush=True)
    return 0
