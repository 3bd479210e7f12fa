"""Firefox without a window, driven by its own protocol Marionette, which has the commands of WebDriver. Debian has no
program that offers WebDriver's interface for it.

A message is JSON with its length before it. What WebDriver has no command for is done by scripts in the browser's own
context, where its parts are objects."""

import json
import os
import socket
import subprocess
import tempfile
from contextlib import suppress
from pathlib import Path
from typing import IO, Any

from cdc6600.shared.waiting import wait_for_stream, wait_until

from .web_driver import LIMIT, Browser, Refused

# The port is one that is free, and a file of the profile has it then.
SETTINGS = 'user_pref("marionette.port", 0);\n'
PORT = "MarionetteActivePort"
WORDS = ("firefox-esr", "--headless", "--marionette", "--remote-allow-system-access", "--no-remote", "--profile")
# The size of the screen. No window that is tried is larger.
SCREEN = {"MOZ_HEADLESS_WIDTH": "1600", "MOZ_HEADLESS_HEIGHT": "1600"}

# Runs a script in the page. Marionette's own scripts don't see the names that the page's scripts declare by `const` and
# `let`, and the page's policy allows no `eval`; a debugger sees them and may run it.
IN_PAGE = r"""
const [script, given] = arguments;
const { addDebuggerToGlobal } = ChromeUtils.importESModule("resource://gre/modules/jsdebugger.sys.mjs");
addDebuggerToGlobal(globalThis);
const page = new Debugger().makeGlobalObjectReference(window);
const ran = page.executeInGlobal(
  `(async () => JSON.stringify(await (function () {${script}\n}).apply(null, ${JSON.stringify(given)})) ?? "null")()`);
if (ran.throw) {
  throw new Error(ran.throw.unsafeDereference());
}
return ran.return.unsafeDereference();
"""
# Looks at a page whose own scripts don't run.
BESIDE_PAGE = "return JSON.stringify((function () {%s\n}).apply(null, arguments[1])) ?? 'null';"

LOOK = r"""
const [width, height, scheme, media, scale] = arguments;
const browser = gBrowser.selectedBrowser;
browser.style.flex = "none";
for (const [name, size] of [["width", width], ["height", height]]) {
  ["", "min-", "max-"].forEach((bound) => browser.style.setProperty(`${bound}${name}`, `${size}px`));
}
Object.assign(browser.browsingContext, { prefersColorSchemeOverride: scheme, overrideDPPX: scale,
  mediumOverride: media === "screen" ? "" : media });
"""
# Notes what is asked for over the network by pages, and not by the browser itself.
NOTE_REQUESTS = r"""
window.asked = [];
Services.obs.addObserver((channel) => {
  if (channel.QueryInterface(Ci.nsIHttpChannel).loadInfo.browsingContextID) {
    window.asked.push(channel.URI.spec);
  }
}, "http-on-modify-request");
"""
REQUESTS = "return window.asked.splice(0);"
FAULTS = r"""
const notes = Services.console.getMessageArray().filter((it) => it instanceof Ci.nsIScriptError);
Services.console.reset();
const isOfPage = (it) => !(it.flags & Ci.nsIScriptError.warningFlag) && !/^(chrome|resource):/.test(it.sourceName);
return notes.filter(isOfPage).map((it) => `${it.sourceName} ${it.lineNumber}: ${it.errorMessage}`);
"""
FRAMES = "return new Promise((done) => requestAnimationFrame(() => requestAnimationFrame(() => done(null))));"
USE_SCRIPTS = "gBrowser.selectedBrowser.browsingContext.allowJavascript = arguments[0];"


class Firefox(Browser):
    """A Firefox with one page."""

    def __init__(self) -> None:
        self.room, self.asked, self.runs_scripts = tempfile.TemporaryDirectory(), 0, True
        self.shown: tuple[int, int, str, str, float] | None = None
        profile = Path(self.room.name)
        (profile / "user.js").write_text(SETTINGS, encoding="ascii")
        pipes: dict[str, Any] = dict.fromkeys(("stdin", "stdout", "stderr"), subprocess.DEVNULL)
        environment = {**os.environ, **SCREEN, "HOME": self.room.name}
        self.process = subprocess.Popen([*WORDS, profile], **pipes, env=environment, start_new_session=True)
        self.is_connected = False
        try:
            self.socket = socket.create_connection(("127.0.0.1", self.port(profile / PORT)))
            self.answers: IO[bytes] = self.socket.makefile("rb")
            self.is_connected = True
            self.message()
            self.call("WebDriver:NewSession", timeouts={"script": LIMIT, "pageLoad": LIMIT})
            self.beside(NOTE_REQUESTS)
        except BaseException:
            self.close()
            raise

    def port(self, file: Path) -> int:
        """The port on which the browser listens."""
        def is_there() -> str:
            if self.process.poll() is not None:
                raise Refused("firefox-esr doesn't start")
            return file.read_text(encoding="ascii") if file.exists() else ""

        return int(wait_until(is_there, "firefox-esr to start"))

    def message(self) -> Any:
        """The next message of the browser."""
        length = b""
        while not length.endswith(b":"):
            part = self.answers.read(1)
            if not part:
                raise Refused("firefox-esr has ended")
            length += part
        return json.loads(self.answers.read(int(length[:-1])))

    def call(self, command: str, **given: Any) -> Any:
        """Gives a command; what the browser answers."""
        self.asked += 1
        text = json.dumps([0, self.asked, command, given]).encode()
        self.socket.sendall(b"%d:%b" % (len(text), text))
        wait_for_stream(f"the browser's answer to {command}: {given}", reading=[self.socket.fileno()])
        _, _, fault, value = self.message()
        if fault:
            raise Refused(f"{fault['error']}: {fault['message'].splitlines()[0]}")
        return value

    def send(self, command: str, **given: Any) -> Any:
        return self.call(f"WebDriver:{command}", **given)["value"]

    def beside(self, script: str, *given: Any) -> Any:
        """Runs a script in the browser's own context; what it returns."""
        self.call("Marionette:SetContext", value="chrome")
        try:
            return self.send("ExecuteScript", script=script, args=list(given))
        finally:
            self.call("Marionette:SetContext", value="content")

    def run(self, script: str, *given: Any) -> Any:
        how = IN_PAGE if self.runs_scripts else BESIDE_PAGE % script
        return json.loads(self.send("ExecuteScript", script=how, args=[script, list(given)], sandbox="system"))

    def label(self, element: str) -> tuple[str, ...]:
        """What a screen reader says of an element. The browser works that out with the second frame at the latest."""
        self.run(FRAMES)
        return super().label(element)

    def open(self, url: str) -> None:
        """Opens a page, and waits until it is there. A page may get a process of its own, which doesn't know yet how
        pages are shown."""
        super().open(url)
        if self.shown:
            self.show_as(*self.shown)

    def look(self, width: int, height: int, scheme: str, media: str, scale: float) -> None:
        self.shown = width, height, scheme, media, scale
        self.beside(LOOK, *self.shown)

    def use_scripts(self, is_used: bool) -> None:
        self.runs_scripts = is_used
        self.beside(USE_SCRIPTS, is_used)

    def faults(self) -> list[str]:
        return list(self.beside(FAULTS))

    def requests(self) -> list[str]:
        return list(self.beside(REQUESTS))

    def close(self) -> None:
        """Ends the browser."""
        if self.is_connected:
            with suppress(OSError, Refused):
                self.call("Marionette:Quit", flags=["eForceQuit"])
            self.answers.close()
            self.socket.close()
        else:
            self.process.terminate()
        wait_until(lambda: self.process.poll() is not None, "the end of firefox-esr")
        self.room.cleanup()
