"""Chromium without a window, driven by chromedriver over WebDriver's interface."""

import http.client
import json
import os
import re
import select
import shutil
import subprocess
from contextlib import suppress
from typing import IO, Any

from cdc6600.shared.waiting import wait_for_stream, wait_until

from .web_driver import LIMIT, Browser, Refused

# How often the driver tries to start the browser: it gives up after a minute each time.
ATTEMPTS = 5
STARTED = re.compile(rb"started successfully on port (\d+)")
# The paths of the commands.
POSTED = {"Navigate": "/url", "ExecuteScript": "/execute/sync", "PerformActions": "/actions", "FindElement": "/element",
          "ElementClick": "/element/{id}/click"}
ASKED = {"GetComputedRole": "/element/{id}/computedrole", "GetComputedLabel": "/element/{id}/computedlabel",
         "TakeScreenshot": "/screenshot"}


class Chromium(Browser):
    """A Chromium with one page."""

    def __init__(self) -> None:
        words = ["chromedriver", "--port=0"]
        self.driver = subprocess.Popen(words, stdout=subprocess.PIPE, stderr=subprocess.DEVNULL, start_new_session=True)
        self.path, self.said = "", b""
        assert self.driver.stdout
        self.output: IO[bytes] = self.driver.stdout
        try:
            self.connection = http.client.HTTPConnection("127.0.0.1", self.port())
            self.path = f"/session/{self.begin()}"
        except BaseException:
            self.close()
            raise

    def begin(self) -> str:
        """Begins the browser, by a further attempt if the driver gives one up; the name of its session."""
        for _ in range(1, ATTEMPTS):
            with suppress(Refused):
                return self.new_session()
        return self.new_session()

    def new_session(self) -> str:
        """Asks the driver for a browser; the name of its session."""
        words = ["--headless=new", "--no-sandbox", "--disable-gpu"]
        logged = {"enableNetwork": True, "enablePage": False}
        options = {"binary": shutil.which("chromium"), "args": words, "perfLoggingPrefs": logged}
        logs = {"performance": "ALL", "browser": "ALL"}
        wanted = {"browserName": "chrome", "goog:chromeOptions": options, "goog:loggingPrefs": logs,
                  "timeouts": {"script": LIMIT, "pageLoad": LIMIT}}
        return str(self.call("POST", "/session", {"capabilities": {"alwaysMatch": wanted}})["sessionId"])

    def port(self) -> int:
        """The port on which the driver listens."""
        return int(wait_until(self.started, lambda: f"chromedriver to start: {self.said!r}")[1])

    def started(self) -> re.Match[bytes] | None:
        """Reads what the driver says next; the line that tells its port, once it is there."""
        if select.select([self.output], [], [], 0)[0]:
            part = os.read(self.output.fileno(), 4096)
            if not part:
                raise Refused("chromedriver doesn't start")
            self.said += part
        return STARTED.search(self.said)

    def call(self, method: str, path: str, body: Any = None) -> Any:
        """Makes a request of the driver; what it answers."""
        text = None if body is None else json.dumps(body)
        self.connection.request(method, self.path + path, text, {"Content-Type": "application/json"})
        wait_for_stream(f"the driver's answer to {method} {path}: {text}", reading=[self.connection.sock.fileno()])
        value = json.loads(self.connection.getresponse().read())["value"]
        if isinstance(value, dict) and "error" in value:
            raise Refused(f"{value['error']}: {value['message'].splitlines()[0]}")
        return value

    def send(self, command: str, **given: Any) -> Any:
        if command in ASKED:
            return self.call("GET", ASKED[command].format(**given))
        return self.call("POST", POSTED[command].format(**given), given)

    def run(self, script: str, *given: Any) -> Any:
        return self.send("ExecuteScript", script=script, args=list(given))

    def command(self, name: str, **values: Any) -> None:
        """Gives the browser a command of its own protocol."""
        self.call("POST", "/goog/cdp/execute", {"cmd": name, "params": values})

    def look(self, width: int, height: int, scheme: str, media: str, scale: float) -> None:
        size = {"width": width, "height": height, "deviceScaleFactor": scale, "mobile": width < 600}
        self.command("Emulation.setDeviceMetricsOverride", **size)
        features = [{"name": "prefers-color-scheme", "value": scheme}]
        self.command("Emulation.setEmulatedMedia", media=media, features=features)

    def use_scripts(self, is_used: bool) -> None:
        self.command("Emulation.setScriptExecutionDisabled", value=not is_used)

    def log(self, kind: str) -> Any:
        """What the browser noted since the last call, of this kind."""
        return self.call("POST", "/se/log", {"type": kind})

    def faults(self) -> list[str]:
        return [it["message"] for it in self.log("browser")]

    def requests(self) -> list[str]:
        notes = [json.loads(it["message"])["message"] for it in self.log("performance")]
        sent = [it["params"] for it in notes if it["method"] == "Network.requestWillBeSent"]
        return [it["request"]["url"] for it in sent if not it["request"]["url"].startswith("data:")]

    def close(self) -> None:
        """Ends the browser and the driver."""
        try:
            if self.path:
                self.call("DELETE", "")
        finally:
            self.driver.terminate()
            wait_until(lambda: self.driver.poll() is not None, "the end of chromedriver")
            self.output.close()
