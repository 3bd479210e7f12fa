"""The calls of cdc6600.mjs in a process of Node, for tools/check module."""

from __future__ import annotations

import base64
import json
import subprocess
from pathlib import Path
from types import SimpleNamespace
from typing import Any

from cdc6600.shared.program import ROOT, Ran
from cdc6600.shared.waiting import Missing, run

SERVER, CALLS = Path(__file__).with_name("module_calls.mjs"), ROOT / "crates/embedding/javascript/cdc6600.mjs"
# Node 20 accepts 64-bit addresses only with this flag, which later ones don't need.
FLAG = "--experimental-wasm-memory64"
ACCEPTS = "process.exit(WebAssembly.validate(require('fs').readFileSync(process.argv[1])) ? 0 : 1)"
ERROR = "Cdc6600Error"
# JavaScript's numbers are exact below this.
EXACT = 2**53


def flags_for(module: Path) -> list[str]:
    """The flags with which Node accepts a module."""
    return [FLAG] if run(["node", "-e", ACCEPTS, module]).returncode else []


def as_json(it: object) -> object:
    """An argument of a call: bytes and large numbers as objects."""
    if isinstance(it, bytes):
        return {"bytes": base64.b64encode(it).decode()}
    return {"big": str(it)} if isinstance(it, int) and abs(it) >= EXACT else it


def ran(came: Any) -> Any:
    """How a call ends, as a run of the program does; if it throws another error than the library's, what it throws."""
    if came.get("kind", ERROR) != ERROR:
        return came
    return Ran(came["status"], came["printed"].encode(), came["told"].encode())


class Node:
    """A process that makes the calls with a module."""

    def __init__(self, module: Path) -> None:
        words = ["node", *flags_for(module), *map(str, (SERVER, CALLS, module))]
        self.process = subprocess.Popen(words, stdin=subprocess.PIPE, stdout=subprocess.PIPE)
        assert self.process.stdin and self.process.stdout
        self.asked, self.answers = self.process.stdin, self.process.stdout

    def __enter__(self) -> Node:
        return self

    def __exit__(self, *raised: object) -> None:
        self.asked.close()
        self.answers.close()
        self.process.wait()

    def ask(self, *words: Any) -> Any:
        """The result of a call.

        Raises Missing if the process has ended."""
        self.asked.write(json.dumps([as_json(it) for it in words]).encode() + b"\n")
        self.asked.flush()
        line = self.answers.readline()
        if not line:
            raise Missing(f"Node ended at {words}"[:200])
        return json.loads(line)

    def kind(self, *words: Any) -> Any:
        """The name of the error that a call throws, or none."""
        return self.ask(*words).get("kind")

    def call(self, name: str, *given: Any) -> Any:
        """How a function of the library ends, as a run of the program does."""
        return ran(self.ask("library", name, *given))


class Functions:
    """The functions of the library, with the methods of the class in the example in Python."""

    def __init__(self, node: Node) -> None:
        self.node = node

    def call(self, name: str, *given: Any) -> Any:
        """What a function prints, its fault line and its status."""
        came = self.node.call(name, *given)
        return came.printed, came.told, came.status

    def list(self, text: bytes | str) -> Any:
        return self.call("list", text)

    def events(self, text: bytes | str) -> Any:
        return self.call("events", text)

    def replay(self, text: bytes | str, log: bytes) -> Any:
        return self.call("replay", text, log)


class Machine:
    """A machine that is kept, with the methods of the class in the example in Python."""

    def __init__(self, node: Node) -> None:
        came = node.ask("make")
        if "number" not in came:
            raise Missing(f"no machine is made: {came}")
        self.node, self.number = node, came["number"]

    def __enter__(self) -> Machine:
        return self

    def __exit__(self, *raised: object) -> None:
        self.free()

    def call(self, name: str, *given: Any) -> Any:
        """What a call prints, its fault line and its status."""
        came = ran(self.node.ask("machine", self.number, name, *given))
        return (came.printed, came.told, came.status) if isinstance(came, Ran) else came

    def boot(self, text: bytes | str, *budget: int) -> Any:
        return self.call("boot", text, *budget)[1:]

    def event(self, text: bytes | str) -> Any:
        return self.call("event", text)

    def judge(self, text: bytes | str) -> Any:
        return self.call("judge", text)

    def next(self) -> Any:
        return self.call("next")

    def log(self) -> Any:
        return self.call("log")

    def dump(self) -> Any:
        return self.call("dump")

    def contents(self, part: str) -> Any:
        """The lines of a part of the machine."""
        first, *others = part.split("_")
        return self.call(first + "".join(map(str.capitalize, others)))

    def advance(self, most: int, *address: int) -> Any:
        return self.node.ask("advance", self.number, most, *address).get("count")

    def drain(self) -> Any:
        return self.node.ask("drain", self.number).get("count")

    def is_drained(self) -> Any:
        return self.node.ask("isDrained", self.number).get("flag")

    def registers(self) -> tuple[SimpleNamespace, Any]:
        """The registers, and the status."""
        came = self.node.ask("registers", self.number)
        found = came
        if "x" in came:
            found = {**came, "x": [int(it) for it in came["x"]], "has_held": came["held"] != "null"}
        return SimpleNamespace(**found), came.get("status")

    def words(self, first: int, count: int) -> tuple[list[int], Any]:
        """Words of memory, and the status."""
        came = self.node.ask("words", self.number, first, count)
        return [int(it) for it in came.get("words", ())], came.get("status")

    def free(self) -> None:
        self.node.ask("machine", self.number, "free")
