"""Makes the WebAssembly module of the library for C from the bitcode that the kit has made of the proved crate.

The kit proves a static library for wasm64 too, but builds none: its backend refuses the heap's three functions there,
since they aren't imports. So the bitcode is that of the library for x86-64. Both processors have 64-bit addresses and
store the lowest byte first, and the bitcode spells out the layout of each type. The kit's own compiler compiles it for
wasm64, and its linker links it with heap.c, which is the heap in the module's memory, and with memory.c. Nothing is
proved of these two files, of the compiler and of the linker.

The module has 64-bit addresses, which older engines don't accept. `wasm-opt` of Debian's package binaryen turns it into
one with 32-bit addresses. Both import nothing, and have the same bytes whenever they are made.
"""

import re
import shutil
from pathlib import Path
from typing import Container, Iterable, Iterator

from cdc6600.building.building import Unproved
from cdc6600.building.library import HEADER
from cdc6600.building.processes import run

FOLDER = Path(__file__).resolve().parent
SOURCES = ("heap", "memory")
LAYOUT = "e-m:e-p:64:64-p10:8:8-p20:8:8-i64:64-i128:128-n32:64-S128-ni:1:10:20"
# The attributes that only x86-64 has, and what would say that there are others.
BOUND = re.compile(r' "(?:probe-stack|stack-probe-size|target-cpu|frame-pointer)"="[^"]*"')
LEFT = re.compile(r"x86|\basm\b")
CALL = re.compile(r"\b(cdc6600_\w+)\(")
# Of the heap, for the host of the module.
OF_HEAP = ("cdc6600_allocate", "cdc6600_deallocate")
# Copies are calls of memory.c, and not instructions.
CODE = ("-O3", "-mno-bulk-memory", "-mno-bulk-memory-opt", "-x", "ir")
C = ("-O2", "-Wall", "-Wextra", "-Wno-pointer-to-int-cast", "-ffreestanding", "-fno-builtin", "-nostdinc")
COMMON = (
    "--target=wasm64-unknown-unknown", "-mcpu=lime1", "-mllvm", "-expand-div-rem-bits=64", "-mllvm",
    "-expand-fp-convert-bits=64", "-ffunction-sections", "-fdata-sections", "--no-default-config",
    "-fno-crash-diagnostics", "-Werror", "-c",
)
# The stack comes first, so that one that is full leaves the memory, which traps. 64 KiB were enough for all decks.
STACK = 4 * 65536
LINKED = (
    "-flavor", "wasm", "-mwasm64", "--no-entry", "--stack-first", "-z", f"stack-size={STACK}", "--gc-sections",
    "--fatal-warnings", "--threads=1",
)
LOWERING = "wasm-opt"
FEATURES = ("memory64", "bulk-memory", "sign-ext", "mutable-globals", "nontrapping-float-to-int")
# The sections that are left out: names and notes, and the table, which has no element. Node 20 doesn't accept a table
# of a module with 64-bit addresses.
NOTES, TABLE, ELEMENTS = 0, 4, 9
UNPROVED = "unproved"


def calls() -> list[str]:
    """The functions that the header declares."""
    return sorted(set(CALL.findall(HEADER.read_text(encoding="utf-8"))))


def for_wasm(text: str) -> str:
    """The text of the bitcode for wasm64, without what only x86-64 has."""
    text = re.sub(r"^target datalayout = .*$", f'target datalayout = "{LAYOUT}"', text, flags=re.MULTILINE)
    text = re.sub(r"^target triple = .*$", 'target triple = "wasm64-unknown-unknown"', text, flags=re.MULTILINE)
    text = BOUND.sub("", text)
    if LEFT.search(text):
        raise Unproved("cdc6600: the bitcode has parts that only x86-64 has")
    return text


def number(data: bytes, at: int) -> tuple[int, int]:
    """A number of the binary format, and where it ends."""
    value = shift = 0
    while True:
        byte, at = data[at], at + 1
        value |= (byte & 127) << shift
        shift += 7
        if byte < 128:
            return value, at


def sections(data: bytes) -> Iterator[tuple[int, bytes]]:
    """The sections of a module, each as its number and all its bytes."""
    at = 8
    while at < len(data):
        size, begin = number(data, at + 1)
        yield data[at], data[at : begin + size]
        at = begin + size


def without(data: bytes, kinds: Container[int]) -> bytes:
    """A module without its sections of these kinds."""
    found = list(sections(data))
    if any(kind == ELEMENTS for kind, _ in found):
        raise Unproved("cdc6600: the module has an element in its table")
    return data[:8] + b"".join(it for kind, it in found if kind not in kinds)


def marked(data: bytes) -> bytes:
    """A module with a note that it isn't proved. Engines ignore the note, and cdc6600.mjs finds it."""
    name = UNPROVED.encode()
    return data + bytes([NOTES, len(name) + 1, len(name)]) + name


class Making:
    """The making of modules in a folder of its own."""

    def __init__(self, kit: Path, room: Path) -> None:
        self.room, self.clang, self.linker = room, room / "clang", room / "ld.lld"
        for it in (self.clang, self.linker):
            it.symlink_to((kit / "toolchain/bin" / it.name).resolve())

    def run(self, *words: str | Path) -> None:
        """Runs a command that has to end well."""
        ran = run([str(it) for it in words], self.room)
        if ran.status:
            raise Unproved(f"{ran.said.rstrip()}\ncdc6600: the module isn't made")

    def text_of(self, bitcode: Path) -> str:
        file = self.room / "code.ll"
        self.run(self.clang, "--target=x86_64-unknown-linux-gnu", "-x", "ir", "-S", "-emit-llvm", "-Xclang",
                 "-disable-llvm-passes", bitcode, "-o", file)
        return file.read_text(encoding="utf-8")

    def compiled(self, *words: str | Path) -> Path:
        file = self.room / f"{Path(words[-1]).stem}.o"
        self.run(self.clang, *COMMON, *words, "-o", file)
        return file

    def linked(self, exports: Iterable[str], *files: Path) -> bytes:
        made = self.room / "linked.wasm"
        self.run(self.linker, *LINKED, *(f"--export={it}" for it in exports), "-o", made, *files)
        return without(made.read_bytes(), (NOTES, TABLE))

    def of_sources(self) -> list[Path]:
        return [self.compiled(*C, FOLDER / f"{name}.c") for name in SOURCES]

    def module(self, text: str) -> bytes:
        file = self.room / "wasm.ll"
        file.write_text(for_wasm(text), encoding="utf-8")
        return self.linked([*calls(), *OF_HEAP], self.compiled(*CODE, file), *self.of_sources())

    def lowered(self, module: bytes) -> bytes | None:
        """A module with 32-bit addresses instead of 64-bit ones, or none if binaryen isn't installed."""
        tool, files = shutil.which(LOWERING), [self.room / name for name in ("wide.wasm", "narrow.wasm")]
        if not tool:
            return None
        files[0].write_bytes(module)
        self.run(tool, *(f"--enable-{it}" for it in FEATURES), "--memory64-lowering", files[0], "-o", files[1])
        return without(files[1].read_bytes(), (NOTES,))
