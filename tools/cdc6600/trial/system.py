"""A fresh machine: a minimal Debian in a folder, with the kit, an ordinary user, and a checkout that this user owns.

The trial has mounts of its own (unshare), so that none of them is left after its end, however it ends.
"""

import os
import re
import shutil
import signal
import subprocess
from contextlib import suppress
from dataclasses import dataclass
from pathlib import Path
from typing import Any, Sequence

from cdc6600.shared.program import ROOT
from cdc6600.shared.waiting import wait_until

RELEASE = "bookworm"
# Where the host may keep the list of its mirrors.
MIRRORS = (Path("/etc/apt/sources.list.d/debian.sources"), Path("/etc/apt/sources.list"))
USER, NAME = "visitor", "dohikewa"
KIT, HOME = Path("/opt/rattle"), Path("/home") / USER
PATH = f"{KIT}/bin:/usr/local/sbin:/usr/local/bin:/usr/sbin:/usr/bin:/sbin:/bin"
# Variables of the host that the network may need.
PROXIES = [name for it in ("http_proxy", "https_proxy", "ftp_proxy", "no_proxy") for name in (it, it.upper())]
# How apt downloads on the host: such settings are carried over.
DOWNLOADS = "Acquire::"
# What is mounted, in this order: the folder, and the words for `mount`.
MOUNTS = (
    ("proc", ["-t", "proc", "proc"]),
    ("sys", ["-t", "sysfs", "-o", "ro", "sysfs"]),
    ("dev/pts", ["-t", "devpts", "-o", "newinstance,ptmxmode=0666,mode=620,gid=5", "devpts"]),
    ("dev/shm", ["-t", "tmpfs", "-o", "mode=1777", "tmpfs"]),
)


# How the list of mounts writes a space in a name.
ESCAPED = re.compile(r"\\(\d{3})")


@dataclass(frozen=True)
class Ended:
    """How a command ended: its status, and the lines that it printed."""

    status: int
    printed: list[str]


class Failed(Exception):
    """Something that failed: a command with its end, or a fault without one."""

    def __init__(self, what: str, ended: Ended | None = None) -> None:
        self.what, self.ended = what, ended
        super().__init__(what)


def called(words: Sequence[str | Path], is_shown: bool = False, end: signal.Signals = signal.SIGTERM) -> Ended:
    """Runs a command to its end; its lines are shown, if that is asked for. If this process is ended, the command is
    ended first, by this signal."""
    how: dict[str, Any] = {"stdin": subprocess.DEVNULL, "stdout": subprocess.PIPE, "stderr": subprocess.STDOUT}
    kept: list[str] = []
    with subprocess.Popen(words, text=True, errors="replace", start_new_session=True, **how) as process:
        try:
            for line in process.stdout or ():
                kept.append(line.rstrip("\n"))
                print(*[f"    {kept[-1]}\n"] * is_shown, sep="", end="", flush=True)
        except BaseException:
            os.killpg(process.pid, end)
            raise
    return Ended(process.returncode, kept)


def do(*words: str | Path) -> list[str]:
    """Runs a command that has to succeed; its lines.

    Raises Failed if it doesn't."""
    ran = called(words)
    if ran.status:
        raise Failed(" ".join(map(str, words)), ran)
    return ran.printed


class System:
    """The machine in this folder, which the caller has made for it."""

    def __init__(self, room: Path) -> None:
        self.room = room.resolve()
        self.root, self.checkout = self.room / "system", HOME / NAME

    def make(self, packages: Sequence[str]) -> None:
        """Installs a minimal Debian with these packages, by the host's mirrors if the host is of the same release."""
        mirrors = [it for it in MIRRORS if it.is_file() and f" {RELEASE}" in it.read_text(encoding="utf-8")]
        do("mmdebstrap", "--variant=minbase", f"--include={','.join(packages)}", RELEASE, self.root, *mirrors)
        settings = [line for line in do("apt-config", "dump") if line.startswith(DOWNLOADS)]
        (self.root / "etc/apt/apt.conf.d/99host").write_text("\n".join([*settings, ""]), encoding="utf-8")
        shutil.copyfile("/etc/resolv.conf", self.root / "etc/resolv.conf")

    def mount(self, kit: Path) -> None:
        """Mounts the kit, which can't be written there, and what each system has."""
        for folder, words in MOUNTS:
            do("mount", *words, self.root / folder)
        (self.root / "dev/ptmx").unlink(missing_ok=True)
        (self.root / "dev/ptmx").symlink_to("pts/ptmx")
        place = self.root / KIT.relative_to("/")
        place.mkdir(parents=True)
        do("mount", "--bind", kit, place)
        do("mount", "-o", "remount,bind,ro", place)

    def clone(self, commit: str) -> None:
        """Makes an ordinary user, with a checkout of a commit in the home folder."""
        place = self.root / self.checkout.relative_to("/")
        do("chroot", self.root, "useradd", "--create-home", "--shell", "/bin/sh", USER)
        own = ["-c", f"safe.directory={ROOT}"]
        do("git", *own, "clone", "--quiet", "--no-hardlinks", "--no-checkout", ROOT, place)
        do("git", "-C", place, "checkout", "--quiet", "--detach", commit)
        do("chroot", self.root, "chown", "--recursive", f"{USER}:{USER}", self.checkout)

    def run(self, command: str, is_root: bool, is_shown: bool = False) -> Ended:
        """How a command ends that a user or root calls in the checkout. It has the variables of a login, and no
        others."""
        name, home = ("root", Path("/root")) if is_root else (USER, HOME)
        own = {"HOME": home, "USER": name, "LOGNAME": name, "SHELL": "/bin/sh", "PATH": PATH, "TERM": "dumb"}
        proxies = {it: os.environ[it] for it in PROXIES if it in os.environ}
        variables = [f"{it}={value}" for it, value in {**own, **proxies}.items()]
        entered: list[str | Path] = ["chroot", f"--userspec={name}:{name}", self.root, "env", "-i", *variables]
        return called([*entered, "sh", "-c", f"cd {self.checkout} && {command}"], is_shown, signal.SIGKILL)

    def processes(self) -> list[int]:
        """The processes that run in it. A process that has ended has no root folder."""
        found = []
        for folder in Path("/proc").glob("[0-9]*"):
            with suppress(OSError):
                found += [int(folder.name)] * ((folder / "root").readlink() == self.root)
        return found

    def mounts(self) -> list[str]:
        """The folders of the room at which something is mounted, in the order of their mounts."""
        rows = Path("/proc/self/mounts").read_text(encoding="utf-8").splitlines()
        places = (ESCAPED.sub(lambda it: chr(int(it[1], 8)), row.split()[1]) for row in rows)
        return [place for place in places if Path(place).is_relative_to(self.room)]

    def end(self) -> None:
        """Ends what still runs in it, and unmounts what the trial has mounted, by mmdebstrap too.

        Raises Failed if something can't be unmounted."""
        for process in self.processes():
            with suppress(ProcessLookupError):
                os.kill(process, signal.SIGKILL)
        wait_until(lambda: not self.processes(), f"the end of the processes in {self.root}")
        for place in reversed(self.mounts()):
            do("umount", place)

    def remove(self) -> None:
        """Removes the room.

        Raises Failed if something is still mounted there."""
        if left := self.mounts():
            raise Failed(f"{self.room} isn't removed, since something is mounted there: {' '.join(left)}")
        do("rm", "-rf", "--one-file-system", self.room)
