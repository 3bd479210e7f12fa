"""Runs a tool for which the system refuses to start a process or a thread: a module to be run by `python3 -m`.

Its arguments are `process` or `thread`, the number of the start that is refused, a file that is made then, and the
tool with its words. A process that the tool forks counts on from the starts before it.
"""

import errno
import os
import runpy
import subprocess
import sys
import threading
from pathlib import Path
from typing import Any, Callable

PROCESS, THREAD = "process", "thread"
Start = tuple[Any, str, Exception]
# Where Python starts processes and threads, with the fault of a refused start.
NO_PROCESS = OSError(errno.EAGAIN, os.strerror(errno.EAGAIN))
OF_PROCESSES: list[Start] = [
    (os, "fork", NO_PROCESS), (os, "posix_spawn", NO_PROCESS), (subprocess, "_fork_exec", NO_PROCESS),
]
OF_THREADS: list[Start] = [(threading, "_start_new_thread", RuntimeError("can't start new thread"))]


class Starts:
    """The starts of one kind so far, one of which is refused."""

    def __init__(self, at: int, mark: str) -> None:
        self.left, self.mark = at, Path(mark)

    def counted(self, start: Callable[..., Any], fault: Exception) -> Callable[..., Any]:
        """A function that starts something, or raises this fault where it is to be refused."""
        def started(*words: Any, **how: Any) -> Any:
            self.left -= 1
            if not self.left:
                self.mark.touch()
                raise fault
            return start(*words, **how)

        return started


def main() -> None:
    kind, at, mark, tool, *words = sys.argv[1:]
    starts = Starts(int(at), mark)
    for module, name, fault in OF_THREADS if kind == THREAD else OF_PROCESSES:
        setattr(module, name, starts.counted(getattr(module, name), fault))
    sys.argv = [tool, *words]
    runpy.run_path(tool, run_name="__main__")


if __name__ == "__main__":
    main()
