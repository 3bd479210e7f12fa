"""Starts the tools: the commands in tools/ call this and have nothing else.

An interrupt may come while the modules of a tool are imported, or memory may be refused. The one is kept quiet from
here on, the other is told in a line; later the tool handles both itself. So this module imports nothing that takes
long, and the tool's own module is imported by its name.
"""

import sys
from importlib import import_module
from types import TracebackType

# The fault of a library that Python can't load where memory is short.
NO_ROOM = "failed to map segment"


def is_interrupt(fault: BaseException | None) -> bool:
    """Whether a fault is an interrupt, or comes from one."""
    while fault is not None and not isinstance(fault, KeyboardInterrupt):
        fault = fault.__cause__ or fault.__context__
    return fault is not None


def hook(kind: type[BaseException], fault: BaseException, trace: TracebackType | None) -> None:
    """Shows no traceback of an interrupt, and of refused memory. Python ends by the signal afterwards, or with
    status 1."""
    if isinstance(fault, MemoryError) or (isinstance(fault, ImportError) and NO_ROOM in str(fault)):
        sys.stderr.write(f"{sys.argv[0]}: memory was refused\n")
    elif isinstance(fault, SyntaxError):
        # Where memory is refused to Python's parser, it may say that the text of a module is wrong.
        sys.stderr.write(f"{sys.argv[0]}: {fault.filename} can't be read: memory was refused, or the file is damaged\n")
    elif not is_interrupt(fault):
        sys.__excepthook__(kind, fault, trace)


def start(name: str) -> None:
    """Runs the tool of a module of `cdc6600.commands`, and ends with its status."""
    sys.excepthook = hook
    sys.exit(import_module(f"cdc6600.commands.{name}").main())
