"""Programs that are exchanged for each other while they run, and a monitor that changes their packages."""

from typing import Callable, Sequence

from cdc6600.limits import PACKAGE_WORDS

from .draws import INDEX_ONES, Draws
from .jobs import STOP, Job
from .pieces import keep
from .programs import Deck, Label, spelled

SIZE, TABLE, KEPT = 1024, 8, 96
COUNTER, FREE_B, FREE_X = 7, range(1, 7), range(6)
# A program goes on for longer than all requests take.
TURNS, MOST_BETWEEN = (40, 90), 60
X_WORDS = 8


def looping(draws: Draws, job: Job, add: Callable[[], None]) -> None:
    """A program that goes through a loop, which has what is added, and stops."""
    begin = Label()
    job.code.add(spelled("61", i=COUNTER, j=0, K=draws.between(*TURNS)))
    job.code.here(begin)
    for _ in range(draws.between(1, 3)):
        job.work(draws.between(2, 4), xs=FREE_X, bs=FREE_B)
        add()
    job.code.add(spelled("61", i=COUNTER, j=COUNTER, K=INDEX_ONES - 1))
    job.code.add(spelled("05", i=COUNTER, j=0, K=begin), STOP)


def keeping(draws: Draws, job: Job) -> None:
    """A program that keeps what registers have."""
    looping(draws, job, lambda: job.code.add(*keep(draws)))


def monitoring(draws: Draws, job: Job, packages: Sequence[int]) -> None:
    """A program that loads and changes X registers in the packages."""

    def add() -> None:
        """Loads a register of a package, and stores a sum over one."""
        at = [draws.one_of(packages) + X_WORDS + draws.below(X_WORDS) for _ in range(2)]
        number = draws.between(1, 5)
        job.code.add(spelled("51", i=number, j=0, K=at[0]), spelled("36", i=7, j=number, k=draws.below(8)))
        job.code.add(spelled("51", i=7, j=0, K=at[1]))

    looping(draws, job, add)


def ask(draws: Draws, deck: Deck, packages: Sequence[int], start: int) -> None:
    """Asks for packages at drawn times, but not for the one of the start: it has the registers of the booted machine,
    whose field is empty, so nothing would come after it."""
    issued = 0
    for _ in range(draws.between(6, 14)):
        package = draws.one_of([it for it in packages if it != start])
        issued += draws.below(MOST_BETWEEN)
        deck.ask(package, issued)


def exchanges(draws: Draws) -> str:
    """The deck of several packages, and of requests for them at drawn times."""
    deck, count = Deck(), draws.between(3, 5)
    packages = draws.shuffled([PACKAGE_WORDS * n for n in range(count)])
    # The last package that isn't refused as E19.
    packages[-1] = SIZE - PACKAGE_WORDS if draws.chance(0.5) else packages[-1]
    end = PACKAGE_WORDS * count
    for package in packages[1:]:
        job = Job(draws, table=TABLE, kept=KEPT)
        keeping(draws, job)
        end = job.put(deck, package, end + draws.below(0o20))
    monitor = Job(draws, begin=end, table=TABLE)
    monitoring(draws, monitor, packages)
    monitor.put(deck, packages[0], 0, SIZE - monitor.code.end - 1)
    start = draws.one_of(packages)
    ask(draws, deck, packages, start)
    return deck.text(SIZE, start)
