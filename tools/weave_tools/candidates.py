"""Runs of several seeds beside each other, and which of them is kept."""
import concurrent.futures
import os
import re
import shutil
import time
from typing import Callable, Dict, List, NamedTuple, Optional, Sequence

from .faults import Stop
from .figures import Figures, cost_of, figures_of, scores
from .keys import Keys
from .map_files import is_map_of_turns, read_map
from .programs import Runs
from .progress import Watch

TICK = 0.2


class Tried(NamedTuple):
    """A run that ended well: its seed, or None where it has none; its words, its report and what it
    shows; the folder with its files, and the seconds that it took."""

    seed: Optional[int]
    words: List[str]
    report: str
    figures: Figures
    folder: str
    seconds: float


class Job(NamedTuple):
    """Runs that are wanted: of a command over files of a folder, which `files` names as words."""

    runs: Runs
    folder: str
    command: str
    files: List[str]
    keys: Keys

    def names(self) -> Dict[str, str]:
        """The files by their keys."""
        return dict(word.split("=", 1) for word in self.files)


def tried(job: Job, seed: Optional[int]) -> Tried:
    """A run in a folder of its own, to which the files that it reads are linked."""
    folder = os.path.join(job.folder, f"try_{'' if seed is None else seed}")
    os.mkdir(folder)
    names = job.names()
    written = ("out", "map", "record")
    for key, name in names.items():
        if key not in written:
            os.link(os.path.join(job.folder, name), os.path.join(folder, name))
    keys = job.keys if seed is None else dict(job.keys, seed=str(seed))
    words = [job.command, *job.files, *(f"{key}={value}" for key, value in keys.items())]
    begun = time.monotonic()
    report = job.runs.report(folder, words)
    seconds = time.monotonic() - begun
    map_name = os.path.join(folder, names["map"])
    read = read_map(map_name, is_map_of_turns(map_name))
    alpha = int(keys["alpha"]) if re.fullmatch(r"\d{1,3}", keys.get("alpha", "")) else 50
    figures = figures_of(cost_of(report, alpha), read)
    return Tried(seed, words, report, figures, folder, seconds)


def seeds_of(keys: Keys, tries: Optional[int]) -> List[Optional[int]]:
    """The seeds to try: so many from the one on that is given; None where one run is wanted."""
    if not tries:
        return [None]
    if not re.fullmatch(r"\d{1,19}", keys.get("seed", "0")):
        raise Stop(f"seed={keys['seed']}: a number is wanted")
    first = int(keys.get("seed", "0"))
    return list(range(first, first + tries))


def all_tries(
    job: Job,
    seeds: Sequence[Optional[int]],
    watch: Watch,
    each_takes: float,
    done: Callable[[Tried], None] = lambda tried: None,
) -> List[Tried]:
    """Runs all seeds, as many beside each other as there are processors. `done` is called for each
    in the thread of the caller. Where one fails, or a signal comes, all are stopped."""
    beside = max(1, min(len(seeds), os.cpu_count() or 1))
    watch.begin(len(seeds), each_takes * -(-len(seeds) // beside))
    found: List[Tried] = []
    with concurrent.futures.ThreadPoolExecutor(max_workers=beside) as pool:
        try:
            waiting = {pool.submit(tried, job, seed) for seed in seeds}
            while waiting:
                ended, waiting = concurrent.futures.wait(
                    waiting, TICK, concurrent.futures.FIRST_COMPLETED
                )
                for future in ended:
                    found.append(future.result())
                    left = found[0].seconds * -(-len(waiting) // beside)
                    watch.step(len(found), left)
                    done(found[-1])
                watch.tick()
        except BaseException:
            job.runs.stop()
            raise
        finally:
            watch.clear()
    return sorted(found, key=lambda one: one.seed or 0)


def best_of(found: Sequence[Tried]) -> Tried:
    """The try with the least score, and of several the one with the least seed."""
    values = scores([one.figures for one in found])
    return found[min(range(len(found)), key=lambda i: (values[i], i))]


def take_files(best: Tried, job: Job) -> None:
    """Moves the files that the best try wrote into the folder, and removes all tries."""
    names = job.names()
    for key in ("out", "map", "record"):
        if key in names:
            name = names[key]
            os.replace(os.path.join(best.folder, name), os.path.join(job.folder, name))
    for name in os.listdir(job.folder):
        if name.startswith("try_"):
            shutil.rmtree(os.path.join(job.folder, name))
