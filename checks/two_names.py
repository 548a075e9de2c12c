"""Outputs that lead to a file by another name than its own: the cases of the part `names` of hostile.py.

The names are made in the folder that a run begins in: other paths, symbolic links, there and through linked folders, and hard
links. They lead to what the run has read, to what it has begun, to the file that its report goes to, and to any other file."""
import collections
import contextlib
import os
import subprocess

FOLDER, HERE, SAID, OTHER = "beside", "here", "said", "other"

# The key that has another file, that file, the files that are set before (None: it isn't there), the key of the line that is
# said (None: the run ends well), the files that there have to be after, and what opens the standard output.
Case = collections.namedtuple("Case", "key path files refused wanted report")


def make_folders(folder):
    """A folder to go through, and a linked one."""
    os.mkdir(os.path.join(folder, FOLDER))
    os.symlink(".", os.path.join(folder, HERE))


def set_link(make, target, path):
    if os.path.lexists(path):
        os.remove(path)
    make(target, path)


def other_names(folder, name, is_there):
    """Other names of a file of the folder. Those of the call before lead elsewhere from then on."""
    whole = os.path.join(folder, name)
    names = [f"./{name}", f".//{name}", f"{FOLDER}/../{name}", f"{HERE}/{name}", f"{HERE}/{HERE}/./{name}", whole,
             f"/proc/self/cwd/{name}"]
    links = {"soft": name, "chain": "soft", "through": f"{HERE}/{name}", f"{FOLDER}/soft": f"../{name}"}
    for link, target in links.items():
        set_link(os.symlink, target, os.path.join(folder, link))
    names += links
    if is_there:
        with open(whole, "ab"):
            set_link(os.link, whole, os.path.join(folder, "hard"))
        names += ["hard", f"{HERE}/hard"]
    return names


@contextlib.contextmanager
def piped():
    yield subprocess.PIPE


def opened(path, mode):
    @contextlib.contextmanager
    def report():
        with open(path, mode) as out:
            yield out
    return report


@contextlib.contextmanager
def on_terminal():
    reader, terminal = os.openpty()
    yield terminal
    os.close(terminal)
    os.close(reader)


def of_one_file(folder, key, name, is_there, refused, wanted):
    """The key by each other name of a file."""
    for path in other_names(folder, name, is_there):
        yield Case(key, path, {} if is_there else {name: None}, refused, wanted, piped)


def of_files(folder, run, number, stopped):
    """The output of that number by the names of what was read and begun before it; and what was begun before by its names."""
    key, own = run.writes[number]
    for name in run.reads:
        yield from of_one_file(folder, key, name, True, key, stopped)
    for first, name in run.writes[:number]:
        for is_there in (True, False):
            yield from of_one_file(folder, key, name, is_there, key, stopped)
            swapped = {**stopped, name: run.before, own: run.whole[1][name]}
            yield from of_one_file(folder, first, own, is_there, key, swapped)


def of_streams(folder, run, number, stopped):
    """The output of that number where the report goes to: a file, which is refused, a pipe, a device and a terminal."""
    key, own = run.writes[number]
    stream = ["/dev/stdout", "/dev/fd/1", "/proc/self/fd/1"]
    said = os.path.join(folder, SAID)
    for path in stream + [SAID] + other_names(folder, SAID, True):
        for mode, left in (("wb", b""), ("ab", run.before)):
            yield Case(key, path, {SAID: run.before}, key, {**stopped, SAID: left}, opened(said, mode))
    whole = {**run.reads, **run.whole[1], own: run.before}
    for path in stream:
        for report in (piped, opened("/dev/null", "wb"), on_terminal):
            yield Case(key, path, {}, None, whole, report)


def of_others(folder, run, number):
    """The output of that number by names of a file that isn't of the run: it is written."""
    key, own = run.writes[number]
    wanted = {**run.reads, **run.whole[1], own: run.before, OTHER: run.whole[1][own]}
    for is_there in (True, False):
        for path in other_names(folder, OTHER, is_there):
            yield Case(key, path, {OTHER: run.before if is_there else None}, None, wanted, piped)


def cases(folder, run, number):
    """All cases of one output of a run."""
    outputs = [name for _, name in run.writes]
    stopped = {**run.reads, **dict.fromkeys(outputs, run.before), **{name: run.whole[1][name] for name in outputs[:number]}}
    yield from of_files(folder, run, number, stopped)
    yield from of_streams(folder, run, number, stopped)
    yield from of_others(folder, run, number)
