#!/usr/bin/env python3
"""Runs every command of weave where memory, files, disk or streams give out, and holds what it leaves against what it promises.

    checks/hostile.py [PART ..]      parts: growths sure space limits full files names streams words; all where none is named

Build the programs first: ./build && ./build fuzz. It wants `cc`, and is run on Linux. As
root it makes small file systems in memory and runs some commands as nobody; as another user it leaves those out and says so.

Of each run it asks: that it ends by itself, with a status of weave's and with the one line on standard error that goes with it;
that after status 0 the files and the report are those of a run that nothing hinders; that after status 6 the files
before the one that the line names are whole, that one is as before, empty or cut off, and the files after it are as before; and
that after every other status all files are as before. It ends with status 1 where one of them isn't so."""
import collections
import os
import re
import resource
import shutil
import signal
import subprocess
import sys
import tempfile
import threading

import two_names
from beside import EXAMPLES, FUZZ, WEAVE

HERE = os.path.dirname(os.path.abspath(__file__))
SURE_RUNS = 12
SECONDS = 60
BEFORE = b"as before"
NOBODY = 65534

LINES = {
    2: r"weave: (no command|unknown command|word \d+: [a-z =]+|missing key [a-z0-9]+|wrapped axis [xyf] under 3)\n",
    3: r"weave: (sample\d*|target|out|map|record|marks): "
       r"(form at \d+|depth|colour space|cell|no frames|value at \d+|trailing at \d+|unlike|mark at \d+)\n",
    4: r"weave: limit (axis|cells|header|frames|output|loop|records) \d+ over \d+\n",
    5: r"weave: (sample\d*|target|out|map|record|marks): read fault\n",
    6: r"weave: (out|map|record|newmap|newrecord|report): write fault\n",
    7: r"weave: no memory\n",
    8: r"weave: no loop of length \d+\n",
}

Ended = collections.namedtuple("Ended", "status out err")


class Run:
    """A command: its words, the files that it reads, and the files that it writes, by what lines call them."""

    def __init__(self, words, reads, writes):
        self.words, self.reads, self.writes = words.split(), reads, writes
        self.whole, self.before = None, BEFORE


class Tally:
    def __init__(self):
        self.part, self.counts, self.wrong, self.total = "", collections.Counter(), [], 0

    def begin(self, part):
        self.part, self.counts = part, collections.Counter()

    def count(self, status):
        self.counts[status] += 1
        self.total += 1

    def fail(self, what):
        self.wrong.append(f"{self.part}: {what}")
        print(f"  WRONG {what}", flush=True)

    def end(self):
        ends = ", ".join(f"{count} with {status}" for status, count in sorted(self.counts.items(), key=str))
        print(f"{self.part}: {sum(self.counts.values())} runs, {ends}", flush=True)


TALLY = Tally()


def write_file(folder, name, data):
    with open(os.path.join(folder, name), "wb") as out:
        out.write(data)


def read_file(folder, name):
    try:
        with open(os.path.join(folder, name), "rb") as data:
            return data.read()
    except FileNotFoundError:
        return None


def start(command, folder, setup=None, env=None, out=subprocess.PIPE, err=subprocess.PIPE, feed=None):
    """Runs a command to its end. The status is None where it doesn't end, and negative where a signal ends it."""
    whole_env = dict(os.environ, **(env or {}))
    process = subprocess.Popen(command, cwd=folder, preexec_fn=setup, env=whole_env, stdin=subprocess.PIPE,
                               stdout=out, stderr=err)
    try:
        said, line = process.communicate(feed, timeout=SECONDS)
    except subprocess.TimeoutExpired:
        process.kill()
        said, line = process.communicate()
        return Ended(None, said or b"", line or b"")
    return Ended(process.returncode, said or b"", line or b"")


def set_back(run, folder):
    """Every file as it was."""
    for name, data in run.reads.items():
        write_file(folder, name, data)
    for _, name in run.writes:
        write_file(folder, name, BEFORE)


def line_fault(ended, is_heard=True):
    """What is wrong with the status of a run, or with its line."""
    if ended.status is None:
        return f"no end within {SECONDS} seconds"
    if ended.status < 0:
        return f"ended by signal {-ended.status}"
    if ended.status > 8:
        return f"status {ended.status}: {ended.err!r}"
    if not is_heard:
        return None
    if ended.status in (0, 1):
        return f"status {ended.status} with a line {ended.err!r}" if ended.err else None
    if not re.fullmatch(LINES[ended.status].encode(), ended.err):
        return f"status {ended.status} with another line {ended.err!r}"
    return None


def cut_fault(run, folder, line):
    """What is wrong with the files after status 6."""
    names = [f"weave: {said}: write fault\n".encode() for said, _ in run.writes]
    stopped = len(names) if line == b"weave: report: write fault\n" else None
    if line in names:
        stopped = names.index(line)
    for number, (_, name) in enumerate(run.writes):
        now, whole = read_file(folder, name), run.whole[1].get(name)
        if stopped is None:
            holds = now == BEFORE or whole.startswith(now)
        elif number < stopped:
            holds = now == whole
        elif number == stopped:
            holds = now == BEFORE or whole.startswith(now)
        else:
            holds = now == BEFORE
        if not holds:
            return f"{name} after {line!r}"
    return None


def file_fault(run, folder, ended):
    """What is wrong with the files after a run."""
    for name, data in run.reads.items():
        if read_file(folder, name) != data:
            return f"{name}, which is only read, was changed"
    if ended.status == 6:
        return cut_fault(run, folder, ended.err)
    for _, name in run.writes:
        if read_file(folder, name) != (run.whole[1][name] if ended.status == 0 else BEFORE):
            return f"{name} after status {ended.status}"
    return None


def tried(run, folder, what, hears_out=True, hears_err=True, **how):
    """Does a run and holds it against the promises; gives its status."""
    set_back(run, folder)
    command = how.pop("command", [WEAVE] + run.words)
    ended = start(command, folder, **how)
    fault = line_fault(ended, hears_err) or file_fault(run, folder, ended)
    if not fault and hears_out and ended.status in (0, 1) and ended.out != run.whole[0].out:
        fault = f"another report {ended.out!r}"
    if not fault and ended.status not in (0, 1, 6) and ended.out:
        fault = f"a report {ended.out!r} with status {ended.status}"
    TALLY.count(ended.status)
    if fault:
        TALLY.fail(f"{' '.join(run.words)}: {what}: {fault}")
    return ended.status


def done_whole(run, folder):
    """A run that nothing hinders, against which the others are held."""
    set_back(run, folder)
    ended = start([WEAVE] + run.words, folder)
    if ended.status != 0 or ended.err:
        sys.exit(f"{' '.join(run.words)}: status {ended.status}, {ended.err!r}")
    run.whole = (ended, {name: read_file(folder, name) for _, name in run.writes})
    return run


GREYS = b"P6\n4 1\n255\n" + bytes(v for v in (10, 20, 30, 40) for _ in range(3))
OTHER_GREYS = b"P6\n4 1\n255\n" + bytes(v for v in (50, 25, 30, 10) for _ in range(3))
MARKS = b"P6\n4 1\n255\n" + bytes(v for mark in (1, 0, 0, 2) for v in (mark, 0, 0))
TARGET = b"P6\n3 1\n255\n" + bytes(v for v in (30, 40, 10) for _ in range(3))
CLIP = b"YUV4MPEG2 W1 H1 Cmono\n" + b"".join(b"FRAME\n" + bytes([v]) for v in (0, 3, 0, 3))
OUTPUTS = [("out", "o"), ("map", "m"), ("record", "r")]
PAIR = [("newmap", "n"), ("newrecord", "q")]
MERGED = [("out", "o"), ("map", "m")]
MERGE = "merge sample=s sample2=t marks=k out=o map=m"
FILES = "sample=s out=o map=m record=r"


def small_runs(folder):
    """A small run of each command."""
    grow = done_whole(Run(f"grow {FILES} width=6 height=1 place=grid overlap=2 box=4 rounds=1", {"s": GREYS}, OUTPUTS),
                      folder)
    clip = done_whole(Run(f"grow {FILES} width=2 height=1 frames=3 box=2 overlap=1", {"s": CLIP}, OUTPUTS), folder)
    quilt = done_whole(Run(f"quilt {FILES} width=6 height=1 block=4 overlap=2", {"s": GREYS}, OUTPUTS), folder)
    transfer = done_whole(Run(f"transfer target=t {FILES} block=2 overlap=1", {"s": GREYS, "t": TARGET}, OUTPUTS), folder)
    loop = done_whole(Run(f"loop {FILES} length=3 taps=0", {"s": CLIP}, OUTPUTS), folder)
    check = done_whole(Run(f"check {FILES}", {"s": GREYS, **grow.whole[1]}, []), folder)
    upgrade = done_whole(Run("upgrade map=m record=r newmap=n newrecord=q",
                             {name: grow.whole[1][name] for name in ("m", "r")}, PAIR), folder)
    trial = done_whole(Run("trial n=7 width=64 height=64 place=grid rounds=1", {}, []), folder)
    tile = done_whole(Run("tile sample=s out=o map=m width=6 height=1 wrap=x box=4 overlap=2", {"s": GREYS}, OUTPUTS[:2]),
                      folder)
    merge = done_whole(Run(MERGE, {"s": GREYS, "t": OTHER_GREYS, "k": MARKS}, MERGED), folder)
    turned = done_whole(Run(f"grow {FILES} width=3 height=2 box=2 overlap=1 turns=all", {"s": GREYS}, OUTPUTS), folder)
    check_turned = done_whole(Run(f"check {FILES} turns=all", {"s": GREYS, **turned.whole[1]}, []), folder)
    return [grow, clip, quilt, transfer, loop, check, upgrade, trial, tile, merge, turned, check_turned]


def moved_and_marked(picture):
    """A picture of 255 levels with each cell some cells on, and marks: the first columns of it, the last of the moved one."""
    head, size, levels, raster = picture.split(b"\n", 3)
    width, height = map(int, size.split())
    marks = bytes(v for i in range(width * height) for v in ((1 if i % width < 9 else 2 if i % width > width - 9 else 0), 0, 0))
    return [b"\n".join([head, size, levels, data]) for data in (raster[36:] + raster[:36], marks)]


def larger_runs(folder):
    """A run of each command whose files take many pieces, and whose memory some megabytes."""
    pebbles = read_file(EXAMPLES, "pebbles.ppm")
    life = read_file(EXAMPLES, "life.y4m")
    grow = done_whole(Run(f"grow {FILES} width=192 height=128 rounds=3", {"s": pebbles}, OUTPUTS), folder)
    clip = done_whole(Run(f"grow {FILES} width=40 height=30 frames=4 place=grid overlap=4", {"s": life}, OUTPUTS), folder)
    quilt = done_whole(Run(f"quilt {FILES} width=192 height=128", {"s": pebbles}, OUTPUTS), folder)
    tartan = read_file(EXAMPLES, "netpbm_tartan.ppm")
    transfer = done_whole(Run(f"transfer target=t {FILES} block=16", {"s": pebbles, "t": tartan}, OUTPUTS), folder)
    loop = done_whole(Run(f"loop {FILES} length=20 taps=2", {"s": life}, OUTPUTS), folder)
    check = done_whole(Run(f"check {FILES}", {"s": pebbles, **grow.whole[1]}, []), folder)
    upgrade = done_whole(Run("upgrade map=m record=r newmap=n newrecord=q",
                             {name: grow.whole[1][name] for name in ("m", "r")}, PAIR), folder)
    trial = done_whole(Run("trial n=7 width=128 height=128 rounds=1", {}, []), folder)
    tile = done_whole(Run("tile sample=s out=o map=m width=192 height=128", {"s": pebbles}, OUTPUTS[:2]), folder)
    moved, marks = moved_and_marked(pebbles)
    merge = done_whole(Run(MERGE, {"s": pebbles, "t": moved, "k": marks}, MERGED), folder)
    turned = done_whole(Run(f"grow {FILES} width=96 height=64 turns=all", {"s": pebbles}, OUTPUTS), folder)
    return [grow, clip, quilt, transfer, loop, check, upgrade, trial, tile, merge, turned]


def built_refuser(room):
    library = os.path.join(room, "no_memory.so")
    subprocess.run(["cc", "-O2", "-shared", "-fPIC", "-o", library, os.path.join(HERE, "no_memory.c")], check=True)
    return library


def growths(room, folder):
    """The N-th growth refused, and each from the N-th on, for every N until a run ends well."""
    library = built_refuser(room)
    for run in small_runs(folder):
        for more in ({}, {"REFUSE_ON": "1"}):
            for number in range(1, 100_000):
                env = {"LD_PRELOAD": library, "REFUSE": str(number), **more}
                if tried(run, folder, f"growth {number} {more}", env=env) == 0:
                    break


def sure(room, folder):
    """The same over stores in memory that take none once they are made: a growth that is refused is one of the run's own."""
    library = built_refuser(room)
    for number in range(SURE_RUNS):
        for more in ({}, {"REFUSE_ON": "1"}):
            for growth in range(1, 100_000):
                env = {"LD_PRELOAD": library, "REFUSE": str(growth), **more}
                ended = start([FUZZ, "memory", str(number)], folder, env=env)
                TALLY.count(ended.status)
                well = ended.status == 0 and ended.out == f"run {number} ended well\n".encode()
                # The words of the command line couldn't be taken.
                wordless = ended.status == 1 and b"OutOfMemory" in ended.err
                if not well and not wordless and (ended.status != 7 or ended.out):
                    TALLY.fail(f"sure run {number}, growth {growth} {more}: status {ended.status}, {ended.out!r}")
                    break
                if well:
                    break


def limited(kilobytes, library, words):
    """The program in a limited address space, with a stack of 1 MB that has grown before it begins."""
    script = 'ulimit -v "$0" && LD_PRELOAD="$1" && export LD_PRELOAD && shift && exec "$@"'
    return ["sh", "-c", script, str(kilobytes), library, WEAVE] + words


def least_space(folder, library):
    """The least address space, in KB, in which the program can be started and say something."""
    for kilobytes in range(1024, 1_000_000, 64):
        ended = start(limited(kilobytes, library, []), folder, env={"STACK_KB": "1024"})
        if ended.status == 2 and ended.err == b"weave: no command\n":
            return kilobytes
    sys.exit("the program can't be started in a limited address space")


def space(room, folder):
    """The address space limited by the shell, from what starting takes up to what the run takes."""
    library = built_refuser(room)
    least = least_space(folder, library)
    for run in larger_runs(folder):
        kilobytes, well = least, 0
        while well < 3:
            status = tried(run, folder, f"{kilobytes} KB", command=limited(kilobytes, library, run.words),
                           env={"STACK_KB": "1024"})
            well = well + 1 if status == 0 else 0
            kilobytes += 64


def ignore_size_signal():
    signal.signal(signal.SIGXFSZ, signal.SIG_IGN)


def file_limit(size):
    def setup():
        ignore_size_signal()
        resource.setrlimit(resource.RLIMIT_FSIZE, (size, size))
    return setup


def limits(_, folder):
    """The size of a file limited: for the small runs to each size, for the larger ones to some."""
    for run in small_runs(folder):
        most = max([len(data) for data in run.whole[1].values()] or [0]) + 2
        for size in range(most + 1):
            tried(run, folder, f"files of at most {size} bytes", setup=file_limit(size))
    for run in larger_runs(folder):
        most = max([len(data) for data in run.whole[1].values()] or [0])
        for size in sorted({0, 1, 4095, 4096, 8192, most // 3, most // 2, most - 1, most} & set(range(most + 1))):
            tried(run, folder, f"files of at most {size} bytes", setup=file_limit(size))


def full(room, folder):
    """A small file system in memory that fills up, of sizes up to what the files of a run take."""
    if os.geteuid() != 0:
        print("full: left out, since only root makes a file system")
        return
    disk = os.path.join(room, "disk")
    os.mkdir(disk)
    runs = [moved_to(run, disk) for run in larger_runs(folder) if run.writes]
    most = max(sum(len(data) // 4096 + 1 for data in run.whole[1].values()) for run in runs)
    for pages in sorted({4, 5, 6, 8, 12, most - 1, most} | set(range(16, most, max(1, most // 16)))):
        mounted = subprocess.run(["mount", "-t", "tmpfs", "-o", f"size={4096 * pages}", "weave", disk])
        if mounted.returncode != 0:
            print("full: left out, since no file system can be mounted")
            return
        try:
            for run in runs:
                for name in os.listdir(disk):
                    os.remove(os.path.join(disk, name))
                tried(run, folder, f"a disk of {pages} pages")
        finally:
            subprocess.run(["umount", disk], check=True)


def moved_to(run, disk):
    """The run with what it writes in another folder."""
    moved = Run("", run.reads, [(said, os.path.join(disk, name)) for said, name in run.writes])
    keys = "|".join(said for said, _ in run.writes)
    moved.words = [re.sub(f"^({keys})=", rf"\1={disk}/", word) for word in run.words]
    moved.whole = (run.whole[0], {os.path.join(disk, name): data for name, data in run.whole[1].items()})
    return moved


def with_file(run, key, path):
    """The run with another file for a key."""
    other = Run("", dict(run.reads), [pair for pair in run.writes])
    other.words = [f"{key}={path}" if word.startswith(f"{key}=") else word for word in run.words]
    other.writes = [pair for pair in run.writes if pair[0] != key]
    other.whole = run.whole
    return other


def expected(run, folder, what, statuses, **how):
    """A run whose status is one of these; the files that it writes are held against the promises as far as they are plain."""
    set_back(run, folder)
    ended = start([WEAVE] + run.words, folder, **how)
    TALLY.count(ended.status)
    fault = line_fault(ended, how.get("err", subprocess.PIPE) == subprocess.PIPE)
    if not fault and ended.status not in statuses:
        fault = f"status {ended.status}, not one of {statuses}: {ended.err!r}"
    if not fault and ended.status not in (0, 6):
        fault = file_fault(run, folder, ended)
    if not fault and ended.status == 6:
        fault = cut_fault(run, folder, ended.err)
    if fault:
        TALLY.fail(f"{' '.join(run.words)}: {what}: {fault}")


def as_nobody():
    os.setgroups([])
    os.setgid(NOBODY)
    os.setuid(NOBODY)


def few_files():
    resource.setrlimit(resource.RLIMIT_NOFILE, (4, 4))


def files(room, folder):
    """Folders, devices, links, pipes and files that may not be read or written in the place of each file."""
    os.mkdir(os.path.join(folder, "folder"))
    os.symlink("ring", os.path.join(folder, "ring"))
    os.symlink("nowhere/o", os.path.join(folder, "dangling"))
    for run in small_runs(folder):
        for word in run.words[1:]:
            key, _, name = word.partition("=")
            if name in run.reads:
                unread = [5]
                for path in ("folder", "ring", "none", "none/s", "s/s", "x" * 300, "y/" * 2100 + "s", "/proc/self/mem"):
                    expected(with_file(run, key, path), folder, f"{key} is {path[:20]}", unread)
                for path in ("/dev/null", "/dev/zero", "/dev/urandom"):
                    expected(with_file(run, key, path), folder, f"{key} is {path}", [3])
            elif (key, name) in run.writes:
                for path in ("folder", "ring", "none/o", "dangling", "s/o", "x" * 300, "y/" * 2100 + "o", "/dev/full",
                             "/proc/version"):
                    expected(with_file(run, key, path), folder, f"{key} is {path[:20]}", [6])
                expected(with_file(run, key, "/dev/null"), folder, f"{key} is /dev/null", [0])
        tried(run, folder, "no file can be opened", setup=few_files)
    closed_to_nobody(room)


def closed_to_nobody(room):
    """Files that may not be read or written, and a folder in which none may be made."""
    if os.geteuid() != 0:
        print("files: nobody left out, since only root runs as nobody")
        return
    os.chmod(room, 0o755)
    folder = os.path.join(room, "closed")
    os.mkdir(folder)
    program = os.path.join(folder, "weave")
    shutil.copy(WEAVE, program)
    for run in small_runs(folder):
        for name in run.reads:
            set_back(run, folder)
            os.chmod(os.path.join(folder, name), 0o000)
            tried(run, folder, f"{name} may not be read", setup=as_nobody, command=[program] + run.words)
            os.chmod(os.path.join(folder, name), 0o644)
        for _, name in run.writes:
            set_back(run, folder)
            for _, other in run.writes:
                os.chmod(os.path.join(folder, other), 0o444 if other == name else 0o666)
            tried(run, folder, f"{name} may not be written", setup=as_nobody, command=[program] + run.words)


def case_fault(run, folder, case, ended):
    """What is wrong with a run that has another file for a key."""
    line = f"weave: {case.refused}: write fault\n".encode() if case.refused else b""
    if (ended.status, ended.err) != (6 if line else 0, line):
        return f"status {ended.status}, {ended.err!r}"
    wrong = [name for name, data in case.wanted.items() if read_file(folder, name) != data]
    return f"{', '.join(wrong)} afterwards" if wrong else None


def with_case(run, folder, case):
    set_back(run, folder)
    for name, data in case.files.items():
        if data is not None:
            write_file(folder, name, data)
        elif os.path.exists(os.path.join(folder, name)):
            os.remove(os.path.join(folder, name))
    with case.report() as out:
        ended = start([WEAVE] + with_file(run, case.key, case.path).words, folder, out=out)
    TALLY.count(ended.status)
    fault = case_fault(run, folder, case, ended)
    if fault:
        TALLY.fail(f"{' '.join(run.words)}: {case.key} is {case.path}, {case.files}: {fault}")


def names(_, folder):
    """Each output by other names: of a file of its run, of the file that the report goes to, and of any other file."""
    two_names.make_folders(folder)
    mixed = Run(f"grow {FILES} sample2=t width=6 height=1 place=grid overlap=2 box=4", {"s": GREYS, "t": OTHER_GREYS}, OUTPUTS)
    for run in small_runs(folder) + [done_whole(mixed, folder)]:
        for number in range(len(run.writes)):
            for case in two_names.cases(folder, run, number):
                with_case(run, folder, case)


def piped(run, key, folder, data, what, status):
    """A run that reads one of its files from a pipe with a name, which has to end with this status."""
    pipe = os.path.join(folder, "pipe")
    if not os.path.exists(pipe):
        os.mkfifo(pipe)

    def pour():
        try:
            with open(pipe, "wb") as out:
                out.write(data)
        except BrokenPipeError:
            pass
    writer = threading.Thread(target=pour)
    writer.start()
    ended = tried(with_file(run, key, "pipe"), folder, what)
    writer.join()
    if ended != status:
        TALLY.fail(f"{' '.join(run.words)}: {what}: status {ended}, not {status}")


def closed_end():
    """The end of a pipe that nobody reads."""
    reader, writer = os.pipe()
    os.close(reader)
    return writer


def streams(_, folder):
    """Standard output and standard error that are full, closed, or read by nobody; each file that is read through a pipe."""
    for run in small_runs(folder):
        with open("/dev/full", "wb") as device:
            tried(run, folder, "a full standard output", hears_out=False, out=device)
            tried(run, folder, "a full standard error", hears_err=False, err=device)
        writer = closed_end()
        tried(run, folder, "a standard output that nobody reads", hears_out=False, out=writer)
        tried(run, folder, "a standard error that nobody reads", hears_err=False, err=writer)
        os.close(writer)
        for number in (0, 1, 2):
            tried(run, folder, f"stream {number} closed", hears_out=number != 1, hears_err=number != 2,
                  setup=lambda number=number: os.close(number))
        tried(run, folder, "all streams closed", hears_out=False, hears_err=False,
              setup=lambda: [os.close(number) for number in (0, 1, 2)])
        for key, _, name in (word.partition("=") for word in run.words[1:]):
            if name in run.reads:
                data = run.reads[name]
                piped(run, key, folder, data, f"{key} is a pipe", 0)
                piped(run, key, folder, data[:-1], f"{key} is a pipe that ends too early", 3)
                piped(run, key, folder, b"", f"{key} is a pipe without a byte", 3)


def words(_, folder):
    """Words that no list of words is likely to have."""
    lists = [[], [b""], [b"grow", b""], [b"grow", b"\xff=\xff"], [b"grow", b"sample=\xff\xfe"], [b"\xff"],
             [b"grow"] + [b"seed=1"] * 5000, [b"grow", b"width=" + b"9" * 100_000], [b"x" * 100_000],
             [b"check", b"sample=" + b"s" * 100_000], [b"grow", b"sample=a\nb", b"sample=c"], [b"--help"]]
    for given in lists:
        ended = start([WEAVE] + given, folder)
        TALLY.count(ended.status)
        fault = line_fault(ended)
        if not fault and ended.status not in (2, 7):
            fault = f"status {ended.status}"
        if fault or ended.out or os.listdir(folder):
            TALLY.fail(f"{[word[:20] for word in given[:4]]}: {fault}")


PARTS = [growths, sure, space, limits, full, files, names, streams, words]


def main(*names):
    for program in (WEAVE, FUZZ):
        if not os.access(program, os.X_OK):
            sys.exit(f"no {program}: build it first, by ./build and ./build fuzz")
    for part in PARTS:
        if names and part.__name__ not in names:
            continue
        TALLY.begin(part.__name__)
        with tempfile.TemporaryDirectory() as room:
            folder = os.path.join(room, "files")
            os.mkdir(folder)
            part(room, folder)
        TALLY.end()
    if TALLY.wrong:
        sys.exit(f"{TALLY.total} runs, {len(TALLY.wrong)} of them wrong")
    print(f"{TALLY.total} runs: never a crash, a hang, a file half written beside a status other than 6, "
          "or a status without its cause")


if __name__ == "__main__":
    main(*sys.argv[1:])
