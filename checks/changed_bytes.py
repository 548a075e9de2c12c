#!/usr/bin/env python3
"""Changes the files of small runs, and holds what `weave check` says against verify.py.

    checks/changed_bytes.py [CHANGES [SEED [KIND ..]]]

makes runs of each kind, which have to stand: pictures and clips grown of one sample and of several, the same upgraded, quilts,
transfers and loops, tiles and merges, and pictures and clips grown with the turns of their samples. Then it changes their files
CHANGES times for each kind (2,000): a byte, a bit, a number, a cut, an insertion, bytes left out or swapped, whole records
dropped, doubled and swapped, with the count that they then have or the old one, and files of other runs. verify.py, which shares
nothing with weave, has to say the same of the changed files as `weave check`: the status, and the whole line. So it has to of
each file of malformed.py.

A tile and a merge have no record. There the record has a patch for each row of cells that are beside each other in the sample,
which has no seam to cut: it stands wherever the map is one, so `check` judges the map and the picture.

A tenth of CHANGES more are of the reports, the targets and the marks of all runs, and of the samples of transfers, tiles and
merges. What the command refuses verify.py has to refuse by the same line, and what it then makes has to stand with its report.

Build the program first: ./build."""
import copy
import os
import random
import re
import resource
import shlex
import subprocess
import sys
import tempfile
from collections import Counter

from beside import WEAVE
from malformed import malformed
from random_loops import write_clip
from random_runs import write_sample
from weave_tools.map_files import Block, Cut, Fields, Named
from weave_tools.verifying import verify, verify_unrecorded

MOST_MEMORY = 1 << 29
HEADER_BYTES = b"0123456789  #\n\r\tWHCIFAXPYpt?\x00\xff"


# Runs.


def grow_words(chance, frames):
    return [f"width={chance.randint(1, 14)}", f"height={chance.randint(1, 9)}", f"frames={frames}",
            "place=" + chance.choice(["grid", "random", "whole", "sub", "sub"]), f"box={chance.randint(1, 6)}",
            f"overlap={chance.randint(0, 4)}", f"tol={chance.choice([0, 10, 300])}", f"rounds={chance.randint(0, 4)}"]


def grow(chance, folder, write, count, frames):
    names = [os.path.join(folder, f"sample{number}") for number in range(1, count + 1)]
    for name in names:
        write(name, chance)
    return "grow", names, grow_words(chance, frames)


def write_444(name, chance):
    write_clip(name, chance, ("444", 1, 1, 2))


def make_quilt(chance, folder):
    name = os.path.join(folder, "sample1")
    write_sample(name, chance)
    return "quilt", [name], [f"width={chance.randint(1, 14)}", f"height={chance.randint(1, 12)}",
                             f"block={chance.randint(2, 6)}", f"overlap={chance.randint(0, 4)}"]


def make_loop(chance, folder):
    name = os.path.join(folder, "sample1")
    write_clip(name, chance)
    return "loop", [name], [f"length={chance.randint(1, 12)}", f"taps={chance.choice([0, 2, 4])}", f"gap={chance.randint(1, 3)}"]


def write_picture(name, chance, size, maxval, of_bytes=None):
    """A picture whose header may have a comment."""
    raster = of_bytes or bytes(chance.choice([0, maxval, chance.randint(0, maxval)]) for _ in range(3 * size[0] * size[1]))
    with open(name, "wb") as out:
        out.write(b"P6%s%d %d\n%d\n" % (chance.choice([b"\n", b" ", b"\n# by hand\n"]), *size, maxval) + raster)


def some_size(chance, most=7):
    return chance.randint(1, most), chance.randint(1, most)


def make_transfer(chance, folder):
    sample, target, maxval = os.path.join(folder, "sample1"), os.path.join(folder, "target"), chance.choice([255, 255, 200, 3])
    write_picture(sample, chance, some_size(chance), maxval)
    write_picture(target, chance, some_size(chance, 12), maxval)
    return "transfer", [sample], [f"target={target}", f"block={chance.randint(2, 6)}", f"overlap={chance.randint(0, 4)}",
                                  f"alpha={chance.choice([0, 50, 100])}", f"tol={chance.choice([0, 10, 300])}"]


def make_tile(chance, folder, is_clip=False):
    """A tile, which has three cells or more on each axis on which its edges meet."""
    name, wrap = os.path.join(folder, "sample1"), chance.choice(["x", "y", "xy", "f", "xyf"] if is_clip else ["x", "y", "xy"])
    if is_clip:
        write_clip(name, chance)
    else:
        write_picture(name, chance, some_size(chance), chance.choice([255, 255, 200, 3]))
    width, height, frames = (chance.randint(3 if axis in wrap else 1, most) for axis, most in (("x", 12), ("y", 9), ("f", 4)))
    return "tile", [name], [f"width={width}", f"height={height}", f"frames={frames if is_clip else 1}", f"wrap={wrap}",
                            f"box={chance.randint(1, 6)}", f"overlap={chance.randint(0, 4)}"]


def make_merge(chance, folder):
    size, maxval, count = some_size(chance), chance.choice([255, 255, 200, 3]), chance.choice([2, 2, 3, 16])
    names = [os.path.join(folder, f"sample{number}") for number in range(1, count + 1)]
    for name in names:
        write_picture(name, chance, size, maxval)
    marks, marked = os.path.join(folder, "marks"), chance.choice([0, 0.2, 1])
    numbers = [chance.randint(1, count) if chance.random() < marked else 0 for _ in range(size[0] * size[1])]
    write_picture(marks, chance, size, chance.choice([16, 255]), b"".join(bytes((number, 0, 0)) for number in numbers))
    return "merge", names, [f"marks={marks}"]


KINDS = {
    "picture": lambda chance, folder: grow(chance, folder, write_sample, 1, 1),
    "pictures": lambda chance, folder: grow(chance, folder, write_sample, chance.randint(2, 3), 1),
    "upgraded": lambda chance, folder: grow(chance, folder, write_sample, 1, 1),
    "clip": lambda chance, folder: grow(chance, folder, write_clip, 1, chance.randint(1, 4)),
    "clips": lambda chance, folder: grow(chance, folder, write_444, 2, chance.randint(1, 4)),
    "quilt": make_quilt,
    "loop": make_loop,
}
TURNED = {
    "turned": lambda chance, folder: grow(chance, folder, write_sample, chance.randint(1, 2), 1),
    "turned clips": lambda chance, folder: grow(chance, folder, write_444, chance.randint(1, 2), chance.randint(1, 4)),
}
OTHERS = {
    "upgraded clip": lambda chance, folder: grow(chance, folder, write_clip, 1, chance.randint(1, 4)),
    "transfer": make_transfer,
    "tile": make_tile,
    "tiled clip": lambda chance, folder: make_tile(chance, folder, True),
    "merge": make_merge,
}
ALL = {**KINDS, **TURNED, **OTHERS}
UNRECORDED = ("tile", "merge")
SLOTS = ("out", "map", "record")


def words_of(files, turns=False):
    samples = [f"sample{number if number > 1 else ''}={name}" for number, name in enumerate(files[3:], 1)]
    words = samples + [f"{key}={name}" for key, name in zip(SLOTS, files)]
    return words + ["turns=all"] * turns


def bytes_in(name):
    with open(name, "rb") as file:
        return file.read()


def put(name, data):
    with open(name, "wb") as file:
        file.write(data)


def answer_of(program, *files, **how):
    """The status and the line; a verifier that breaks off is wrong too."""
    try:
        return program(*files, **how)
    except Exception as error:
        return -1, repr(error)


class Made:
    """A run that was made: its files in the order of verify.py, and what verify.py has to know besides."""

    def __init__(self, kind, chance, folder):
        self.command, samples, self.words = ALL[kind](chance, folder)
        self.files, self.turns = [os.path.join(folder, name) for name in SLOTS] + samples, kind in TURNED
        self.recorded = self.command not in UNRECORDED
        values = dict(word.split("=", 1) for word in self.words)
        self.more = {key: values[key] for key in ("target", "marks") if key in values}
        self.how = {key: values[key] for key in ("target", "marks", "wrap") if key in values}
        if self.turns:
            self.how["turns"] = True

    def command_line(self):
        """The words by which weave makes the files."""
        named = [word for word in words_of(self.files, self.turns) if self.recorded or not word.startswith("record=")]
        return [WEAVE, self.command] + named + self.words

    def over(self, news, outputs):
        """The run over other files in the place of some that it reads, into other files."""
        other = copy.copy(self)
        other.files = outputs + [news.get(name, name) for name in self.files[3:]]
        other.words = [f"{word.split('=')[0]}={news[word.split('=')[1]]}" if word.split("=")[1] in news else word
                       for word in self.words]
        other.how = {key: news.get(value, value) for key, value in self.how.items()}
        return other

    def judged(self, files, report=None):
        """What verify.py says of files of the run, by all that it can try."""
        if self.recorded:
            return answer_of(verify, *files, report=report, **self.how)
        return answer_of(verify_unrecorded, *files[:2], *files[3:], report=report, **self.how)


def row_records(data):
    """A record of cuts for a map that has none: the patches are runs of cells that are beside each other in the sample."""
    fields = Fields(data, "map")
    head = Named(fields, b"WEAVEMAP", 1)
    (width, height, _), places, spans = head.output, [], []
    for i in range(width * height * head.output[2]):
        places.append(fields.source(head.version, head.sizes))
        part, x, y, f = places[-1]
        if i % width and (part, x - 1, y, f) == places[-2]:
            spans[-1][1] += 1
        else:
            spans.append([i, 1])
    records = [len(spans).to_bytes(4, "big")]
    for i, count in spans:
        part, *place = places[i]
        numbers = [i % width, i // width % height, i // width // height, count, 1, 1] + [part] * (head.version == 2) + place
        choice = ((1 << count) - 1) << (-count % 8)
        records.append(b"".join(number.to_bytes(2, "big") for number in numbers) + choice.to_bytes((count + 7) // 8, "big"))
        records.append(bytes(4 * (count - 1)))
    length = 34 if head.version == 1 else 24 + 12 * len(head.sizes)
    return b"WEAVEREC" + data[8:length] + b"".join(records)


def upgraded(files, folder):
    """Has weave write map and record again in version 2."""
    news = [os.path.join(folder, name) for name in ("newmap", "newrecord")]
    old = [f"map={files[1]}", f"record={files[2]}"]
    subprocess.run([WEAVE, "upgrade"] + old + [f"newmap={news[0]}", f"newrecord={news[1]}"], check=True, capture_output=True)
    files[1:3] = news


def made_run(kind, chance, folder):
    """A run with its report; None where a clip has no loop."""
    made = Made(kind, chance, folder)
    done = subprocess.run(made.command_line(), capture_output=True, text=True)
    if done.returncode == 8:
        return None
    assert done.returncode == 0, done.stderr
    made.report = os.path.join(folder, "report")
    put(made.report, done.stdout.encode())
    if kind.startswith("upgraded"):
        upgraded(made.files, folder)
    if not made.recorded:
        put(made.files[2], row_records(bytes_in(made.files[1])))
    return made


def make_run(kind, chance, folder):
    """The files of a run, in the order of verify.py; None where a clip has no loop."""
    made = made_run(kind, chance, folder)
    return made and made.files


# Changes. Each takes the bytes and a place, and gives others.


def changed_byte(data, at, chance):
    return data[:at] + bytes([(data[at] + chance.choice([1, 255, chance.randrange(1, 256)])) % 256]) + data[at + 1:]


def changed_bit(data, at, chance):
    return data[:at] + bytes([data[at] ^ 1 << chance.randrange(8)]) + data[at + 1:]


def changed_number(data, at, chance):
    """Another number of 1, 2, 4 or 8 bytes."""
    count = chance.choice([1, 2, 2, 4, 4, 8])
    count, top = min(count, len(data) - at), 256 ** min(count, len(data) - at)
    old = int.from_bytes(data[at:at + count], "big")
    number = chance.choice([0, 1, top - 1, top // 2, 256, 257, 4096, 4097, 65535, old + 1, old - 1, 2 * old]) % top
    return data[:at] + number.to_bytes(count, "big") + data[at + count:]


def changed_pair(data, at, chance):
    """Two numbers one after another, as those of a flow, both greater or both less."""
    by = chance.choice([1, -1, 256, chance.randint(-300, 300)])
    numbers = [(int.from_bytes(data[i:i + 2], "big") + by) % 65536 for i in (at, at + 2)]
    return data[:at] + b"".join(number.to_bytes(2, "big") for number in numbers)[:len(data) - at] + data[at + 4:]


def cut(data, at, chance):
    return data[:at]


def inserted(data, at, chance):
    more = bytes(chance.choice([chance.choice(HEADER_BYTES), chance.randrange(256)]) for _ in range(chance.choice([1, 1, 2, 9])))
    at = chance.choice([at, at, len(data)])
    return data[:at] + more + data[at:]


def replaced(data, at, chance):
    return data[:at] + bytes([chance.choice(HEADER_BYTES)]) + data[at + 1:]


def left_out(data, at, chance):
    return data[:at] + data[at + chance.choice([1, 2, chance.randint(1, 40)]):]


def swapped(data, at, chance):
    count = chance.choice([1, 2, 6, 8])
    return data[:at] + data[at + count:at + 2 * count] + data[at:at + count] + data[at + 2 * count:]


def lengthened(data, at, chance):
    """Many equal bytes in a header, as long comments, numbers and tags have."""
    return data[:at] + bytes([chance.choice(b"#0 \n19x")]) * chance.choice([20, 4000, 4096, 65536]) + data[at:]


ANYWHERE = [changed_byte, changed_byte, changed_bit, changed_bit, changed_number, changed_number, changed_pair, changed_pair,
            cut, inserted, left_out, swapped]
IN_HEADERS = ANYWHERE + [replaced, replaced, replaced, inserted, lengthened]


def record_spans(data):
    """The head of a record file up to its count, and its records, each as bytes; of a walk its frames."""
    fields = Fields(data, "record")
    head = Named(fields, b"WEAVEREC", 3)
    count, spans, before = fields.number(4), [], 0
    if head.kind == 2:
        return data[:fields.at + 3], [data[fields.at + 3 + 2 * i:fields.at + 5 + 2 * i] for i in range(count)]
    begin = fields.at
    for _ in range(count):
        at = fields.at
        before += 1
        Cut(fields, head.version, head.sizes, 0) if head.kind == 0 else Block(fields, 0)
        spans.append(data[at:fields.at])
    return data[:begin], spans


def changed_records(data, chance):
    """Records dropped, doubled or swapped. The count is right, but for one in ten and for walks."""
    head, records = record_spans(data)
    rest, many = data[len(head) + sum(map(len, records)):], len(records)
    if not records:
        return data + b"\0"
    what, i, j = chance.randrange(3), chance.randrange(many), chance.randrange(many)
    if what == 0:
        del records[i]
    elif what == 1:
        records.insert(j, records[i])
    else:
        records[i], records[j] = records[j], records[i]
    if not data.startswith(b"WEAVEREC\1\2") and chance.randrange(10):
        head = head[:-4] + len(records).to_bytes(4, "big")
    return head + b"".join(records) + rest


def change(files, chance):
    """Which file is changed, how, and its other bytes."""
    which = chance.choice([0, 1, 1, 2, 2, 2] + list(range(3, len(files))))
    data = bytes_in(files[which])
    if which == 2 and chance.randrange(4) == 0:
        return which, "records", changed_records(data, chance)
    return (which, *changed_file(data, which not in (1, 2), chance))


def changed_file(data, is_text, chance):
    """How a file is changed, and its other bytes. A picture and a clip have a header of text."""
    in_header = chance.randrange(2) == 0
    at = chance.randrange(min(len(data), 60) if in_header else len(data))
    how = chance.choice(IN_HEADERS if in_header and is_text else ANYWHERE)
    return how.__name__, how(data, at, chance)


def run_all(commands, folder):
    """Status, standard output and standard error of each of some commands, which run side by side."""
    script = "".join(f"({shlex.join(words)} >said{n} 2>line{n}; echo $? >status{n}) &\n" for n, words in enumerate(commands))
    subprocess.run(["sh", "-c", script + "wait"], cwd=folder, check=True)
    return [tuple(bytes_in(os.path.join(folder, f"{name}{n}")).decode() for name in ("status", "said", "line"))
            for n in range(len(commands))]


def as_said(status, line):
    """Status, standard output and standard error of weave with a status and a line."""
    return f"{status}\n", line + "\n" if status < 2 else "", line + "\n" if status > 1 else ""


def stop(what, made, files):
    kept = tempfile.mkdtemp(prefix="changed_")
    for name in {*made.files, *files, made.report, *made.more.values()}:
        put(os.path.join(kept, os.path.basename(name)), bytes_in(name))
    sys.exit(f"{what}\nthe files are in {kept}: {' '.join(map(os.path.basename, files))}")


def with_file(made, which, data, called):
    """The files of a run with another one in the place of one of them."""
    files = list(made.files)
    files[which] = os.path.join(os.path.dirname(made.report), called)
    put(files[which], data)
    return files


def hold_all(made, changes, folder):
    """The answers of both for a run as it is, and for each of some changes: how, which file, and its other bytes."""
    all_files = [made.files] + [with_file(made, which, data, f"changed{n}") for n, (_, which, data) in enumerate(changes)]
    said = run_all([[WEAVE, "check"] + words_of(files, made.turns) for files in all_files], folder)
    answers = []
    for files, (how, which, _), it in zip(all_files, [("not changed", 0, b"")] + changes, said):
        status, line = answer_of(verify, *files, turns=made.turns)
        if it != as_said(status, line):
            stop(f"{how} of {made.files[which]}: check says {it}, verify.py {status} {line}", made, files)
        if not made.recorded and which != 2:
            hold_unrecorded(how, made, files, status, line)
        answers.append(" ".join(line.split()[3:5]) if status == 1 else f"status {status}")
    assert answers[0] == "status 0", f"{made.command}: {said[0]}"
    return answers[1:]


def hold_unrecorded(what, made, files, status, line):
    """verify.py says the same without a record, but that rule 16 is none."""
    found = made.judged(files)
    others = ("rule 17", "comes from another place", "isn't of the picture")
    if found == (status, line) or (status == 1 and " rule 16 " in line and (not found[0] or any(it in found[1] for it in others))):
        return
    # A merge has refusals of its own, which hold_inputs holds against those of the command.
    if made.command == "merge" and found[0] == 3 and re.search(r"sample\d*: (unlike|form at 0)|marks: unlike", found[1]):
        return
    stop(f"{what}: check says {status}, {line}; verify.py without a record {found}", made, files)


def try_changes(kind, chance, folder, changes, others):
    """What came of so many changes of runs of a kind, by its rule or line."""
    answers = Counter()
    while changes:
        made = made_run(kind, chance, folder)
        if made is None:
            continue
        batch = []
        for _ in range(min(changes, 20)):
            which, how, data = change(made.files, chance)
            if chance.randrange(40) == 0:
                which, how, data = chance.randrange(len(made.files)), "a file of another run", chance.choice(others)
            batch.append((f"{kind}, {how}", which, data))
        answers.update(hold_all(made, batch, folder))
        changes -= len(batch)
    return answers


def try_malformed(kind, chance, folder):
    """Each malformed file, in the place of each of a run's."""
    made, places = None, {"out": 0, "map": 1, "record": 2, "samples": 3}
    while made is None:
        made = made_run(kind, chance, folder)
    whole = {"map": bytes_in(made.files[1]), "record": bytes_in(made.files[2]), **{key: b"" for key in made.more}}
    files = list(malformed(whole, True))
    of_check = [(f"{kind}, malformed", places[slot], data) for slot, data in files if slot in places]
    for at in range(0, len(of_check), 20):
        hold_all(made, of_check[at:at + 20], folder)
    hold_inputs(made, [("malformed", made.more[slot], data) for slot, data in files if slot in made.more], folder)
    return len(files)


def hold_inputs(made, changes, folder):
    """Runs of a command over changed files: each is refused by the line that verify.py has, or its files stand. How many of
    them are refused."""
    runs = []
    for n, (_, name, data) in enumerate(changes):
        news = {name: os.path.join(folder, f"changed{n}")}
        put(news[name], data)
        runs.append(made.over(news, [os.path.join(folder, f"new{key}{n}") for key in SLOTS]))
    report, refused = os.path.join(folder, "newreport"), 0
    for run, (how, name, _), it in zip(runs, changes, run_all([run.command_line() for run in runs], folder)):
        put(report, it[1].encode())
        if it[0] == "0\n":
            found, wanted = run.judged(run.files, report), (0, "stands")
        else:
            found, wanted = as_said(*run.judged(made.files[:3] + run.files[3:])), it
        refused += it[0] != "0\n"
        if found != wanted:
            stop(f"{how} of {name}: {made.command} says {it}, verify.py {found}", made, run.files)
    return refused


def hold_report(what, made, data, folder):
    """A changed report is refused, but for its numbers that the files don't show."""
    old, report = bytes_in(made.report), os.path.join(folder, "newreport")
    put(report, data)
    status, line = made.judged(made.files, report)
    unknown = {"grow": rb"^(placements|rounds) (0|[1-9][0-9]{0,9})$", "tile": rb"^(placements) (0|[1-9][0-9]{0,9})$"}.get(made.command)
    same = [re.sub(unknown, rb"\1 N", text, flags=re.MULTILINE) if unknown else text for text in (old, data)]
    numbers = [sum(map(int, re.findall(rb"^(?:placements|rounds) ([0-9]{1,20})", text, re.MULTILINE))) for text in (old, data)]
    alike = same[0] == same[1] and (made.command != "grow" or numbers[0] == numbers[1])
    if (status, line == "stands") != (not alike, alike):
        stop(f"{what}: verify.py says {status}, {line} of the report {data!r}, and not of {old!r}", made, made.files)


def try_more(kind, chance, folder, changes):
    """Changes of reports, and of what else a command reads. How many of these are refused."""
    refused = 0
    while changes:
        made, batch = made_run(kind, chance, folder), []
        if made is None:
            continue
        if made.judged(made.files, made.report) != (0, "stands"):
            stop(f"{kind}: verify.py says {made.judged(made.files, made.report)}", made, made.files)
        names = [*made.more.values()] + (made.files[3:] if kind in OTHERS and not kind.startswith("upgraded") else [])
        for _ in range(min(changes, 20)):
            if names and chance.randrange(3):
                name = chance.choice(names)
                how, data = changed_file(bytes_in(name), True, chance)
                batch.append((f"{kind}, {how}", name, data))
            else:
                how, data = changed_file(bytes_in(made.report), True, chance)
                hold_report(f"{kind}, {how}", made, data, folder)
        refused += hold_inputs(made, batch, folder) if batch else 0
        changes -= min(changes, 20)
    return refused


def other_files(chance, folder):
    """The files of a run of each kind."""
    found = []
    for kind in ALL:
        made = made_run(kind, chance, folder)
        found += [bytes_in(name) for name in made.files] if made else []
    return found


def main(changes=2000, seed=1, *kinds):
    # A count that claims more than its file holds may not take the memory for it.
    resource.setrlimit(resource.RLIMIT_AS, (MOST_MEMORY, MOST_MEMORY))
    for kind in kinds or ALL:
        chance = random.Random(f"{seed} {kind}")
        with tempfile.TemporaryDirectory() as folder:
            answers = try_changes(kind, chance, folder, int(changes), other_files(chance, folder))
            count, refused = try_malformed(kind, chance, folder), try_more(kind, chance, folder, int(changes) // 10)
        print(f"{kind}: {changes} changes and {count} malformed files agree: "
              + ", ".join(f"{what} {number}" for what, number in sorted(answers.items()))
              + f"; {int(changes) // 10} changes of reports and inputs, {refused} inputs refused", flush=True)


if __name__ == "__main__":
    main(*sys.argv[1:])
