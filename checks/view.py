#!/usr/bin/env python3
"""Opens tools/view.html in headless Chromium with runs of weave, and holds what it shows against tools/verify.py.

    checks/view.py [--pictures FOLDER] [RUN ..]

Of a grown picture of two samples with rounds, one with turns, a grown clip, a quilt, a transfer, a loop, a tile and a merge it
asks: that the cell shown under the pointer is the one that verify.py finds, at 200 drawn places, and at places by link and by
key; that the map after drawn steps is that of as many records; that changed bytes of the output are counted; that the costs of
seams add up to those of weave's report; that of changed and malformed files the page has the line of `weave check`; that a
folder of tools/texture opens; and that the page is no wider than a window of 400 pixels. Of small random runs of all kinds each
cell is compared. A run of 1024x1024 cells has to open in under 2 seconds, or in as much processor time where other work goes
on, and a move of the pointer over it to take less than 16 milliseconds. With names of runs it tries these alone. It leaves
pictures of the page in FOLDER. It wants Debian's package chromium. Build the program first: ./build."""
import argparse
import os
import random
import re
import shutil
import subprocess
import sys
import tempfile
import time
from itertools import product

from beside import EXAMPLES, TOOLS, WEAVE
from changed_bytes import KINDS, TURNED, change, make_run as random_run, words_of
from chromium import Browser
from malformed import malformed
from weave_tools.map_files import is_map_of_turns
from weave_tools.rules import Output
from weave_tools.verifying import Run, Unrecorded, verify

PAGE = "file://" + os.path.join(TOOLS, "view.html")
MORE = "more pebbles"
RUNS = {
    "grown": ("grow", ["pebbles.ppm", MORE], ["width=150", "height=110", "box=24", "overlap=8", "rounds=12", "tol=40"]),
    "turned": ("grow", ["pebbles.ppm"], ["width=120", "height=90", "box=40", "overlap=16", "rounds=6", "turns=all"]),
    "clip": ("grow", ["life.y4m"], ["width=40", "height=30", "frames=10", "box=12", "overlap=4", "rounds=3"]),
    "quilt": ("quilt", ["pebbles.ppm"], ["width=120", "height=100", "block=24", "overlap=6"]),
    "transfer": ("transfer", ["pebbles.ppm"], ["block=14", "overlap=5", "alpha=40"]),
    "loop": ("loop", ["life.y4m"], ["length=24"]),
    "tile": ("tile", ["pebbles.ppm"], ["width=96", "height=80", "box=40", "overlap=16"]),
    "merge": ("merge", ["shot1.ppm", "shot2.ppm"], []),
}
PLACES, CHANGES, SMALL = 200, 60, 8
MOST_SECONDS, MOST_MILLISECONDS = 2, 16


def read_run(files, turns):
    """The files of a run, which have to stand."""
    run = Run(*files, turns=turns) if files[2] else Unrecorded(*files[:2], *files[3:])
    run.check()
    return run


def make_more(name, folder):
    """A sample that is like the pebbles, so that a run of both has cells of both."""
    files = [name] + [os.path.join(folder, part) for part in ("map", "record")] + [os.path.join(EXAMPLES, "pebbles.ppm")]
    subprocess.run([WEAVE, "grow"] + words_of(files) + ["width=100", "height=90", "seed=3"], capture_output=True, check=True)


def make_run(name, folder):
    """The files of a run, in the order of verify.py with None for no record; whether it is of turns; and its report."""
    command, samples, words = RUNS[name]
    files = [os.path.join(folder, part) for part in ("out", "map", "record")]
    if command in ("merge", "transfer"):
        subprocess.run([os.path.join(EXAMPLES, "shots.py"), folder], check=True, capture_output=True)
    for number, sample in enumerate(samples, 1):
        files.append(os.path.join(folder, f"sample{number}"))
        if sample == MORE:
            make_more(files[-1], folder)
        else:
            shutil.copy(os.path.join(folder if command == "merge" else EXAMPLES, sample), files[-1])
    named = words_of(files)
    if command in ("tile", "merge"):
        named = [word for word in named if not word.startswith("record=")]
        files[2] = None
    if command == "merge":
        named.append("marks=" + os.path.join(folder, "marks.ppm"))
    if command == "transfer":
        named.append("target=" + os.path.join(folder, "shot1.ppm"))
    done = subprocess.run([WEAVE, command] + named + words, capture_output=True, text=True, check=True)
    return files, "turns=all" in words, done.stdout


def show(browser, files):
    """Chooses all files of a run in a page that is opened for them."""
    browser.open(PAGE)
    for slot, names in (("samples", files[3:]), ("out", files[:1]), ("map", files[1:2]), ("record", files[2:3])):
        if names != [None]:
            browser.choose("#" + slot, names)
    browser.wait_for("files.map !== null" if files[2] is None else "files.record !== null")
    browser.wait_for("document.getElementById('verdict').textContent !== ''")
    browser.value("document.getElementById('work').scrollIntoView()")


def verdict(browser):
    return browser.value("[...document.querySelectorAll('#verdict p')].map(line => line.textContent)")


def cell_shown(browser):
    """What the page says of a cell: its place, both bytes, the sample's number and place, the turn, and the record."""
    rows = browser.value("[...document.querySelectorAll('#cell tr')].map(row => [...row.children].map(part => part.textContent))")
    numbers = [[int(number) for number in re.findall(r"-?\d+", text)] for _, text in rows]
    names = [name for name, _ in rows]
    turn, by = (numbers[names.index(name)][0] if name in names else None for name in ("turn", "put there by"))
    source = tuple(numbers[2]) if len(numbers[2]) == 4 else (1,) + tuple(numbers[2])
    return tuple(numbers[0]), bytes(numbers[1]), source, bytes(numbers[3]), by, turn, rows[4][1] == "equal"


def source_of(run, place):
    """The sample's number and the place of a cell, as they are in the file, and the turn; by the map alone."""
    x, y, f = place
    if run.map.kind == 1:
        return (1, x, y, run.map.frames[f]), None
    entry = [column[x + run.out.size[0] * (y + run.out.size[1] * f)] for column in run.map.columns]
    return (entry[0], *entry[-3:]), entry[1] if run.map.kind == 2 else None


def cell_found(run, place):
    out, _, sample, record = run.cell(*place)
    source, turn = source_of(run, place)
    return place, out, source, sample, record, turn, out == sample


def hold(what, found, wanted):
    if found != wanted:
        sys.exit(f"{what}: the page has {found}, and not {wanted}")


def point_at(browser, place):
    """Moves the pointer to an output cell, in its frame."""
    if browser.value("shown.frame") != place[2]:
        browser.value(f"$('frame').value = {place[2]}; $('frame').dispatchEvent(new Event('input'))")
    x, y = browser.value(f"(() => {{ const box = $('out-view').getBoundingClientRect(), view = outView;"
                         f" return [box.left + ({place[0]} + .5 - view.x) * view.scale,"
                         f" box.top + ({place[1]} + .5 - view.y) * view.scale]; }})()")
    browser.point(x, y)


def try_cells(name, browser, run, chance):
    places = [tuple(chance.randrange(axis) for axis in run.out.size) for _ in range(PLACES)]
    for place in places:
        point_at(browser, place)
        hold(f"{name}, pointer at {place}", cell_shown(browser), cell_found(run, place))
    for place in places[:10]:
        browser.point(2, 2)
        browser.value(f"location.hash = '#{','.join(map(str, place))}'")
        browser.wait_for(f"JSON.stringify(shown.kept) === '{list(place)}'.replaceAll(' ', '')")
        hold(f"{name}, link to {place}", cell_shown(browser), cell_found(run, place))
    x, y, f = places[9]
    for key, dx, dy in (("ArrowLeft", -1, 0), ("ArrowUp", 0, -1), ("ArrowRight", 1, 0), ("ArrowDown", 0, 1)):
        browser.press(key)
        x, y = min(max(x + dx, 0), run.out.size[0] - 1), min(max(y + dy, 0), run.out.size[1] - 1)
        hold(f"{name}, {key}", cell_shown(browser), cell_found(run, (x, y, f)))


def flat(samples, number):
    """The number of a sample's cell among those of all samples, as the page counts; -1 where there is none."""
    if number == 0:
        return -1
    part, x, y, f = samples.place(number)
    w, h, _ = samples.sizes[part - 1]
    return sum(a * b * c for a, b, c in samples.sizes[:part - 1]) + x + w * (y + h * f)


def try_steps(name, browser, run, chance):
    """The map after drawn steps, forth and back, each cell."""
    if run.record is None:
        hold(f"{name}, whether steps are offered", browser.value("$('steps-bar').hidden"), True)
        return
    steps = len(run.map.frames) if run.map.kind == 1 else len(run.record.records)
    area = run.out.size[0] * run.out.size[1]
    for step in [0, steps] + [chance.randint(0, steps) for _ in range(6)] + [steps]:
        browser.value(f"$('step').value = {step}; $('step').dispatchEvent(new Event('input'))")
        shown = browser.value("Array.from({ length: cellsOf(run.size) }, (_, i) => sourceOf(i) === NONE ? -1 : sourceOf(i))")
        if run.map.kind == 1:
            wanted = [frame * area + i if f < step else -1 for f, frame in enumerate(run.map.frames) for i in range(area)]
        else:
            output = Output(run.samples, run.out.size)
            for number, record in enumerate(run.record.records[:step], 1):
                output.put(record, number)
            wanted = [flat(run.samples, number) for number in output.sources]
            owners = browser.value("Array.from({ length: cellsOf(run.size) }, (_, i) => ownerOf(i))")
            hold(f"{name}, the records of cells after step {step}", owners, list(output.records))
        hold(f"{name}, the map after step {step}", shown, wanted)
        try_paint(f"{name}, what is painted after step {step}", browser, run, shown)


def try_paint(what, browser, run, shown):
    """The pixels of a picture that are painted are those of the cells that its sources name."""
    if run.out.form != ("picture", 255):
        return
    pixels = browser.value("[...outView.base.getContext('2d').getImageData(0, 0, run.size[0], run.size[1]).data]")
    cells = b"".join(part.cells for part in run.samples.parts)
    wanted = [[*cells[3 * number:3 * number + 3], 255] if number >= 0 else [0] * 4 for number in shown]
    hold(what, [pixels[i:i + 4] for i in range(0, len(pixels), 4)] == wanted, True)


def try_changed_bytes(name, browser, files, run, folder, chance):
    """Bytes of cells of the output that are changed are counted, and the next that differs is one of them."""
    changed, each = os.path.join(folder, "changed"), run.samples.samples
    with open(files[0], "rb") as file:
        data = bytearray(file.read())
    total, is_picture, places = len(run.out.cells) // each, run.out.form[0] == "picture", set()
    for _ in range(3 if is_picture else 1):
        cell = chance.randrange(total) if is_picture else total - 1
        data[len(data) - len(run.out.cells) + each * cell + chance.randrange(each) if is_picture else -1] ^= 1
        places.add(cell)
        with open(changed, "wb") as file:
            file.write(data)
        browser.choose("#out", [changed])
        browser.wait_for("files.out.name === 'changed' && document.getElementById('verdict').textContent !== ''")
        hold(f"{name}, changed cells", verdict(browser)[0], differing(len(places), total))
        browser.press("d")
        x, y, f = browser.value("shown.kept")
        hold(f"{name}, the next that differs", x + run.out.size[0] * (y + run.out.size[1] * f) in places, True)
        hold(f"{name}, whether it is equal", cell_shown(browser)[-1], False)
        browser.choose("#out", [files[0]])
        browser.wait_for("files.out.name === 'out'")


def verdict_of(count, total, has_record):
    """The lines of the page on files whose map is what the records leave. None of them is green, since rules 2 to 14 aren't
    tried."""
    if not has_record:
        return [differing(count, total), "No record is there, so that only the output is tried."]
    return [differing(count, total), "0 entries of the map differ from what the records leave.",
            "Not tried here: that each cut costs least (rules 2 to 14). weave check tries it."]


def differing(count, total):
    return f"{count} of {total} cells of the output differ from what the map names."


def try_seams(name, browser, report):
    """The costs of all seams of a picture are the report's; of a tile with those across its edges."""
    wanted = re.search(r"seams (\d+)", report)
    if not wanted or "x1\n" not in report:
        return
    keys = ["s", "r"] if name == "tile" else ["s"]
    for key in keys:
        browser.press(key)
    total = browser.value("[...shown.seams.right, ...shown.seams.lower].reduce((sum, cost) => sum + cost, 0)")
    hold(f"{name}, seams", total, int(wanted[1]))
    for key in keys:
        browser.press(key)


def try_usage(name, browser, run):
    width, height, frames = run.out.size
    used = {source_of(run, place)[0] for place in product(range(width), range(height), range(frames))}
    rows = browser.value("[...document.querySelectorAll('#usage tr')].slice(1).map(row => row.children[2].textContent)")
    for part, text in enumerate(rows, 1):
        count = sum(source[0] == part for source in used)
        hold(f"{name}, cells used of sample {part}", int(text.split()[0]), count)
        hold(f"{name}, whether a cell is of sample {part}", count > 0, True)


def try_each_malformed(name, browser, files, folder):
    whole = {}
    for slot, at in (("map", 1), ("record", 2)):
        with open(files[at], "rb") as file:
            whole[slot] = file.read()
    lines = set()
    for number, (slot, data) in enumerate(malformed(whole, name == "grown")):
        at = {"out": 0, "map": 1, "record": 2, "samples": 3}[slot]
        lines.add(try_file(name, browser, files, folder, at, data, f"malformed{number}"))
    return {re.sub(r"\d{2,}", "N", line) for line in lines if line}


def try_malformed(name, browser, files, folder, chance):
    """Of changed files the page has the line of `weave check`, or the counts that go with its rule."""
    lines = set()
    for number in range(CHANGES):
        which, _, data = change(files, chance)
        lines.add(try_file(name, browser, files, folder, which, data, f"changed{number}"))
    return {re.sub(r"\d{2,}", "N", line) for line in lines if line}


def try_file(name, browser, files, folder, which, data, called):
    """Chooses other bytes for one of the files. The line that the page has to have, where it has to have that of `check`."""
    mine = list(files)
    mine[which] = os.path.join(folder, called)
    with open(mine[which], "wb") as file:
        file.write(data)
    turns = is_map_of_turns(mine[1])
    said = subprocess.run([WEAVE, "check"] + words_of(mine, turns), capture_output=True, text=True)
    line = (said.stdout + said.stderr).rstrip("\n")
    hold(f"{name}, {called}, verify.py", verify(*mine, turns=turns), (said.returncode, line))
    slot = ("out", "map", "record", "samples")[min(which, 3)]
    browser.choose("#" + slot, mine[3:] if slot == "samples" else [mine[which]])
    at = f"files.samples[{which - 3}]" if slot == "samples" else f"files.{slot}"
    browser.wait_for(f"{at}.name === '{called}' && document.getElementById('verdict').textContent !== ''")
    found, rule, is_line = verdict(browser), re.search(r"rule (\d+)", line), False
    if said.returncode > 1 or (rule and rule[1] == "15"):
        hold(f"{name}, {called} as {slot}, {data[:40]}", found, [line])
        is_line = True
    elif said.returncode == 0 or rule[1] in ("16", "17"):
        differ, unlike = [int(text.split()[0]) > 0 for text in found[:2]]
        hold(f"{name}, {line}, whether the map differs", unlike, rule is not None and rule[1] == "16")
        if not unlike:
            hold(f"{name}, {line}, whether the output differs", differ, rule is not None)
    browser.choose("#" + slot, files[3:] if slot == "samples" else [files[which]])
    browser.wait_for(f"{at}.name === '{os.path.basename(files[which])}'")
    return line if is_line else None


def take_pictures(name, browser, files, pictures):
    """The page in light and dark, of 400 pixels and more, with what can be shown."""
    for scheme, width in product(("light", "dark"), (1280, 400)):
        browser.look(width, 900, scheme)
        show(browser, files)
        x, y, f = (axis // 2 for axis in browser.value("run.size"))
        browser.value(f"location.hash = '#{x},{y},{f}'; new Promise(done => setTimeout(done, 100))")
        if width == 400:
            hold(f"{name}, the width of the page", browser.value("document.documentElement.scrollWidth"), 400)
        if scheme == "dark":
            browser.press("m")
            browser.press("s")
            if width == 400:
                browser.value("toSingle()")
        browser.value("new Promise(done => setTimeout(done, 200))")
        browser.picture(os.path.join(pictures, f"{name}_{scheme}_{width}.png"))
    browser.look(1280, 900)


def try_all_at_once(name, browser, files, run, chance):
    """All files of a run chosen at once, and dropped at once, find their places."""
    total = len(run.out.cells) // run.samples.samples
    wanted = [[os.path.basename(sample) for sample in files[3:]], "out", "map", files[2] and "record"]
    mixed = [name for name in files if name]
    chance.shuffle(mixed)
    for how in ("chosen", "dropped"):
        browser.open(PAGE)
        if how == "chosen":
            browser.choose("#samples", mixed)
        else:
            browser.value("(() => { const all = document.createElement('input'); all.type = 'file'; all.multiple = true;"
                          " all.id = 'all'; document.body.append(all); })()")
            browser.choose("#all", mixed)
            browser.value("(() => { const data = new DataTransfer(), words = { bubbles: true, dataTransfer: data };"
                          " for (const file of $('all').files) data.items.add(file);"
                          " $('all').remove(); document.body.dispatchEvent(new DragEvent('drop', words)); })()")
        browser.wait_for("document.getElementById('verdict').textContent !== ''")
        hold(f"{name}, files {how} at once", browser.value(
            "[files.samples.map(file => file.name), files.out.name, files.map.name, files.record && files.record.name]"), wanted)
        hold(f"{name}, {how} at once", verdict(browser)[0], differing(0, total))


def try_play(name, browser):
    browser.press(" ")
    frames = set()
    for _ in range(40):
        frames.add(browser.value("new Promise(done => setTimeout(() => done(shown.frame), 25))"))
    browser.press(" ")
    if len(frames) < 4:
        sys.exit(f"{name}: only frames {frames} were played")


def try_run(name, browser, pictures, chance):
    with tempfile.TemporaryDirectory() as folder:
        files, turns, report = make_run(name, folder)
        run, lines = read_run(files, turns), set()
        show(browser, files)
        hold(name, verdict(browser), verdict_of(0, len(run.out.cells) // run.samples.samples, files[2] is not None))
        hold(f"{name}, whether it is said in green", browser.value("document.querySelectorAll('#verdict .good').length"), 0)
        try_cells(name, browser, run, chance)
        try_steps(name, browser, run, chance)
        try_seams(name, browser, report)
        try_usage(name, browser, run)
        if run.out.size[2] > 1:
            try_play(name, browser)
        if files[2]:
            lines = try_malformed(name, browser, files, folder, chance) | try_each_malformed(name, browser, files, folder)
        try_changed_bytes(name, browser, files, run, folder, chance)
        try_all_at_once(name, browser, files, run, chance)
        if pictures:
            take_pictures(name, browser, files, pictures)
        print(f"{name}: {PLACES} cells, the steps, changed and malformed files with {len(lines)} different lines", flush=True)


def try_folder(browser, chance):
    """A folder that texture left, chosen as it is: its sums are tried, its files unpacked, and a page for an auditor made."""
    with tempfile.TemporaryDirectory() as folder:
        words = ["grow", os.path.join(EXAMPLES, "pebbles.ppm"), os.path.join(folder, "more.png"), "90x70"]
        subprocess.run([os.path.join(TOOLS, "texture")] + words, check=True, capture_output=True)
        kept = os.path.join(folder, "more.png.weave")
        choose_folder(browser, kept)
        hold("a folder of texture", verdict(browser)[0], differing(0, 90 * 70))
        hold("its record", browser.value("run.record.kind"), 0)
        hold("its sums", browser.value("document.querySelector('#verdict .good').textContent"),
             "The files of the folder are as the list of sums says.")
        hold("its origin", any(line.startswith("By about: more.png, made by grow of pebbles.ppm") for line in verdict(browser)), True)
        browser.value("window.print = () => { window.printed = true; }; $('report').click(); new Promise(done => setTimeout(done, 200))")
        text = browser.value("$('audit').innerText")
        for wanted in ("Where more.png came from", "pebbles.ppm", "100.0% of the result", "What wasn't tried here"):
            hold(f"whether the auditor's page has '{wanted}'", wanted in text, True)
        hold("whether it is printed", browser.value("window.printed"), True)
        report = os.path.join(kept, "report")
        with open(report, "ab") as file:
            file.write(b" ")
        choose_folder(browser, kept)
        hold("a changed file", "report isn't as the list of sums says." in verdict(browser), True)
        hold("whether that is green", browser.value("document.querySelectorAll('#verdict .good').length"), 0)
        try_unread(browser, kept, folder)
    print("a folder of texture opens, with its sums, its origin and a page for an auditor")


def choose_folder(browser, kept):
    """Opens the page and chooses a folder of texture's."""
    browser.open(PAGE)
    browser.choose("#folder", [kept])
    browser.wait_for("[...document.querySelectorAll('#verdict p')].some(line => line.textContent.startsWith('By about'))")


def try_unread(browser, kept, folder):
    """A file that can't be read is a fault in the place of the run before it."""
    name = os.path.join(folder, "gone.ppm")
    shutil.copyfile(os.path.join(kept, "out.ppm"), name)
    browser.value("window.held = [...document.querySelectorAll('#out')][0]")
    with open(name, "rb") as file:
        data = file.read()
    browser.choose("#out", [name])
    browser.wait_for("files.out && files.out.name === 'gone.ppm'")
    os.remove(name)
    browser.value("$('out').dispatchEvent(new Event('change')); new Promise(done => setTimeout(done, 300))")
    hold("a file that can't be read", verdict(browser), ["weave: out: read fault"])
    hold("whether the run before it is shown", browser.value("$('work').hidden"), True)
    with open(name, "wb") as file:
        file.write(data)


CELLS = """Array.from({ length: cellsOf(run.size) }, (_, i) => {
    const facts = cellFacts([i % run.size[0], Math.floor(i / run.size[0]) % run.size[1], Math.floor(i / run.area)]);
    const turn = run.many > 1 ? facts.turn : null;
    return [facts.output, [facts.part + 1, facts.x, facts.y, facts.f], facts.sample, turn, facts.owner]; })"""


def try_small(browser, chance):
    """Each cell of small random runs of all kinds, with the record, and the source without it."""
    kinds, done = [*KINDS, *TURNED] * SMALL, 0
    with tempfile.TemporaryDirectory() as folder:
        for kind in kinds:
            files = random_run(kind, chance, folder)
            if files is None:
                continue
            run = read_run(files, kind in TURNED)
            show(browser, files)
            places = [(x, y, f) for f, y, x in product(*map(range, run.out.size[::-1]))]
            found = [(cell_found(run, place), place) for place in places]
            wanted = [[list(out), list(source), list(sample), turn, by] for (_, out, source, sample, by, turn, _), _ in found]
            hold(f"a small run, {kind}", browser.value(CELLS), wanted)
            browser.value("files.record = null; refresh()")
            hold(f"{kind}, no record", [cell[:4] for cell in browser.value(CELLS)], [cell[:4] for cell in wanted])
            done += 1
    print(f"each cell of {done} small runs of {len(KINDS) + len(TURNED)} kinds", flush=True)


def try_speed(browser, chance):
    """How long a large run takes to open, and a move of the pointer over it."""
    with tempfile.TemporaryDirectory() as folder:
        RUNS["large"] = ("grow", ["pebbles.ppm"], ["width=1024", "height=1024", "box=64", "overlap=24"])
        files, _, _ = make_run("large", folder)
        begin, before = time.time(), browser.processor_seconds()
        show(browser, files)
        opened, taken = time.time() - begin, browser.processor_seconds() - before
        each = browser.value("(() => { const begin = performance.now(); for (let i = 0; i < 200; i++) {"
                             " outView.hover([5 * i, 3 * i]); paintNow(); } return (performance.now() - begin) / 200; })()")
        print(f"a run of 1024x1024 cells opened in {opened:.2f} s, {taken:.2f} s of processor time; a move of the pointer takes "
              f"{each:.1f} ms", flush=True)
        hold("whether that is soon enough", (min(opened, taken) < MOST_SECONDS, each < MOST_MILLISECONDS), (True, True))


def main():
    words = argparse.ArgumentParser(description=__doc__, formatter_class=argparse.RawDescriptionHelpFormatter)
    words.add_argument("--pictures", help="the folder for pictures of the page")
    words.add_argument("runs", nargs="*", metavar="RUN", help=f"one of {', '.join(RUNS)}, small, folder, speed; or all")
    given = words.parse_args()
    if given.pictures:
        os.makedirs(given.pictures, exist_ok=True)
    browser, chance = Browser(), random.Random(1)
    try:
        others = {"small": try_small, "folder": try_folder, "speed": try_speed}
        for name in given.runs or [*RUNS, *others]:
            if name in others:
                others[name](browser, chance)
            else:
                try_run(name, browser, given.pictures, chance)
        hold("errors of the page", browser.errors, [])
    finally:
        browser.close()


if __name__ == "__main__":
    main()
