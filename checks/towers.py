#!/usr/bin/env python3
"""Says whether the two towers of crates stand apart, and how much of the program is proved again after an edit below them.

    python3 checks/towers.py

One tower searches: it makes outputs, with records that show that each choice is least. The other judges: it tells whether
such files stand. They meet at the records, the formats and the canvas alone, so that no edit of a search makes the judge, or
what stands on it, be proved again. Read are crates.txt and the lines of src/, specs/ and proofs/ of each crate. The script ends
with 1 where a crate of the judge stands on one of the search, also through others, or where an edit costs more than it may.
"""
import pathlib
import re
import sys

JUDGE = ["costs", "cut_check", "cut_replay", "strip_boundary", "block_strips", "block_check", "frame_distance", "loop_walk"]
JUDGE += ["cert_file", "standing_files", "check_command"]
SEARCH = ["match_error", "offset_errors", "patch_picks", "search_squares", "patch_place", "least_choice", "cost_windows", "grown", "max_flow", "cut_graph"]
SEARCH += ["graph_place", "refine_seams", "grow_run", "quilted", "quilt", "targets", "transfer", "torus", "tile_run"]

# The most lines of the crates that stand on a crate, for an edit of that crate. What a run is stands apart from what searches for
# it, so that these are the searches of `grow`, `quilt`, `transfer` and `tile`, and the commands.
MOST = {"search_squares": 10_100, "patch_place": 6_500}


def lines_of(folder):
    """The lines that are proved of a crate: its code, definitions and proofs."""
    files = [it for part in ("src", "specs", "proofs") for it in (folder / part).rglob("*") if it.suffix in (".rt", ".antt")]
    return sum(len(it.read_text().splitlines()) for it in files)


def main():
    root = pathlib.Path(__file__).resolve().parent.parent
    uses = {name: libraries.split() for name, libraries in re.findall(r"^(\w+).*?:(.*)", (root / "crates.txt").read_text(), re.M)}

    def below(name):
        """The crates that a crate stands on, also through others."""
        return {it for library in uses[name] if library in uses for it in (library, *below(library))}

    lines = {name: lines_of(root / "crates" / name) for name in (*below("weave"), "weave")}
    print(f"{'program':30}{len(lines):4} crates{sum(lines.values()):8,} lines")
    for row, names in (("judge", JUDGE), ("search", SEARCH)):
        print(f"{row:30}{len(names):4} crates{sum(lines[it] for it in names):8,} lines")
    is_well = True
    for name in JUDGE:
        for lower in sorted(below(name) & {*SEARCH}):
            print(f"{name} judges, and stands on {lower}, which searches")
            is_well = False
    for name, most in MOST.items():
        above = [it for it in lines if name in below(it)]
        again = sum(lines[it] for it in above)
        print(f"{'after an edit of ' + name:30}{len(above):4} crates{again:8,} lines{'' if again <= most else f', and at most {most:,} may be'}")
        is_well = is_well and again <= most
    return 0 if is_well else 1


if __name__ == "__main__":
    sys.exit(main())
