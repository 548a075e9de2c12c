"""Runs of tools/texture for the checks of its sections, and what they compare."""
import json
import os
import random
import re
import shutil
import subprocess
import sys
from typing import Any, Dict, List, Optional

from beside import EXAMPLES, TOOLS

TEXTURE = os.path.join(TOOLS, "texture")
PEBBLES, LIFE = os.path.join(EXAMPLES, "pebbles.ppm"), os.path.join(EXAMPLES, "life.y4m")


def sh(*words: str, **more: Any) -> "subprocess.CompletedProcess[bytes]":
    """Runs a program, whatever it ends with."""
    return subprocess.run(words, stdout=subprocess.PIPE, stderr=subprocess.PIPE, **more)


def made(*words: str, **more: Any) -> bytes:
    """The output of a program that has to end well."""
    done = sh(*words, **more)
    if done.returncode:
        sys.exit(f"{words}: {done.stderr.decode()}")
    return done.stdout


def run(
    *words: str,
    status: int = 0,
    says: str = "",
    env: Optional[Dict[str, str]] = None,
    cwd: Optional[str] = None,
) -> str:
    """Runs texture, which has to end with a status and to say something, and never with a
    traceback."""
    done = sh(TEXTURE, *words, env=env, cwd=cwd)
    text = done.stdout.decode(errors="replace") + done.stderr.decode(errors="replace")
    if done.returncode != status or says not in text or "Traceback" in text:
        shown = " ".join(words)
        sys.exit(f"texture {shown}: {done.returncode}, and not {status}: {text}\n(wanted: {says})")
    if status and len(done.stderr.decode(errors="replace").strip().splitlines()) > 1:
        sys.exit(f"texture {' '.join(words)}: more than a line: {done.stderr.decode()}")
    return text


def hold(what: str, found: Any, wanted: Any) -> None:
    """Ends where something isn't as it has to be."""
    if found != wanted:
        sys.exit(f"{what}: {found!r:.500}, and not {wanted!r:.500}")


def bytes_of(name: str) -> bytes:
    """The bytes of a file."""
    with open(name, "rb") as file:
        return file.read()


def put(name: str, data: bytes) -> None:
    """Writes a file."""
    with open(name, "wb") as file:
        file.write(data)


def changed_bytes_seen(kept: str, chance: random.Random) -> int:
    """Any other byte in the folder is seen; how many were changed. At the end of a line it is
    another line break."""
    names = sorted(os.listdir(kept)) + ["sums"] * 8
    changes: List[Any] = [(name, None, chance.randrange(1, 256)) for name in names]
    changes += [("sums", 64, ord(" ")), ("sums", -1, ord("\n") ^ ord("\r"))]
    for name, at, bits in changes:
        path = os.path.join(kept, name)
        data = bytes_of(path)
        at = (chance.randrange(len(data)) if at is None else at) % len(data)
        put(path, data[:at] + bytes([data[at] ^ bits]) + data[at + 1 :])
        done = sh(TEXTURE, "verify", kept, "--no-again")
        if done.returncode != 1 or b"Traceback" in done.stderr:
            sys.exit(f"{path}: another byte at {at}: {done.returncode} {done.stderr.decode()}")
        put(path, data)
    return len(changes)


def kept_of(words: List[str], folder: str) -> str:
    """The folder that a run leaves: beside its result, the last word with an ending."""
    result = [word for word in words if re.search(r"\.\w+$", word) and "=" not in word][-1]
    return os.path.join(folder, result + ".weave")


def try_result(
    words: List[str],
    folder: str,
    chance: random.Random,
    says: str = "weave check: stands\nverify.py: stands",
) -> int:
    """Makes a result and verifies it; how many changed bytes were seen."""
    run(*words, cwd=folder)
    kept = kept_of([word for word in words if not word.startswith("--")], folder)
    run("verify", kept, says=says)
    changes = changed_bytes_seen(kept, chance)
    run("verify", kept, "--no-again")
    left = [name for name in os.listdir(folder) if name.startswith(".texture")]
    hold("what is left", left, [])
    return changes


def copied(folder: str, name: str, other: str) -> str:
    """A copy of a result with its folder in another folder, to be changed; its folder's path."""
    os.makedirs(other, exist_ok=True)
    shutil.copyfile(os.path.join(folder, name), os.path.join(other, name))
    kept = os.path.join(other, name + ".weave")
    if os.path.lexists(kept):
        shutil.rmtree(kept)
    shutil.copytree(os.path.join(folder, name + ".weave"), kept)
    return kept


def new_sums(kept: str) -> None:
    """Makes the list of sums anew, of what about names, as whoever forges a folder would."""
    sums = os.path.join(kept, "sums")
    about = json.loads(bytes_of(os.path.join(kept, "about")))
    results = [about["result"], *(layer["result"] for layer in about["layers"])]
    lines = []
    for line in bytes_of(sums).decode().splitlines():
        name = line.partition("  ")[2]
        if name.startswith("../") and name[3:] not in results:
            continue
        if os.path.exists(os.path.join(kept, name)):
            found = made("sha256sum", os.path.join(kept, name)).split()[0].decode()
            lines.append(f"{found}  {name}\n")
    put(sums, "".join(lines).encode())
