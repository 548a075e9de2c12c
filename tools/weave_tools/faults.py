"""Why a file isn't read, and how a program says so."""
import gzip
import inspect
import os
import sys
from typing import Any, BinaryIO, Callable, Optional, Sequence, Tuple, cast

# Width, height and frames, in cells.
Size = Tuple[int, int, int]

GREATEST = 2**64 - 1
PIECE = 1 << 20


class Fault(Exception):
    """Why a file isn't read: the status of `weave check`, and its line."""

    def __init__(self, status: int, line: str) -> None:
        super().__init__(status, line)
        self.status, self.line = status, "weave: " + line


class Stop(Exception):
    """Why nothing is made, in one line, and the status that the program ends with."""

    def __init__(self, text: str, status: int = 2) -> None:
        super().__init__(text)
        self.status = status


def guarded(call: Callable[[], Any], program: str) -> int:
    """Calls a program's work, says what goes wrong in a line, and gives the status to end with."""
    try:
        call()
    except Stop as stop:
        text = str(stop)
        print(text if text.startswith("weave: ") else f"{program}: {text}", file=sys.stderr)
        return stop.status
    except Fault as fault:
        print(fault.line, file=sys.stderr)
        return fault.status
    except ValueError as error:
        print(f"{program}: {error}", file=sys.stderr)
        return 2
    except BrokenPipeError:
        # The reader of the output is gone; without this Python would complain at its end.
        os.dup2(os.open(os.devnull, os.O_WRONLY), sys.stdout.fileno())
        return 6
    except OSError as error:
        print(f"{program}: {error.filename or 'a file'}: {error.strerror}", file=sys.stderr)
        return 6
    except MemoryError:
        print(f"{program}: out of memory", file=sys.stderr)
        return 7
    except KeyboardInterrupt:
        print(f"{program}: stopped", file=sys.stderr)
        return 130
    return 0


def start(
    call: Optional[Callable[..., Any]], usage: Optional[str], words: Sequence[str], program: str
) -> int:
    """Runs a script, whose words are the arguments of a call. Words that don't fit get its usage."""
    try:
        inspect.signature(cast(Any, call)).bind(*words)
    except (TypeError, ValueError):
        print(usage, file=sys.stderr)
        return 2
    return guarded(lambda: cast(Any, call)(*words), program)


def refused(key: str, what: str) -> Fault:
    """A refusal of the file that a key of weave's names, as `sample`."""
    return Fault(3, f"{key}: {what}")


def limit(what: str, number: Any, bound: int) -> Fault:
    """A refusal of a number above its bound."""
    return Fault(4, f"limit {what} {number} over {bound}")


def cells_of(size: Sequence[int]) -> int:
    """The cells of a box."""
    return size[0] * size[1] * size[2]


def open_file(name: str, key: str) -> BinaryIO:
    """Opens a file of a run, through gzip where its name ends in .gz."""
    try:
        return cast(BinaryIO, gzip.open(name)) if name.endswith(".gz") else open(name, "rb")
    except (OSError, ValueError):
        raise Fault(5, f"{key}: read fault") from None


def read_some(file: BinaryIO, key: str, most: int) -> bytes:
    """The next bytes of a file, up to so many, with no more memory than the file has bytes."""
    pieces = []
    try:
        while most and (piece := file.read(min(most, PIECE))):
            pieces.append(piece)
            most -= len(piece)
    except EOFError:
        raise refused(key, "is cut off") from None
    except (OSError, ValueError):
        raise Fault(5, f"{key}: read fault") from None
    except Exception as error:  # zlib.error, where a .gz is damaged
        raise refused(key, f"is damaged: {error}") from None
    return b"".join(pieces)


def read_bytes(name: str, key: str, most: int) -> bytes:
    """The bytes of a file, and of a longer one one byte more than `most`."""
    with open_file(name, key) as file:
        return read_some(file, key, most + 1)
