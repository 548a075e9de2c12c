"""The command line of texture."""
import os
import signal
import sys
from typing import List

from .faults import Stop, guarded
from .keys import KEYS
from .making import STOPS, make
from .tasks import WORDS, parser_of, task_of
from .verify_folder import verify_folder


def do(words: List[str], usage: str) -> None:
    """What the words ask for."""
    if not words or words[0] in ("help", "-h", "--help"):
        print(usage)
    elif words[0] == "verify":
        verify_words(words[1:])
    elif words[0] in WORDS:
        make(task_of(words))
    else:
        raise Stop(f"{words[0]}: is none of {', '.join(KEYS)} and verify")


def verify_words(words: List[str]) -> None:
    """Verifies the folder that words name."""
    options = parser_of("verify").parse_intermixed_args(words)
    if len(options.rest) != 1 or not os.path.isdir(options.rest[0]):
        raise Stop("verify wants a folder that texture has made")
    again = True if options.again else False if options.no_again else None
    folder = options.rest[0]
    for line in verify_folder(folder, options.weave, options.shown, options.signer, again):
        print(line, flush=True)


def main(words: List[str], usage: str) -> int:
    """The program texture; the status to end with."""
    for stop in STOPS:
        signal.signal(stop, signal.default_int_handler)
    for stream in (sys.stdout, sys.stderr):
        # A name may have bytes that aren't text.
        stream.reconfigure(errors="backslashreplace")  # type: ignore[attr-defined]
    status = guarded(lambda: do(words, usage), "texture")
    return status if words else 2
