"""Writing files so that no input is lost, and none is left half written."""
import contextlib
import os
import stat
import tempfile
from typing import BinaryIO, Iterable, Iterator, Optional

from .faults import Stop


def same_file(name: str, other: str) -> bool:
    """Whether two names lead to one file, by the file itself: links of both kinds and other paths
    count. A name that leads nowhere is the same as none."""
    try:
        return os.path.samestat(os.stat(name), os.stat(other))
    except (OSError, ValueError):
        return False


def refuse_inputs(name: str, inputs: Iterable[Optional[str]]) -> None:
    """Stops where a file that would be written is one of those that are read."""
    for read in inputs:
        if read is not None and same_file(name, read):
            beside = "" if read == name else f", by the name {read}"
            raise Stop(f"{name}: is read too{beside}, and isn't overwritten")


def refuse_names(*names: str) -> None:
    """Stops at a name that no file can have."""
    for name in names:
        if not name:
            raise Stop("the name of a file is empty")
        if "\0" in name:
            raise Stop("the name of a file has a zero byte")


@contextlib.contextmanager
def written(name: str, inputs: Iterable[Optional[str]] = ()) -> Iterator[BinaryIO]:
    """Opens a file to write. It is written beside its place and put there once it is whole, so
    that a fault leaves what was there. A link stays one, and its target is written. Stops where
    the file is one of the inputs.

    A pipe, a terminal or a device is written as it is."""
    refuse_names(name)
    refuse_inputs(name, inputs)
    try:
        mode = os.stat(name).st_mode
    except OSError:
        mode = None
    if mode is not None and not stat.S_ISREG(mode):
        with open(name, "wb") as there:
            yield there
        return
    whole = os.path.realpath(name)
    if not os.path.isdir(os.path.dirname(whole)):
        raise Stop(f"{name}: there is no such folder", 6)
    descriptor, beside = tempfile.mkstemp(prefix=".beside_", dir=os.path.dirname(whole))
    try:
        with open(descriptor, "wb") as file:
            yield file
        os.chmod(beside, stat.S_IMODE(mode) if mode is not None else 0o666 & ~current_umask())
        os.replace(beside, whole)
    except BaseException:
        with contextlib.suppress(OSError):
            os.remove(beside)
        raise


def current_umask() -> int:
    """The bits that a file which this process makes doesn't get."""
    mask = os.umask(0o077)
    os.umask(mask)
    return mask


def write_file(name: str, data: bytes, inputs: Iterable[Optional[str]] = ()) -> None:
    """Writes a whole file, as `written` does."""
    with written(name, inputs) as file:
        file.write(data)
