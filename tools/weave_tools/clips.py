"""Videos of common forms as the clips that weave reads, and back."""
import argparse
import os
import re
from shlex import quote
from typing import Callable, List, Tuple

from .faults import Stop
from .forms import known_form
from .pixel_files import KINDS, MOST_AXIS, MOST_CELLS
from .programs import have, needs, run

# The colour kind in which a video of each of ffmpeg's formats of 8 bits is taken.
EIGHT_BITS = {
    **{form: form for form in ("yuv420p", "yuv422p", "yuv411p", "yuv444p", "gray")},
    **{"yuvj" + kind: "yuv" + kind for kind in ("420p", "422p", "411p", "444p")},
    **{form: "yuv444p" for form in ("pal8", "rgb24", "bgr24", "gbrp", "bgr0", "rgb0", "gbrap")},
    **{form: "yuv444p" for form in ("bgra", "rgba", "argb", "abgr")},
    "yuva420p": "yuv420p",
}
WITH_ALPHA = ("bgra", "rgba", "argb", "abgr", "yuva420p", "gbrap", "pal8")
KIND_OF = {
    "yuv420p": "420",
    "yuv422p": "422",
    "yuv411p": "411",
    "yuv444p": "444",
    "gray": "mono",
}


def reading(name: str) -> List[str]:
    """The words by which ffmpeg reads a video of the form that its first bytes are of, and nothing
    but that file."""
    form = known_form(name)
    return ["-protocol_whitelist", "file,pipe", "-f", form, "-i", "file:" + name]


def facts_of(name: str) -> Tuple[int, int, str]:
    """Width, height and pixel format of a video."""
    words = ["ffprobe", "-v", "error", "-select_streams", "v:0"]
    words += ["-show_entries", "stream=width,height,pix_fmt", "-of", "default=nw=1"]
    said = run([*words, *reading(name)], what=name).decode()
    facts = dict(line.split("=", 1) for line in said.split() if "=" in line)
    if not {"width", "height", "pix_fmt"} <= set(facts):
        raise Stop(f"{name}: there is no video in it", 3)
    return int(facts["width"]), int(facts["height"]), facts["pix_fmt"]


def chosen_frames(options: argparse.Namespace) -> List[str]:
    """The filters that leave the frames alone that are asked for."""
    if not options.frames:
        return []
    first, last = options.frames
    return [f"trim=start_frame={first}:end_frame={last + 1}", "setpts=PTS-STARTPTS"]


def keeping_frames() -> List[str]:
    """The words by which ffmpeg drops and doubles no frame; they have another name since version
    5.1."""
    said = run(["ffmpeg", "-version"]).decode(errors="replace")
    version = re.match(r"ffmpeg version n?(\d+)\.", said)
    return ["-vsync" if version and int(version[1]) <= 5 else "-fps_mode", "passthrough"]


def refuse_transparent(name: str, options: argparse.Namespace) -> None:
    """Refuses a video with a pixel that isn't solid."""
    filters = ",".join(chosen_frames(options) + ["format=rgba", "alphaextract"])
    words = ["ffmpeg", "-v", "error", *reading(name), "-vf", filters, "-frames:v", str(MOST_AXIS)]
    clear = run([*words, "-f", "rawvideo", "-pix_fmt", "gray", "-"], what=name)
    if clear and min(clear) < 255:
        mend = f"ffmpeg -i {quote(name)} -vf format=rgb24 solid.mp4"
        raise Stop(f"{name}: has transparent pixels. Make them solid: {mend}", 3)


def clip_of(name: str, options: argparse.Namespace, say: Callable[[str], None] = print) -> bytes:
    """The y4m file of a video, of the colour kind that it has. No more frames are taken than one
    past the limits of weave."""
    plain = not (options.crop or options.scale or options.frames)
    if known_form(name) == "yuv4mpegpipe" and plain:
        with open(name, "rb") as file:
            return file.read()
    if not have("ffmpeg", "ffprobe"):
        raise needs(name, "ffmpeg")
    width, height, form = facts_of(name)
    if form not in EIGHT_BITS:
        mend = f"ffmpeg -i {quote(name)} -pix_fmt yuv420p eight.mp4"
        raise Stop(f"{name}: is of {form}, not of 8 bits. Make it so: {mend}", 3)
    if form in WITH_ALPHA:
        refuse_transparent(name, options)
    refuse_crop(name, width, height, options)
    return convert(name, options, (width, height), EIGHT_BITS[form], say)


def refuse_crop(name: str, width: int, height: int, options: argparse.Namespace) -> None:
    """Refuses a part that isn't wholly in the video."""
    if options.crop:
        w, h, x, y = options.crop
        if x + w > width or y + h > height:
            raise Stop(f"{name}: --crop asks for pixels outside of its {width}x{height}")


def convert(
    name: str,
    options: argparse.Namespace,
    whole: Tuple[int, int],
    kind: str,
    say: Callable[[str], None],
) -> bytes:
    """The y4m file of the frames, the part and the size that are asked for."""
    size = options.scale or (options.crop[:2] if options.crop else whole)
    across, down, _ = KINDS[KIND_OF[kind]]
    if size[0] % across or size[1] % down:
        say(f"{name}: {size[0]}x{size[1]} isn't whole cells of {kind}, so it is taken as yuv444p")
        kind, across, down = "yuv444p", 1, 1
    filters = chosen_frames(options)
    if options.crop:
        filters.append("crop={0}:{1}:{2}:{3}:exact=1".format(*options.crop))
    if options.scale:
        filters.append("scale={0}:{1}".format(*options.scale))
    filters.append(f"format={kind}")
    most = min(MOST_AXIS, across * down * MOST_CELLS // (size[0] * size[1])) + 1
    words = ["ffmpeg", "-v", "error", *reading(name), "-vf", ",".join(filters)]
    words += ["-frames:v", str(most), *keeping_frames(), "-an", "-strict", "-1"]
    return run([*words, "-f", "yuv4mpegpipe", "-"], what=name)


def write_video(out_name: str, result: str, ending: str) -> None:
    """The video of a clip that weave wrote. It is named from its own folder, since ffmpeg takes
    some characters of a name for more."""
    with open(out_name, "rb") as file:
        tags = file.readline().split()
    odd = any(int(tag[1:]) % 2 for tag in tags if tag[:1] in b"WH")
    palette = "split[a][b];[a]palettegen[p];[b][p]paletteuse"
    how = {
        ".gif": ["-filter_complex", palette],
        ".webm": ["-crf", "20", "-b:v", "0", "-pix_fmt", "yuv420p"],
    }
    plain = ["-crf", "16", "-pix_fmt", "yuv444p" if odd else "yuv420p"]
    words = ["ffmpeg", "-v", "error", "-y", *reading(out_name), *how.get(ending, plain)]
    run([*words, os.path.basename(result)], None, "the result", os.path.dirname(result))
