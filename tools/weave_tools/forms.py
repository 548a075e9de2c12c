"""Pictures of common forms as rasters, and rasters as files of the form that an ending names.

A file's form is told by its first bytes and never by its name, and a converter is told which it
is: a playlist or a drawing that names other files is of none of these forms. The bytes of a
picture reach a converter by its standard input.
"""
import os
import re
import struct
from typing import Dict, List, Optional, Tuple

from .faults import Fault, Stop
from .floats import as_floats, exr, hdr, pfm, read_exr, read_hdr, read_pfm, rgb_of_floats
from .pixel_files import read_picture
from .png import BEGINS, MOST_PIXELS, Raster, Text, interleaved, png, read_png
from .programs import have, imagemagick, needs, run
from .targa import read_targa, targa

CLIPS = ("mov", "matroska", "gif", "avi", "yuv4mpegpipe")
VIDEOS = (".mp4", ".webm", ".gif", ".mkv", ".mov", ".avi", ".y4m")
OWN = (".png", ".ppm", ".pfm", ".hdr", ".tga")
DEEP = (".png", ".ppm", ".tif", ".tiff")
FLOATS = (".exr", ".pfm")
BY_OTHERS = (".jpg", ".jpeg", ".webp", ".tif", ".tiff", ".bmp", ".jp2", ".jxl", ".avif")
PICTURES = OWN + (".exr",) + BY_OTHERS
LOSSLESS = (".png", ".ppm", ".pfm", ".hdr", ".exr", ".tif", ".tiff", ".bmp", ".tga", ".y4m")
# Of each form that others read: ImageMagick's prefix and ffmpeg's demuxer, where they have one.
READERS: Dict[str, Tuple[Optional[str], Optional[str]]] = {
    "jpeg": ("jpeg", "jpeg_pipe"),
    "webp": ("webp", "webp_pipe"),
    "tiff": ("tiff", "tiff_pipe"),
    "bmp": ("bmp", "bmp_pipe"),
    "jp2": ("jp2", "j2k_pipe"),
    "jxl": ("jxl", "jpegxl_pipe"),
    "avif": ("avif", None),
    "heic": ("heic", None),
    "dpx": ("dpx", "dpx_pipe"),
    "pnm": ("pnm", "ppm_pipe"),
    "pam": ("pam", "pam_pipe"),
    "psd": ("psd", "psd_pipe"),
}
STARTS = [
    (BEGINS, "png"),
    (b"\xff\xd8\xff", "jpeg"),
    (b"II*\0", "tiff"),
    (b"MM\0*", "tiff"),
    (b"BM", "bmp"),
    (b"GIF8", "gif"),
    (b"P6", "p6"),
    (b"P7", "pam"),
    (b"PF", "pfm"),
    (b"Pf", "pfm"),
    (b"v/1\x01", "exr"),
    (b"#?RADIANCE", "hdr"),
    (b"#?RGBE", "hdr"),
    (b"\0\0\0\x0cjP  \r\n", "jp2"),
    (b"\0\0\0\x0cJXL \r\n", "jxl"),
    (b"\xff\x0a", "jxl"),
    (b"SDPX", "dpx"),
    (b"XPDS", "dpx"),
    (b"8BPS", "psd"),
    (b"\x1aE\xdf\xa3", "matroska"),
    (b"YUV4MPEG2", "yuv4mpegpipe"),
]
# The comments that name the colours of pictures whose numbers are taken as they are.
PLAIN_COLOURS = (b"#sRGB", b"#RGB", b"#Gray", b"#LinearGray")


def ending_of(name: str) -> str:
    """The ending of a name, in small letters."""
    return os.path.splitext(name)[1].lower()


def form_of(head: bytes) -> Optional[str]:
    """The form that the first bytes of a file are of; None where it is none that is known."""
    for start, form in STARTS:
        if head.startswith(start):
            return form
    if re.match(rb"P[1-5]\s", head):
        return "pnm"
    if head[:4] == b"RIFF" and head[8:12] in (b"WEBP", b"AVI "):
        return "webp" if head[8:12] == b"WEBP" else "avi"
    if head[4:8] == b"ftyp":
        brand = head[8:12]
        if brand in (b"avif", b"avis"):
            return "avif"
        return "heic" if brand in (b"heic", b"heix", b"mif1", b"heim") else "mov"
    if head[4:8] in (b"moov", b"mdat", b"wide", b"free", b"skip"):
        return "mov"
    return "tga" if is_targa(head) else None


def is_targa(head: bytes) -> bool:
    """Whether the first bytes are a head of Truevision's form, which has no mark of its own."""
    if len(head) < 18 or head[1] > 1 or head[2] not in (2, 3, 10, 11):
        return False
    width, height = struct.unpack_from("<HH", head, 12)
    return head[16] in (8, 24, 32) and width > 0 < height and not head[17] & 0xC0


def read_head(name: str) -> bytes:
    """The first bytes of a file."""
    try:
        with open(name, "rb") as file:
            return file.read(64)
    except (OSError, ValueError) as error:
        raise Stop(
            f"{name}: can't be read: {getattr(error, 'strerror', None) or error}", 5
        ) from None


def known_form(name: str) -> str:
    """The form of a file; a Stop where none is known."""
    form = form_of(read_head(name))
    if form is None:
        raise Stop(f"{name}: its first bytes are of no picture or video that is known", 3)
    return form


def is_clip(name: str) -> bool:
    """Whether a file that is there is a video, by its first bytes."""
    return known_form(name) in CLIPS


# Pictures in.


def read_raster(name: str) -> Raster:
    """A picture of any form, with all its bits."""
    form = known_form(name)
    if form == "exr":
        return read_exr(name)
    try:
        with open(name, "rb") as file:
            data = file.read()
    except OSError as error:
        raise Stop(f"{name}: can't be read: {error.strerror}", 5) from None
    if form == "png":
        return read_png(data, name)
    if form == "p6":
        return read_p6(data, name)
    if form == "pfm":
        return read_pfm(data, name)
    if form == "hdr":
        return read_hdr(data, name)
    if form == "tga":
        return read_targa(data, name)
    if form == "tiff":
        refuse_float_tiff(data, name)
    return read_by_others(form, data, name)


def read_p6(data: bytes, name: str) -> Raster:
    """A P6 picture of 8 or 16 bits; of 16 bits numbers are scaled to the whole range."""
    try:
        pixels = read_picture(data, os.path.basename(name))
        size = pixels.size
        return Raster(size[0], size[1], 3, 8, pixels.cells, maxval=pixels.form[1])
    except Fault as fault:
        if not fault.line.endswith(": depth"):
            raise
    head = re.match(rb"P6(?:\s|#[^\n\r]*[\n\r])+(\d+)\s+(\d+)\s+(\d+)\s", data)
    if not head or not 255 < int(head[3]) < 65536:
        raise Stop(f"{name}: is a damaged P6", 3)
    width, height, maxval = (int(number) for number in head.groups())
    cells = data[head.end() :]
    if len(cells) != 6 * width * height:
        raise Stop(f"{name}: is a damaged P6", 3)
    if maxval != 65535:
        values = struct.unpack(f">{3 * width * height}H", cells)
        scaled = [min(65535, value * 65535 // maxval) for value in values]
        cells = struct.pack(f">{len(scaled)}H", *scaled)
    return Raster(width, height, 3, 16, cells)


def refuse_float_tiff(data: bytes, name: str) -> None:
    """Refuses a TIFF of floats or of more than 16 bits, since the converters would lose some."""
    order = "<" if data[:2] == b"II" else ">"
    try:
        at = struct.unpack_from(order + "I", data, 4)[0]
        for entry in range(struct.unpack_from(order + "H", data, at)[0]):
            tag, kind, count, value = struct.unpack_from(order + "HHIH", data, at + 2 + 12 * entry)
            if tag in (258, 339) and kind == 3 and count > 2:
                place = struct.unpack_from(order + "I", data, at + 2 + 12 * entry + 8)[0]
                value = max(struct.unpack_from(f"{order}{count}H", data, place))
            if (tag == 258 and value > 16) or (tag == 339 and value == 3):
                raise Stop(f"{name}: has floats or more than 16 bits. Save it as .exr or .pfm.", 3)
    except struct.error:
        raise Stop(f"{name}: is a damaged TIFF", 3) from None


def read_by_others(form: str, data: bytes, name: str) -> Raster:
    """A picture that ImageMagick, ffmpeg or Netpbm reads."""
    magick, demuxer = READERS[form]
    program = imagemagick()
    if program and magick:
        words = [program, f"{magick}:-[0]", "-auto-orient", "-set", "comment", "%[colorspace]"]
        pam = run([*words, "pam:-"], data, name)
        if pam.split(b"\n", 2)[1] not in PLAIN_COLOURS:
            pam = run([*words, "-colorspace", "sRGB", "pam:-"], data, name)
        return read_pam(pam, name)
    if have("ffmpeg") and demuxer:
        here = ["-protocol_whitelist", "pipe", "-f", demuxer, "-i", "pipe:0"]
        out = ["-frames:v", "1", "-f", "image2pipe", "-c:v", "pam", "-"]
        return read_pam(run(["ffmpeg", "-v", "error", *here, *out], data, name), name)
    if form == "jpeg" and have("jpegtopnm"):
        return read_any_pnm(run(["jpegtopnm", "-quiet"], data, name), name)
    raise needs(name, "imagemagick", "ffmpeg", "netpbm (JPEG alone)")


def read_any_pnm(data: bytes, name: str) -> Raster:
    """A P5 or P6 of 8 bits, as Netpbm writes them."""
    head = re.match(rb"P([56])\s+(\d+)\s+(\d+)\s+255\s", data)
    if not head:
        raise Stop(f"{name}: isn't of 8 bits", 3)
    channels = 3 if head[1] == b"6" else 1
    return Raster(int(head[2]), int(head[3]), channels, 8, data[head.end() :])


def read_pam(data: bytes, name: str) -> Raster:
    """A PAM, which keeps transparency and 16 bits; solid pixels without their alpha."""
    head, _, cells = data.partition(b"ENDHDR\n")
    lines = [line for line in head.split(b"\n")[1:] if line.strip() and line[:1] != b"#"]
    facts: Dict[bytes, bytes] = {}
    for line in lines:
        key, value = line.split(None, 1)
        facts[key] = value
    keys = (b"WIDTH", b"HEIGHT", b"DEPTH", b"MAXVAL")
    width, height, channels, maxval = (int(facts[key]) for key in keys)
    if maxval > 255 and maxval != 65535:
        raise Stop(f"{name}: has numbers up to {maxval}, and not of 8 or 16 bits", 3)
    unit = 2 if maxval > 255 else 1
    if len(cells) != width * height * channels * unit or channels > 4:
        raise Stop(f"{name}: is damaged", 3)
    if maxval < 255:
        scale = bytes(min(255, value * 255 // maxval) for value in range(256))
        cells = cells.translate(scale)
    raster = Raster(width, height, channels, 16 if unit == 2 else 8, cells)
    return raster.without_alpha() if channels in (2, 4) and raster.is_solid() else raster


def rgb_planes(raster: Raster) -> List[bytes]:
    """Red, green and blue of 8 bits, as three planes."""
    return raster.rgb() if raster.kind == "whole" else rgb_of_floats(raster)


def rgb_over(raster: Raster, over: Tuple[int, int, int]) -> bytes:
    """The bytes R, G, B of each pixel as the search sees it: transparent ones over a colour."""
    planes, solid = rgb_planes(raster), raster.solid()
    if solid:
        planes = [
            bytes(
                [
                    (value * alpha + colour * (255 - alpha) + 127) // 255
                    for value, alpha in zip(plane, solid)
                ]
            )
            for plane, colour in zip(planes, over)
        ]
    return interleaved(planes)


def scaled(raster: Raster, name: str, width: int, height: int) -> Raster:
    """A picture in another size, by a converter."""
    if raster.kind != "whole":
        raise Stop(f"{name}: floats aren't scaled. Scale it before, or make cells with --cell", 3)
    program, size = imagemagick(), f"{width}x{height}"
    if width * height > MOST_PIXELS:
        raise Stop(f"{name}: {size} are more than {MOST_PIXELS} pixels", 4)
    if program:
        words = [program, "png:-", "-resize", size + "!"]
        if raster.depth <= 8:
            words += ["-depth", "8"]
        pam = run([*words, "pam:-"], png(raster), name)
        return read_pam(pam, name)
    if have("ffmpeg"):
        words = ["ffmpeg", "-v", "error", "-protocol_whitelist", "pipe", "-f", "png_pipe"]
        words += ["-i", "pipe:0", "-vf", f"scale={width}:{height}", "-f", "image2pipe"]
        return read_pam(run([*words, "-c:v", "pam", "-"], png(raster), name), name)
    if have("pnmscale") and raster.is_plain():
        data = b"P6\n%d %d\n255\n" % (raster.width, raster.height) + interleaved(raster.rgb())
        words = ["pnmscale", "-xsize", str(width), "-ysize", str(height)]
        return read_any_pnm(run(words, data, name), name)
    raise needs("--scale", "imagemagick", "ffmpeg", "netpbm (8 bits alone)")


# Results.


def refuse_result(result: str, clip: bool) -> None:
    """Refuses a result that no program here can write, before any is made."""
    ending = ending_of(result)
    if ending not in VIDEOS + PICTURES:
        raise Stop(f"{result}: an ending is wanted, as .png or .mp4")
    if ending in OWN + (".y4m",) or have("ffmpeg"):
        return
    if ending == ".exr" or clip:
        raise needs(result, "ffmpeg")
    if imagemagick() or ending in (".jpg", ".jpeg") and have("pnmtojpeg"):
        return
    raise needs(result, "imagemagick", "ffmpeg", "netpbm (JPEG alone)")


def file_of(raster: Raster, ending: str, texts: Tuple[Text, ...] = ()) -> bytes:
    """The bytes of a picture's file, in the form that an ending names, and with all that the form
    can keep. A form that can't keep floats, 16 bits or transparency is a Stop."""
    if ending in FLOATS:
        floats = raster if raster.kind == "float" else as_floats(plain_channels(raster))
        return exr(floats) if ending == ".exr" else pfm(floats)
    if ending == ".hdr":
        if raster.kind != "rgbe":
            raise Stop("a result .hdr is made of samples .hdr alone; take .exr or .pfm", 3)
        return hdr(raster)
    if raster.kind != "whole":
        raise Stop(
            f"a result {ending} can't keep floats; take .exr, .pfm or .hdr as the sample is", 3
        )
    if ending == ".png":
        return png(full_range(raster), texts)
    if ending == ".ppm":
        if raster.solid() is not None:
            raise Stop("a result .ppm can't keep transparency; take .png", 3)
        return ppm(raster)
    if raster.depth == 16 and ending not in DEEP:
        raise Stop(f"a result {ending} can't keep 16 bits; take .png or .tif", 3)
    if raster.solid() is not None and ending in (".jpg", ".jpeg"):
        raise Stop(f"a result {ending} can't keep transparency; take .png or .webp", 3)
    return targa(full_range(raster)) if ending == ".tga" else by_others(raster, ending)


def plain_channels(raster: Raster) -> Raster:
    """A picture whose numbers are colours and not places in a palette."""
    if raster.colour != 3:
        return raster
    solid, planes = raster.solid(), raster.rgb()
    data = interleaved([*planes, solid] if solid else planes)
    return Raster(raster.width, raster.height, 4 if solid else 3, 8, data)


def full_range(raster: Raster) -> Raster:
    """A picture with another maxval than that of its bits, as one of 8 bits."""
    if raster.maxval == (1 << raster.depth) - 1:
        return raster
    return Raster(raster.width, raster.height, 3, 8, interleaved(raster.rgb()))


def ppm(raster: Raster) -> bytes:
    """The P6 picture of R, G and B of 8 or of 16 bits."""
    size = (raster.width, raster.height)
    if raster.depth == 16:
        each = raster.pixel
        planes = [raster.data[i::each] for i in range(each)]
        planes = planes[:6] if raster.channels >= 3 else planes[:2] * 3
        return b"P6\n%d %d\n65535\n" % size + interleaved(planes)
    if raster.channels == 3 and raster.colour == 2:
        return b"P6\n%d %d\n%d\n" % (*size, raster.maxval) + raster.data
    return b"P6\n%d %d\n255\n" % size + interleaved(raster.rgb())


def by_others(raster: Raster, ending: str) -> bytes:
    """The bytes of a form that ImageMagick, ffmpeg or Netpbm writes."""
    program, data = imagemagick(), png(full_range(raster))
    if program:
        form = {".jpg": "jpeg", ".tif": "tiff"}.get(ending, ending[1:])
        return run([program, "png:-", "-quality", "95", f"{form}:-"], data, "the result")
    if have("ffmpeg"):
        codec = {".jpg": "mjpeg", ".jpeg": "mjpeg", ".tif": "tiff", ".tiff": "tiff"}
        codec.update({".bmp": "bmp", ".webp": "libwebp", ".jp2": "jpeg2000"})
        if ending not in codec:
            raise needs("the result", "imagemagick")
        here = ["-protocol_whitelist", "pipe", "-f", "png_pipe", "-i", "pipe:0", "-q:v", "2"]
        words = ["ffmpeg", "-v", "error", *here, "-frames:v", "1", "-f", "image2pipe"]
        return run([*words, "-c:v", codec[ending], "-"], data, "the result")
    return run(["pnmtojpeg", "-quiet", "-quality=95"], ppm(raster), "the result")


def keeps_pixels(result: str) -> bool:
    """Whether the form of a result keeps each pixel, so that it can be read back and compared."""
    return ending_of(result) in LOSSLESS
