"""wavpack: the round trip restores the file, and the sound in between is the content."""

from tools import run
from walk import walk

READER = "wavpack"
# Microsoft's masks of the layouts: front left and right, centre, LFE, back left and right.
MASKS = {"stereo": "0x3", "5": "0x37", "5.1": "0x3f"}
REFUSED = b"is not a valid .DFF file"
DST_REFUSED = b"DSDIFF files must be uncompressed"


def check(given, form, scratch, findings):
    status, errors = _pack(given.path, scratch)
    if given.dst and status != 0 and DST_REFUSED in errors:
        findings.cannot(READER, "w1")
        return
    if status != 0 and REFUSED in errors and _odd_inside_property(form) and _taken_with_d1(form, scratch):
        findings.fault(READER, "W1")
        return
    if status != 0:
        findings.unlike(READER, errors.decode(errors="replace").strip())
        return
    findings.check(READER, "restored file", _unpacked(scratch), form.file)
    findings.check(READER, "sound", _unpacked(scratch, "--raw"), given.content)
    findings.check(READER, "verified", run("wvunpack", "-q", "-v", scratch / "packed.wv")[0], 0)
    values = run("wvunpack", "-f", scratch / "packed.wv")[1].decode().split(";")
    findings.check(READER, "rate, bits", values[:2], ["2822400", "1"])
    wanted = [str(given.channels), _mask(given), str(len(given.content) // given.channels * 8)]
    findings.check(READER, "channels, mask, samples", [values[3], values[4], values[5]], wanted)
    if given["id3-title"]:
        _tag(given, scratch, findings)


def _tag(given, scratch, findings):
    """The tag, if wavpack is told to look for one."""
    _pack(given.path, scratch, "--import-id3")
    lines = run("wvunpack", "-ss", scratch / "packed.wv")[1].decode().splitlines()
    values = dict(line.split(":", 1) for line in lines if ":" in line)
    found = [values.get(key, "").strip() for key in ("Title", "Artist")]
    findings.check(READER, "tag", found, [given["id3-title"], given["id3-artist"]])


def _pack(path, scratch, *options):
    out = scratch / "packed.wv"
    out.unlink(missing_ok=True)
    status, _, errors = run("wavpack", "-q", "-y", *options, path, "-o", out)
    return status, errors


def _unpacked(scratch, *options):
    out = scratch / ("unpacked.raw" if options else "unpacked.dff")
    out.unlink(missing_ok=True)
    status, _, errors = run("wvunpack", "-q", "-y", *options, scratch / "packed.wv", "-o", out)
    return out.read_bytes() if status == 0 else errors


def _mask(given):
    return MASKS.get(given["layout"], "0x0")


def _odd_inside_property(form):
    """Whether an odd chunk of PROP has another behind it."""
    return any(chunk.pad for chunk in form.one(b"PROP").inside[:-1])


def _taken_with_d1(form, scratch):
    """Whether wavpack takes and restores the very same bytes, but that the size of CMPR counts the pad."""
    place = form.one(b"CMPR").place + 11
    file = bytearray(form.file)
    file[place] += 1
    walk(bytes(file))
    path = scratch / "counted.dff"
    path.write_bytes(file)
    status, _ = _pack(path, scratch)
    return status == 0 and _unpacked(scratch) == bytes(file)
