"""ffmpeg and ffprobe: the sound that they copy, the places of packets, what they decode, tags."""

import json

from dsf import dsf
from given import FRAME, RATE, time
from tools import run
from walk import index_entries

COPY, PROBE, DECODE = "ffmpeg copy", "ffprobe", "ffmpeg decode"

# Samples, for each channel, that ffmpeg's filter looks back.
HISTORY = 16
LAYOUTS = {"stereo": "stereo", "5": "5.0(side)", "5.1": "5.1(side)"}
# The tags of comments, by kind and reference.
COMMENTS = {(0, 0): "comment", (1, 2): "channel2_comment", (2, 1): "analogue_source_comment", (3, 4): "file_revision"}


def check(given, form, scratch, findings):
    _copied(given, scratch, findings)
    _probed(given, form, findings)
    _decoded(given, scratch, findings)


def _convert(source, out, *options):
    out.unlink(missing_ok=True)
    status, _, errors = run("ffmpeg", "-v", "error", "-y", "-i", source, "-map", "0:a", *options, out)
    return out.read_bytes() if status == 0 else errors.decode(errors="replace")


def _copied(given, scratch, findings):
    copied = _convert(given.path, scratch / "copied", "-c", "copy", "-f", "data")
    findings.check(COPY, "copied sound", copied, given.frames_joined if given.dst else given.content)


def _probed(given, form, findings):
    options = ["-v", "error", "-select_streams", "a", "-show_packets", "-show_streams", "-show_format"]
    options += ["-of", "json=string_validation=ignore"]
    status, out, errors = run("ffprobe", *options, given.path)
    if status != 0:
        findings.unlike(PROBE, errors.decode(errors="replace"))
        return
    # Texts are bytes: each as a character of its own.
    probed = json.loads(out.decode("latin-1"))
    _packets(given, form, probed["packets"], findings)
    _stream(given, form, probed["streams"][0], probed["format"], findings)
    _tags(given, probed["format"].get("tags", {}), probed["streams"][0].get("tags", {}), findings)


def _packets(given, form, packets, findings):
    found = [(int(packet["pos"]), int(packet["size"])) for packet in packets]
    if given.dst:
        # A packet's place is that of the header of DSTF, as in the index.
        frames = [(chunk.place, chunk.size) for chunk in form.named(b"DSTF")]
        findings.check(PROBE, "packets", found, frames)
        if given["index"] != "none":
            more = 12 if given["index"] == "data" else 0
            led_to = [(place - more, size) for place, size in index_entries(form.one(b"DSTI"))]
            findings.check(PROBE, "packets and index", found, led_to)
        times = [(int(packet["pts"]), int(packet["duration"])) for packet in packets]
        findings.check(PROBE, "times", times, [(number * FRAME, FRAME) for number in range(given.positions)])
        return
    sound = form.one(b"DSD ")
    place = sound.data_place
    wanted = []
    for _, size in found:
        wanted.append((place, size))
        place += size
    findings.check(PROBE, "packets", found, wanted)
    findings.check(PROBE, "the last packet's end", place, sound.data_place + len(given.content))


def _stream(given, form, stream, whole, findings):
    findings.check(PROBE, "codec", stream["codec_name"], "dst" if given.dst else "dsd_msbf")
    findings.check(PROBE, "channels", stream["channels"], given.channels)
    # ffmpeg counts bytes of a channel.
    findings.check(PROBE, "sample rate", int(stream["sample_rate"]), RATE // 8)
    findings.check(PROBE, "layout", stream.get("channel_layout"), LAYOUTS.get(given["layout"]))
    duration = whole["duration"]
    to_the_end = len(form.file) - form.one(b"DST " if given.dst else b"DSD ").data_place
    trailer = to_the_end > len(given.content)
    if not given.dst and trailer and duration == f"{to_the_end / (given.channels * RATE / 8):.6f}":
        findings.fault(PROBE, "F2")
    else:
        findings.check(PROBE, "duration", duration, f"{given.seconds():.6f}")


def _tags(given, tags, stream_tags, findings):
    wanted = {}
    if given.artist_title():
        wanted["artist"], wanted["title"] = (text.decode("latin-1") for text in given.artist_title())
    for kind, reference, text in given.comments():
        wanted[COMMENTS[kind, reference]] = text.decode("latin-1")
    if given["id3-title"]:
        with_id3 = {**wanted, "title": given["id3-title"], "artist": given["id3-artist"]}
        if tags == with_id3:
            wanted = with_id3
        else:
            findings.cannot(PROBE, "f1")
    findings.check(PROBE, "tags", tags, wanted)
    start = given.start()
    if start is not None:
        hours, minutes, seconds, samples = time(start)
        text = f"{hours:02}h:{minutes:02}m:{seconds:02}s:{samples}"
        findings.check(PROBE, "start", stream_tags.get("absolute_start_time"), text)


def _decoded(given, scratch, findings):
    if given["frames"] == "random":
        findings.cannot(DECODE, "f2")
        return
    decoded = _convert(given.path, scratch / "decoded", "-f", "f32le")
    wanted = _by_another_road(given.content, given.channels, scratch)
    if isinstance(decoded, bytes):
        decoded = _settled(decoded, given.channels)
    if given["frames"] == "plain" and decoded != wanted and _every_fourth_byte(given, decoded, scratch):
        findings.fault(DECODE, "F1")
    else:
        findings.check(DECODE, "decoded sound", decoded, wanted)


def _settled(decoded, channels):
    """Without the samples that still have something of the history before the first: that is another one for DSF."""
    return decoded[HISTORY * channels * 4 :]


def _by_another_road(content, channels, scratch):
    """The content decoded from a DSF file, without what its last block has too much."""
    path = scratch / "road.dsf"
    path.write_bytes(dsf(content, channels, RATE))
    return _settled(_convert(path, scratch / "road", "-f", "f32le")[: len(content) * 4], channels)


def _every_fourth_byte(given, decoded, scratch):
    """Whether the first quarter of the first frame is made from every fourth byte of its content."""
    content = given.contents()[0]
    quarter = content[::4]
    quarter = quarter[: len(quarter) // given.channels * given.channels]
    wanted = _by_another_road(quarter, given.channels, scratch)
    return isinstance(decoded, bytes) and decoded[: len(wanted)] == wanted
