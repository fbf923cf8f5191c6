"""mediainfo's summary: the numbers of the sound, texts and tags."""

import json

from given import RATE, time
from tools import run

SUMMARY = "mediainfo"

LAYOUTS = {"stereo": "L R", "5": "L R C Ls Rs", "5.1": "L R C LFE Ls Rs"}


def check(given, findings):
    status, out, errors = run("mediainfo", "--Output=JSON", given.path)
    tracks = json.loads(out.decode("utf-8"))["media"]["track"] if status == 0 else []
    audio = next((track for track in tracks if track["@type"] == "Audio"), None)
    if audio is None:
        findings.unlike(SUMMARY, errors.decode(errors="replace") or "no sound")
        return
    _sound(given, audio, findings)
    _samples(given, audio, findings)
    _start(given, audio, findings)
    _artist_title(given, tracks[0], findings)
    _comments(given, tracks[0], findings)


def _sound(given, audio, findings):
    wanted = {
        "Format": "DST" if given.dst else "DSD",
        "Channels": str(given.channels),
        "SamplingRate": str(RATE),
        "ChannelLayout": LAYOUTS.get(given["layout"], " ".join(given.channel_names())),
        "Duration": f"{given.seconds():.6f}",
    }
    if given.dst:
        wanted["FrameCount"] = str(given.positions)
    for key, value in wanted.items():
        findings.check(SUMMARY, key, audio.get(key), value)


def _samples(given, audio, findings):
    samples = given.positions * RATE // 75
    count = int(audio.get("SamplingCount", 0))
    if count != samples and count == round(float(audio.get("Duration", 0)) * RATE):
        findings.fault(SUMMARY, "M2")
    else:
        findings.check(SUMMARY, "samples", count, samples)


def _start(given, audio, findings):
    start = given.start()
    if start is None:
        return
    found = audio.get("TimeCode_FirstFrame")
    if start % 75 and found is None:
        findings.fault(SUMMARY, "M4")
    else:
        hours, minutes, seconds, _ = time(start)
        text = f"{hours:02}:{minutes:02}:{seconds:02}:{start % 75:02}"
        findings.check(SUMMARY, "start", found, text)


def _artist_title(given, general, findings):
    """Artist and title of DIIN; those of an ID3 tag take their places, but for the album's title."""
    artist, title = given.artist_title() or (None, None)
    tag = {"Title": given["id3-title"], "Track": given["id3-title"], "Performer": given["id3-artist"]}
    for key, text in {"Title": title, "Track": title, "Performer": artist}.items():
        found, odd = general.get(key), text is not None and len(text) % 2 == 1
        if tag[key] and (key != "Title" or text is None):
            findings.check(SUMMARY, key, found, tag[key])
        elif odd and given["pads-counted"] == "no" and found is None:
            findings.fault(SUMMARY, "M3")
        else:
            findings.check(SUMMARY, key, found, text and text.decode("latin-1"))


def _comments(given, general, findings):
    shown = {"Comment": [], "OriginalSourceForm": [], "Revision": []}
    for kind, reference, text in given.comments():
        text = text.decode("latin-1")
        if kind <= 1:
            shown["Comment"].append(f"Channel {reference}: {text}" if kind else text)
        elif kind == 2:
            shown["OriginalSourceForm"].append(f"Analogue recording, {text}")
        else:
            shown["Revision"].append(text)
    found = {**general, **general.get("extra", {})}
    for key, texts in shown.items():
        findings.check(SUMMARY, key, found.get(key), " / ".join(texts) or None)
