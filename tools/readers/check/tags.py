"""mutagen: what it knows of the sound, and the ID3 tag."""

from given import RATE

READER = "mutagen"


def check(given, form, findings):
    from mutagen import MutagenError
    from mutagen.dsdiff import DSDIFF

    try:
        file = DSDIFF(str(given.path))
    except MutagenError as error:
        findings.unlike(READER, str(error))
        return
    info = file.info
    findings.check(READER, "compression", info.compression, "DST" if given.dst else "DSD")
    findings.check(READER, "channels", info.channels, given.channels)
    findings.check(READER, "sample rate", info.sample_rate, RATE)
    findings.check(READER, "bits", info.bits_per_sample, 1)
    findings.check(READER, "length", round(info.length, 9), round(given.seconds(), 9))
    findings.check(READER, "bit rate", round(info.bitrate, 3), round(_bit_rate(given, form), 3))
    tag = file.tags and (str(file.tags.get("TIT2")), str(file.tags.get("TPE1")))
    findings.check(READER, "tag", tag, (given["id3-title"], given["id3-artist"]) if given["id3-title"] else None)


def _bit_rate(given, form):
    """Of DST, all of its chunk but FRTE: headers, pads and CRCs too."""
    if not given.dst:
        return RATE * given.channels
    return (form.one(b"DST ").size - 18) / given.seconds() * 8
