"""What a check finds: the same as what was given, a fault of the reader that is known, that the reader cannot do it, or
something that is not explained."""

# Numbers of READERS.md.
FAULTS = {
    "F1": "ffmpeg decodes a plain DST frame from every fourth byte of it",
    "F2": "ffmpeg reckons the duration of DSD up to the end of the file, trailer included",
    "W1": "wavpack forgets the pad of an odd chunk inside PROP, and refuses what follows",
    "M1": "mediainfo calls a size wrong that does not count the pad",
    "M2": "mediainfo reckons the number of samples from a duration rounded to a millionth of a second",
    "M3": "mediainfo drops an artist or title of odd length whose pad the size does not count",
    "M4": "mediainfo shows no time code of a start that is no whole second",
}
LIMITS = {
    "f1": "ffprobe does not show the tag of a chunk \"ID3 \"",
    "f2": "bytes that are no DST cannot be decoded",
    "w1": "wavpack takes no DST",
    "m1": "mediainfo does not list DSTF and DSTC",
    "m2": "mediainfo stops at a DST that is the last chunk, so that its trace has no end of DST and FRM8",
}


class Findings:
    """Of one file, by reader."""

    def __init__(self, name, size):
        self.name, self.size = name, size
        self.same, self.faults, self.limits, self.unexplained = {}, {}, {}, []

    def _count(self, into, reader, key):
        counts = into.setdefault(reader, {})
        counts[key] = counts.get(key, 0) + 1

    def check(self, reader, what, found, wanted):
        """Same, or not explained."""
        if found == wanted:
            self._count(self.same, reader, "same")
        else:
            self.unlike(reader, f"{what}: {short(found)}, not {short(wanted)}")
        return found == wanted

    def fault(self, reader, number):
        self._count(self.faults, reader, number)

    def cannot(self, reader, number):
        self._count(self.limits, reader, number)

    def unlike(self, reader, message):
        self.unexplained.append((reader, message))

    def cell(self, reader):
        parts = []
        if reader in self.same:
            parts.append(str(self.same[reader]["same"]))
        parts += sorted(self.faults.get(reader, {}), key=str.lower)
        parts += sorted(self.limits.get(reader, {}))
        parts += ["UNEXPLAINED" for name, _ in self.unexplained if name == reader][:1]
        return " ".join(parts) or "-"


def short(value):
    text = repr(value)
    return text if len(text) <= 120 else f"{text[:100]}... ({len(text)} characters)"
