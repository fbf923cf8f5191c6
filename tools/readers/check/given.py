"""What a file was given, from NAME.txt, NAME.content and NAME.frames."""

FRAME = 4704
RATE = 2822400
NAMES = {
    "stereo": ["SLFT", "SRGT"],
    "5": ["MLFT", "MRGT", "C   ", "LS  ", "RS  "],
    "5.1": ["MLFT", "MRGT", "C   ", "LFE ", "LS  ", "RS  "],
}
TRACK_START, TRACK_STOP, PROGRAM_START = 0, 1, 2
LSCO = {"stereo": 0, "5": 3, "5.1": 4}


def time(frame):
    """Hours, minutes, seconds, samples."""
    return frame // 270000, frame // 4500 % 60, frame // 75 % 60, frame % 75 * 37632


class Given:
    def __init__(self, folder, name):
        self.name = name
        self.path = folder / f"{name}.dff"
        self.content = (folder / f"{name}.content").read_bytes()
        self.frames_joined = (folder / f"{name}.frames").read_bytes()
        self.values, self.lists = {}, {"comment": [], "caller": [], "marker": [], "track": []}
        for line in (folder / f"{name}.txt").read_text(encoding="utf-8").splitlines():
            key, _, value = line.partition(" ")
            if key in self.lists:
                self.lists[key].append(value)
            else:
                self.values[key] = value
        self.channels = int(self["channels"])
        self.positions = int(self["positions"])
        self.dst = self["sound"] == "dst"
        self.crc = self["crc"] == "yes"

    def __getitem__(self, key):
        return self.values.get(key, "")

    def frames(self):
        """The frames of DST, one by one."""
        place = 0
        for length in map(int, self["lengths"].split()):
            yield self.frames_joined[place : place + length]
            place += length

    def contents(self):
        step = self.channels * FRAME
        return [self.content[place : place + step] for place in range(0, len(self.content), step)]

    def channel_names(self):
        if self["layout"] in NAMES:
            return NAMES[self["layout"]]
        numbers = self["numbers"].split() or range(self.channels)
        return [f"C{int(number):03}" for number in numbers]

    def loudspeakers(self):
        """The value of LSCO, None if there is to be none."""
        if self["layout"] in LSCO:
            return LSCO[self["layout"]] if self["lsco"] == "yes" else None
        return 65535 if self["lsco-unspecified"] == "yes" else None

    def start(self):
        """The start in frames, None if there is to be no ABSS."""
        if self["start"]:
            return int(self["start"])
        return 0 if self["edited-master"] == "yes" else None

    def text(self, text):
        """The bytes that a text is to have in the file."""
        if self["d2"] == "yes":
            return text.encode("latin-1", "ignore")
        return text.encode("ascii", "replace")

    def artist_title(self):
        """Bytes of artist and title that are to be in DIIN."""
        if self["info"] != "yes" or not self["artist"]:
            return None
        return self.text(self["artist"]), self.text(self["title"])

    def comments(self):
        """Kind, reference and bytes of each comment."""
        for line in self.lists["comment"]:
            kind, reference, text = line.split(" ", 2)
            yield int(kind), int(reference), self.text(text)

    def markers(self):
        """Time, kind, flags and bytes of the text of each marker: those given, or those of the tracks' spans in the range."""
        first, start = int(self["first"]), self.start() or 0
        if self["info"] != "yes":
            return
        for line in self.lists["marker"]:
            frame, kind, flags, text = line.split(" ", 3)
            yield time(start + int(frame) - first), int(kind), int(flags), text.encode()
        if not self.lists["marker"]:
            for frame, kind, text in self._program(first):
                yield time(start + frame - first), kind, 0, text

    def _program(self, first):
        """Frame, kind and text: program start, and of each track start and stop, but no stop where the next starts."""
        spans = []
        for line in self.lists["track"]:
            start, duration, title = line.split(" ", 2)
            begin, end = max(int(start), first), min(int(start) + int(duration), first + self.positions)
            if begin < end:
                spans.append((begin, end, self.text(title) if self["titles"] == "yes" else b""))
        if spans:
            yield first, PROGRAM_START, b""
        for (begin, end, title), (following, _, _) in zip(spans, spans[1:] + [(None, None, None)]):
            yield begin, TRACK_START, title
            if following != end:
                yield end, TRACK_STOP, b""

    def callers(self):
        for line in self.lists["caller"]:
            name, _, data = line.partition(" ")
            yield name.replace("_", " ").encode(), bytes.fromhex(data)

    def seconds(self):
        return self.positions / 75
