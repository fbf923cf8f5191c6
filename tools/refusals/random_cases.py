"""Random cases. One seed gives one stream of cases (under Python 3.11's `random`).

Each case has its own likelihood of a fault at each place that can have one: 0 (two cases of five), 2, 5 or 15 per cent.
Another order of the draws would change every case that follows. The limits are written out here and not taken from the
model, so that a slip there cannot move the cases.
"""

from random import Random

from cases import to_hex

U32_MAX = 2**32 - 1
LAST_FRAME_TIME = 6_479_999
LAST_PLAYTIME = 1_151_999

PLAIN_CHARACTERS = ["A", "b", " ", "~"]
CHARACTERS = PLAIN_CHARACTERS + ["\x7f", "\x1f", "é", "\xa0", "\x9f", "ÿ", "Ā", "€", "😀", "\ud7ff", "\ue000"]


def joined(values):
    return ",".join(map(str, values)) or "-"


class RandomCase:
    """The lines of one case, drawn key by key."""

    def __init__(self, random):
        self.random = random
        self.lines = []
        self.fault = random.choice([0, 0, 0.02, 0.05, 0.15])
        self.dst = self.chance(0.5)
        self.add("kind", "dst" if self.dst else "dsd")
        self.edited = self.chance(0.3)
        self.draw_channels()
        self.draw_range()
        self.draw_tracks()
        if self.dst:
            self.draw_lengths()
        self.draw_orders()
        self.draw_properties()
        self.draw_info()
        self.draw_texts()
        self.draw_comments()
        self.draw_rest()
        self.draw_asks()

    def add(self, key, *values):
        self.lines.append(" ".join([key, *map(str, values)]))

    def chance(self, likelihood):
        return self.random.random() < likelihood

    def faulty(self):
        return self.chance(self.fault)

    def pick(self, *values):
        return self.random.choice(values)

    def pick_unless_faulty(self, good, bad):
        """A good value, or a bad one by the case's likelihood of faults."""
        return self.random.choice(bad if self.faulty() else good)

    def text(self):
        """A text in the case language: mostly plain characters, seldom any of the list."""
        count = self.pick(0, 1, 1, 2, 3, 5, 8)
        characters = [self.random.choice(PLAIN_CHARACTERS if self.chance(0.6) else CHARACTERS) for _ in range(count)]
        return to_hex("".join(characters).encode())

    def plain_bytes(self, most):
        count = self.random.randint(0, most)
        return bytes(self.pick(0x20, 0x41, 0x7E) for _ in range(count))

    @property
    def positions(self):
        return max(0, self.end - self.first)

    # Area, range, tracks, lengths

    def draw_channels(self):
        if self.edited or self.chance(0.6):
            self.channels, config = self.pick((2, 0), (2, 0), (2, 0), (5, 3), (6, 4))
        else:
            self.channels = self.random.randint(1, 6)
            config = self.random.randint(0, 9)
        if self.faulty():
            self.channels = self.pick(0, 7, 3, 2)
        self.add("channels", self.channels)
        self.add("config", config)

    def draw_range(self):
        playtimes = [1, 2, 3, 5, 8, 80]
        playtime = self.random.choice(playtimes if self.dst else playtimes + [151, 300])
        self.add("playtime", playtime)
        if self.edited and not self.faulty():
            first, end = 0, playtime
        else:
            first = self.random.randint(0, playtime - 1)
            end = self.random.randint(first + 1, playtime)
        if self.chance(0.3) and not self.edited:
            first, end = 0, playtime
        if self.faulty():
            first, end = self.pick((end, first), (first, playtime + 1), (first, first), (playtime + 1, playtime + 1))
        self.first = first
        self.end = end
        self.add("range", first, end)

    def draw_duration(self):
        if self.edited:
            return self.pick_unless_faulty([75, 75, 76, 100], [0, 1, 74, LAST_PLAYTIME, LAST_PLAYTIME + 1])
        if self.chance(0.5):
            return self.pick(0, 1, 2, 3, 5, 40, 75, 100)
        return self.pick(1, 2, 3)

    def draw_tracks(self):
        count = self.pick(0, 1, 1, 2, 2, 3, 4)
        if self.edited and count == 0 and not self.faulty():
            count = 2
        start = self.pick(0, 0, 0, 1, 3)
        for _ in range(count):
            duration = self.draw_duration()
            if self.faulty():
                start = self.pick(U32_MAX, U32_MAX - 5, 0, max(0, start - 1))
            self.add("track", start, duration, self.text() if self.chance(0.6) else "-")
            start = min(start + duration, U32_MAX)
            if self.chance(0.4):
                start = min(start + self.pick(1, 2), U32_MAX)
            if not self.edited and self.chance(0.1):
                start = max(0, start - 1)
        if self.chance(0.35):
            last = count + 1 if self.chance(2 * self.fault) else count
            self.add("source_track", self.pick("none", *range(1, last + 1)))

    def draw_lengths(self):
        count = self.positions
        if self.faulty():
            count = max(0, count + self.pick(-1, 1))
        lengths = [self.pick(1, 2, 3, 4, 5, 7, 16, 100) for _ in range(count)]
        if self.chance(0.03) and lengths:
            lengths[0] = 65_536
        if lengths and self.faulty():
            bad = self.pick(0, 65_537)
            lengths[self.random.randrange(len(lengths))] = bad
        self.add("lengths", joined(lengths))
        if self.chance(0.5):
            self.add("dst_crc", 1)
        if self.chance(0.3):
            self.add("dst_index", 0)
        if self.chance(0.4):
            self.add("dst_index_offset", "data")

    # Options

    def shuffled(self, *names):
        order = list(names)
        self.random.shuffle(order)
        return order

    def draw_orders(self):
        for key, names in (
            ("property_order", ("fs", "chnl", "cmpr", "abss", "lsco")),
            ("info_order", ("emid", "mark", "diar", "diti")),
        ):
            if self.chance(0.4):
                order = self.shuffled(*names)
                if self.faulty():
                    order[0] = order[1]
                self.add(key, joined(order))
        if self.chance(0.5):
            self.draw_local_order()

    def draw_local_order(self):
        order = self.shuffled("prop", "comt", "diin", "sound", "dsti")
        prop, sound = order.index("prop"), order.index("sound")
        if prop > sound and not self.faulty():
            order[prop], order[sound] = order[sound], order[prop]
        if self.chance(0.15):
            order = [name for name in order if name in ("prop", "sound") or self.chance(0.7)]
        if self.faulty():
            order.append(self.random.choice(order))
        if self.faulty() and order:
            order.pop(self.random.randrange(len(order)))
        self.add("local_order", joined(order))

    def draw_properties(self):
        if self.chance(0.4):
            count = max(0, self.channels + self.pick(-1, 1)) if self.faulty() else self.channels
            numbers = self.random.sample(range(1000), count)
            if numbers and self.faulty():
                numbers[self.random.randrange(len(numbers))] = 1000
            if len(numbers) > 1 and self.faulty():
                numbers[0] = numbers[-1]
            self.add("channel_numbers", joined(numbers))
        if self.chance(0.3):
            self.add("unspecified_lsco", 1)
        if self.chance(0.3) and (not self.edited or self.faulty()):
            self.add("lsco", 0)
        if self.chance(0.4):
            last = LAST_FRAME_TIME - self.positions
            good = [0, 1, 74, 75, 4_499, 4_500, 270_000, 1_000_000, last]
            self.add("absolute_start", self.pick_unless_faulty(good, [last + 1, U32_MAX]))

    def draw_info(self):
        if self.edited:
            self.add("edited_master", 1)
        if self.chance(0.7):
            self.add("info", 1)
        if self.chance(0.5):
            self.add("emid", self.pick("1f", "4180", "7f") if self.faulty() else to_hex(self.plain_bytes(5)))
        if self.chance(0.25) and (not self.edited or self.faulty()):
            self.add("emid_written", 0)
        if self.chance(0.3) and (not self.edited or self.faulty()):
            self.draw_markers()

    def draw_markers(self):
        self.add("markers", "custom")
        for _ in range(self.random.randint(0, 4)):
            if self.faulty():
                frame = self.pick(max(0, self.first - 1), self.end + 1, U32_MAX)
            else:
                frame = self.random.randint(min(self.first, self.end), max(self.first, self.end))
            text = self.plain_bytes(4)
            if self.chance(0.1 + self.fault):
                text += bytes([self.pick(0x7F, 0x9F, 0xA0, 0xFF, 0x41, 0x41)])
            kind = self.pick(0, 1, 2, 4)
            self.add("marker", frame, kind, self.pick(0, 1, 65_535), to_hex(text))

    def draw_texts(self):
        for key in ("source_track_markers", "clipped_program", "text_pad_counted", "empty_text"):
            if self.chance(0.45):
                self.add(key, 1)
        if self.chance(0.4):
            self.add("marker_text", "title")
        for tag in ("title", "performer", "album", "album_artist"):
            if self.chance(0.6):
                self.add("tag", tag, self.text())
        if self.chance(0.7):
            self.add("artist_title", self.pick("on", "on", "off", "unset"))
        if self.chance(0.6):
            self.add("artist_title_source", self.pick("album", "track", "track_then_album"))

    def draw_comments(self):
        references = {1: self.channels, 2: 2, 3: 4}
        limits = [65_535, 12, 31, 23, 59]
        for _ in range(self.pick(0, 0, 0, 1, 2, 3)):
            date = [self.random.randint(0, limit) for limit in limits]
            if self.faulty():
                place = self.random.randint(1, 4)
                date[place] = limits[place] + 1
            kind = self.random.randint(0, 3)
            reference = self.random.randint(0, references.get(kind, 9))
            if self.faulty() and kind != 0:
                reference = references[kind] + 1
            self.add("comment", *date, kind, reference, self.text())

    def draw_rest(self):
        if self.chance(0.5):
            self.add("replacement", self.pick_unless_faulty(["none", 32, 126, 95], [31, 127, 255]))
        if self.chance(0.3):
            self.add("empty_info", 0)
        if self.chance(0.5):
            self.add("departures", self.pick("-", "d1", "d2", "d1,d2", "d2,d1"))
        for _ in range(self.pick(0, 0, 1, 2)):
            name = self.pick(b"ABCD", b"ID3 ", b"    ", b"A   ", b"MARK", b"~!~!")
            if self.faulty():
                name = self.pick(b"FVER", b"DST ", b"A BC", b"\x7fABC", b"MANF")
            data = self.random.randbytes(self.random.randint(0, 5))
            self.add("caller", name.hex(), to_hex(data))
        self.add("seed", self.random.randint(0, 300))

    # Reads and queries

    def draw_asks(self):
        frame = self.channels * 4_704
        for _ in range(self.random.randint(0, 4)):
            if self.dst:
                offset = self.random.randint(0, 900)
                length = self.pick(0, 1, 5, 12, 16, 30, 100, 1_500)
            else:
                near = self.random.randint(0, 700)
                far = frame * self.random.randint(0, 3) + self.random.randint(0, 600)
                offset = self.pick(near, far)
                length = self.pick(0, 1, 5, 100, 600, max(0, frame - 1), frame)
            self.add("query", offset, length)
            if length < 1_000:
                self.add("read", offset, length)


def random_cases(seed, count):
    """{name: lines}"""
    random = Random(seed)
    return {f"rnd-{number:05}": RandomCase(random).lines for number in range(count)}
