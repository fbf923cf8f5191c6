"""The intended differences: where document 01 wants another answer than the original Rust gives."""

import re
from typing import NamedTuple


class Intended(NamedTuple):
    """One kind of difference, among the chosen cases whose names begin with `names`."""

    names: str
    model: str  # document 01's answer, a regular expression for the whole line
    rust: str  # the original's answer, a regular expression for the line's beginning
    count: int  # how many answers differ so; fewer or more is a fault too
    reason: str

    def covers(self, name, model_line, rust_line):
        return (
            name.startswith(self.names)
            and re.fullmatch(self.model, model_line) is not None
            and re.match(self.rust, rust_line) is not None
        )


READ_REFUSED = r"read \d+ \d+ (ee)+ refused 43 0"

INTENDED = (
    Intended(
        "r01-",
        r"refused 1 0",
        r"accepted ",
        24,
        "1: the Rust has no limits on texts, tracks, markers and caller chunks.",
    ),
    Intended(
        "r01-edited-tracks-65536",
        r"refused 1 0",
        r"refused 17 0 ",
        1,
        "1: more than 65,535 tracks of an edited master are a wrong track count (17) in the Rust.",
    ),
    Intended(
        "r06-",
        r"refused 6 0",
        r"accepted ",
        4,
        "6: the Rust takes every playtime that its time code can hold, up to 1,166,880.",
    ),
    Intended(
        "r06-edited-last-ends-1152000",
        r"refused 6 0",
        r"refused 20 0 ",
        1,
        "6: without check 6 the Rust goes on to the last track's end (20).",
    ),
    Intended(
        "r06-playtime-1166881-driver",
        r"refused 6 0",
        r"panic playtime up to 1166880",
        1,
        "6: no time code holds this playtime; the panic is the harness's own and shows nothing of the Rust.",
    ),
    Intended(
        "r42-none-in-rust-many-positions",
        r"refused 6 0",
        r"accepted ",
        1,
        "6, 42: the Rust builds, reads and queries a file of more than 1,151,999 positions.",
    ),
    Intended(
        "rd-",
        READ_REFUSED,
        r"read \d+ \d+ [0-9a-f]+ filled \d+$",
        12,
        "43: the Rust notices a wrong frame only when a byte of it is wanted, document 01 when its unit is touched.",
    ),
    Intended(
        "rd-",
        READ_REFUSED,
        r"read \d+ \d+ [0-9a-f]+ refused 43 0 ",
        9,
        "43: the Rust has written the bytes before the wrong frame, document 01 alters nothing.",
    ),
)
