"""Gives the files of a folder to the readers, checks what they say, and prints a table:
    main.py [FOLDER]
Without a folder it only says which packages are missing.
Status: 0 nothing is unexplained, 1 something is, 2 something could not be run."""

import pathlib
import sys
import tempfile
import traceback

import ffmpeg
import layout
import mediainfo
import mediainfo_summary
import tags
import tools
import wavpack
from damage import DAMAGES
from given import Given
from outcome import FAULTS, LIMITS, Findings

COLUMNS = [
    layout.READER,
    ffmpeg.COPY,
    ffmpeg.PROBE,
    ffmpeg.DECODE,
    mediainfo.TRACE,
    mediainfo_summary.SUMMARY,
    wavpack.READER,
    tags.READER,
]


def examine(given, scratch):
    file = given.path.read_bytes()
    findings = Findings(given.name, len(file))
    form = layout.check(given, file, findings)
    if form is not None:
        ffmpeg.check(given, form, scratch, findings)
        mediainfo.check(given, form, findings)
        mediainfo_summary.check(given, findings)
        wavpack.check(given, form, scratch, findings)
        tags.check(given, form, findings)
    return findings


def main(folder):
    names = (folder / "files.txt").read_text().split()
    print("\n".join(tools.versions()) + "\n")
    print("| file | what | " + " | ".join(COLUMNS) + " |")
    print("|---" * (len(COLUMNS) + 2) + "|")
    every = []
    with tempfile.TemporaryDirectory() as scratch:
        for name in names:
            given = Given(folder, name)
            findings = examine(given, pathlib.Path(scratch))
            every.append(findings)
            print(f"| {name} | {given['what']} | " + " | ".join(map(findings.cell, COLUMNS)) + " |", flush=True)
        unnoticed = damaged(folder, pathlib.Path(scratch))
    return max(summary(every), unnoticed)


def damaged(folder, scratch):
    """1 if a damage goes unnoticed."""
    print("\n| damage | to | noticed by |\n|---|---|---|")
    unnoticed = 0
    for what, name, damage in DAMAGES:
        given = Given(folder, name)
        file = damage(given.path.read_bytes())
        given.path = scratch / "damaged.dff"
        given.path.write_bytes(file)
        readers = {reader for reader, _ in examine(given, scratch).unexplained}
        unnoticed = unnoticed if readers else 1
        print(f"| {what} | {name} | {', '.join(sorted(readers)) or 'NOBODY'} |", flush=True)
    return unnoticed


def total(every, kind):
    """How often each number was met, and the files."""
    times, files = {}, {}
    for findings in every:
        for counts in getattr(findings, kind).values():
            for number, count in counts.items():
                times[number] = times.get(number, 0) + count
                files.setdefault(number, {})[findings.name] = findings.size
    return {number: (times[number], files[number]) for number in sorted(times)}


def summary(every):
    same, faults, limits = (total(every, kind) for kind in ("same", "faults", "limits"))
    unexplained = [(findings.name, *what) for findings in every for what in findings.unexplained]
    print()
    for texts, met in ((FAULTS, faults), (LIMITS, limits)):
        for number, (times, files) in met.items():
            smallest = min(files, key=files.get)
            counts = f"{times} times, {len(files)} files, the smallest {smallest}, {files[smallest]} bytes"
            print(f"{number}: {texts[number]} ({counts})")
    for name, reader, message in unexplained:
        print(f"UNEXPLAINED: {name}, {reader}: {message}")
    counts = [sum(times for times, _ in met.values()) for met in (same, faults, limits)]
    checks = sum(counts) + len(unexplained)
    print(f"\n{len(every)} files, {checks} checks: {counts[0]} the same, {counts[1]} known faults of readers, ", end="")
    print(f"{counts[2]} that a reader cannot, {len(unexplained)} unexplained")
    return 1 if unexplained else 0


def run(arguments):
    missing = tools.missing()
    if missing:
        print(f"missing; the Debian packages are: {' '.join(missing)}", file=sys.stderr)
        return 2
    return main(pathlib.Path(arguments[0])) if arguments else 0


if __name__ == "__main__":
    try:
        sys.exit(run(sys.argv[1:]))
    except Exception:
        traceback.print_exc()
        sys.exit(2)
