"""Running the readers."""

import shutil
import subprocess

# The programs, and the Debian packages that have them.
PACKAGES = {
    "ffmpeg": "ffmpeg",
    "ffprobe": "ffmpeg",
    "mediainfo": "mediainfo",
    "wavpack": "wavpack",
    "wvunpack": "wavpack",
}


def missing():
    """The packages that are not there."""
    packages = {package for program, package in PACKAGES.items() if shutil.which(program) is None}
    try:
        import mutagen.dsdiff  # noqa: F401
    except ImportError:
        packages.add("python3-mutagen")
    return sorted(packages)


def run(*command):
    """Status, output and errors of a program."""
    done = subprocess.run([str(part) for part in command], stdin=subprocess.DEVNULL, capture_output=True, check=False)
    return done.returncode, done.stdout, done.stderr


def versions():
    """What the programs print of themselves."""
    import mutagen

    lines = [run("ffmpeg", "-version")[1].decode().splitlines()[0].split(" Copyright")[0]]
    lines.append(" ".join(run("mediainfo", "--version")[1].decode().split()))
    lines.append(", ".join(run("wavpack", "--version")[1].decode().split("\n")).strip(", "))
    lines.append(f"mutagen {mutagen.version_string}")
    return lines
