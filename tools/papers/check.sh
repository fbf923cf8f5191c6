#!/usr/bin/env bash
# Holds the papers and the public promises to the files: what the scripts here list is printed, and the exit status is 1 if anything is.
cd "$(dirname "$0")/../.." || exit 2
if ! command -v python3 >/dev/null; then
    echo "tools/papers: skipped, there is no python3"
    exit 0
fi
status=0
python3 tools/papers/promises.py || status=1
python3 tools/papers/names.py || status=1
python3 tools/papers/requires.py || status=1
python3 tools/papers/wrong_programs.py --check || status=1
python3 tools/papers/reading.py --check || status=1
python3 tools/papers/map.py || status=1
python3 tools/papers/links.py || status=1
python3 tools/papers/manifest.py || status=1
exit $status
