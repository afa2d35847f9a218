#!/usr/bin/env bash
# Usage: tests/site/lint.sh [TOOL [FILE ..]]: checks the types of bacsite with mypy, its style with pylint, and its
# pages in Chromium; or uses only one of these tools, on the package or on some files. It says what is not installed.
set -euo pipefail
cd "$(dirname "$0")/../../site"
only=${1-}
files=("${@:2}")
[ "${#files[@]}" -gt 0 ] || files=(bacsite)

# looks TOOL WORD ..: runs the tool over the files, if it is installed and wanted.
looks() {
    if [ -n "$only" ] && [ "$only" != "$1" ]; then
        return
    elif command -v "$1" >/dev/null; then
        "$@" "${files[@]}"
        echo "tests/site/lint.sh: $(find "${files[@]}" -name '*.py' | wc -l) files without a fault by $1"
    else
        echo "tests/site/lint.sh: $1 is not installed, left out"
    fi
}

looks mypy --config-file pyproject.toml --cache-dir ../out/mypy --no-error-summary
looks pylint --rcfile pyproject.toml --persistent n --score n
[ -n "$only" ] || python3 ../tests/site/browser.py
