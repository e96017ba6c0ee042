# shellcheck shell=bash
# What the measurements of this folder share. Each of them sources it.
set -u
top=$(cd "$(dirname "${BASH_SOURCE[0]}")/.." && pwd)

# builds each program that is named, where that is needed
build() {
  local program
  for program in "$@"; do
    "$top/$program" "$top/examples/first.txt" >/dev/null || exit 1
  done
}

# runs the Python of standard input with these arguments; it can import the modules of this folder
measure() { PYTHONDONTWRITEBYTECODE=1 PYTHONPATH=$top/bench python3 - "$@"; }
