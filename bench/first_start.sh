#!/usr/bin/env bash
# Times the first start and the merge gate in a fresh clone, as on a machine where nothing was proved before: the folder
# in which `rt` keeps what it proved is covered by an empty one, in a mount namespace of this script's own, so nothing
# of the machine is removed. It wants root, and some 10 GB of disk under TMPDIR. Nothing else should run meanwhile.
# Usage: bench/first_start.sh [start] [gate]     both where none is named
. "$(dirname "$0")/measure.sh"
if [ -z "${FIRST_START_ALONE:-}" ]; then
  exec env FIRST_START_ALONE=1 unshare --mount "$0" "$@"
fi

kit=$(dirname "$(dirname "$(readlink -f "$(command -v rt)")")")
kept=$(dirname "$kit")/rattle-kept
work=$(mktemp -d)
trap 'umount "$kept" 2>/dev/null; rm -rf "$work"' EXIT
mkdir -p "$kept" "$work/kept"
mount --bind "$work/kept" "$kept" || exit 1
export XDG_CACHE_HOME=$work/cache

# a line with the clock
tell() { printf '%3d min %02d s  %s\n' $((SECONDS / 60)) $((SECONDS % 60)) "$1"; }

# the clock beside the lines that tell of progress
clocked() {
  SECONDS=0
  while IFS= read -r line; do
    case $line in
      specht:* | 'rt: '*proved* | *' passed, '*) tell "$line" ;;
    esac
  done
  tell 'in all'
}

# the most memory that was in use beyond what was in use at the start, in MB, until the file $work/watch is gone
watch_memory() {
  local free first most=0
  first=$(awk '/^MemAvailable/ { print int($2 / 1024) }' /proc/meminfo)
  while [ -e "$work/watch" ]; do
    free=$(awk '/^MemAvailable/ { print int($2 / 1024) }' /proc/meminfo)
    [ $((first - free)) -gt $most ] && most=$((first - free))
    sleep 1
  done
  echo "most memory at once: $most MB"
}

measured() {
  git clone -q "$top" "$work/clone" || exit 1
  touch "$work/watch"
  watch_memory &
  (cd "$work/clone" && "$@" 2>&1) | clocked
  rm "$work/watch"
  wait
  echo "disk: $(du -sm "$work" | cut -f1) MB"
  rm -rf "$work/clone" "$work/cache" "$work"/kept/*
}

[ $# -gt 0 ] || set -- start gate
for part in "$@"; do
  echo "== $part"
  case $part in
    start) measured ./specht examples/matrices.txt ;;
    gate) measured .ci/run ;;
    *) echo "no part of this name: $part" >&2; exit 1 ;;
  esac
done
