#!/usr/bin/env bash
# Stops and kills the offices of examples/kept, and lets tests/figure1 judge their public histories. Offices that break the rule must be refused.
#
#     tests/kept/kept.sh PROGRAM
set -euo pipefail
cd "$(dirname "${BASH_SOURCE[0]}")/../.."
kept=$1

# Most offices keep their files in memory: a sync tells nothing of a process that is killed, and takes a hundred times as long on a disk. The power cuts
# are played, by what is synced and what is not. Some offices keep them on a disk all the same.
disk=$(mktemp -d)
memory=$(mktemp -d -p /dev/shm 2> /dev/null || mktemp -d)
trap 'rm -rf "$disk" "$memory"' EXIT
judge() { python3 tests/figure1/figure1.py --final -; }

python3 tests/figure1/cases.py
"$kept" disk "$disk/disk"
"$kept" stops "$memory/stops" | judge
"$kept" kills "$memory/kills" 1000 1 | judge
"$kept" kills "$disk/kills" 100 2 | judge

# The first refused event ends the run; so many kills are never needed.
for care in hasty silent seldom unsynced; do
  answer=$({ "$kept" kills "$memory/$care" 3000 1 "$care" 2> /dev/null || true; } | judge 2>&1) && { echo "not refused: $care: $answer"; exit 1; }
  [[ $answer == *": refused: "* ]] || { echo "$care: $answer"; exit 1; }
  echo "kept: $care offices: ${answer#-:}"
done
