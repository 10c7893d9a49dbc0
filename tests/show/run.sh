#!/usr/bin/env bash
# Runs a dvs-show on the books that a build of situations.cpp writes, and compares what it says, and its exit statuses, with expected.txt. No book may change.
#
#     tests/show/run.sh SITUATIONS DVS_SHOW            both by their whole paths
set -euo pipefail
expected=$(cd "$(dirname "${BASH_SOURCE[0]}")" && pwd)/expected.txt
work=$(mktemp -d)
trap 'rm -rf "$work"' EXIT
mkdir "$work/books"
cd "$work/books"
"$1"
cksum -- * > ../before

show() { # program, books
  local status=0
  echo "--- dvs-show ${*:2}"
  LC_ALL=C "$@" 2>&1 || status=$?
  echo "exit status $status"
}
{
  for book in fresh outside infos half failed registrations registered-by-all last-open-view too-many-open safe tolds raw \
    damaged cut cut-to-a-book longer other-layout unsound raw-unsound text empty missing .; do
    show "$2" "$book"
  done
  show "$2"
  show "$2" --help
  show "$2" missing raw
} > ../said
diff "$expected" ../said
cksum -- * | diff ../before -
