#!/usr/bin/env bash
# Puts one fault after another into the library's calls and asks the test from outside to report each.
# Its argument is the test linked with wrong.cpp. Without a fault that program must find nothing.
set -uo pipefail
cd "$(dirname "${BASH_SOURCE[0]}")/../.."
ulimit -c 0
program=$1
failed=0 reported=0
"$program" fuzz 1 1 > /dev/null || { echo "a difference without a fault"; exit 1; }

try() { # function fault range
  # The braces keep the shell's own word about a signal away.
  { WRONG_FUNCTION=$1 WRONG_FAULT=$2 WRONG_RANGE=$3 "$program" short 1 > "$program.log" 2>&1; } 2> /dev/null
  local status=$?
  # A write outside is stopped by a signal; any other fault is printed, of the function that has it and of no longer name.
  if [ "$2" = outside ] && [ $status -gt 128 ] || grep -qw "^DIFFERENCE in $1" "$program.log"; then
    reported=$((reported + 1))
  else
    echo "NOT REPORTED: $1 $2 in range $3 (status $status)"
    failed=1
  fi
}

# Every function of the header, with the number of ranges that it may write: those that are not const.
functions() {
  sed -nE '/^uint(32|64)_t dvs_/,/;/p' include/dvs.h | tr '\n' ' ' | grep -oE 'uint(32|64)_t dvs_[a-z_]*\([^)]*\)' | while IFS='(' read -r name parameters; do
    echo "${name#* }" "$(tr ',' '\n' <<< "$parameters" | grep -c '^ *uint8_t \*')"
  done
}

while read -r function ranges; do
  try "$function" answer 0
  for range in $(seq 0 $((ranges - 1))); do
    for fault in accepted refused outside; do try "$function" $fault "$range"; done
  done
done < <(functions)
# Other drivers, lists of steps, packets, deliveries, fronts, queries and marks: the right one passes as the library's does, and of each other one it is seen what is wrong with it.
while read -r function fault; do
  if [ "${fault#*-}" != right ]; then
    try "$function" "$fault" 0
  elif ! WRONG_FUNCTION=$function WRONG_FAULT=$fault "$program" short 1 > "$program.log" 2>&1; then
    echo "REPORTED: $function $fault"
    failed=1
  fi
done < <(sed -nE 's|^//   (driver-[a-z0-9-]+) .*|dvs_group_form \1|p' tests/strength/wrong_driver.hpp
         sed -nE 's|^//   (dvs_[a-z_]+): ([a-z0-9-]+) .*|\1 \2|p' tests/strength/wrong_{list,packet,queries,marks}.hpp)
echo "$reported faults reported"
[ $reported -gt 0 ] && exit $failed
