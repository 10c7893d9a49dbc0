#!/usr/bin/env bash
# Compiles each header of include/ alone and twice in one file, and a file that uses all that dvs.h names, in every version
# of C and C++ that a host may use, with every compiler that is here. In C an ignored answer must have a warning, of every call.
set -euo pipefail
cd "$(dirname "${BASH_SOURCE[0]}")/../.."
flags="-fsyntax-only -Wall -Wextra -Wpedantic -Werror -I include"
count=0

try() { # compiler language version header
  printf '#include "%s"\n' "$4" "$4" | "$1" -x "$2" -std="$3" $flags -
  count=$((count + 1))
}

use() { # compiler language version
  "$1" -x "$2" -std="$3" $flags tests/outside/header_use.c
  count=$((count + 1))
}

# Every call of dvs.h, a line each, with its answer ignored.
calls=$(tr '\n' ' ' < include/dvs.h | grep -oE '\buint(32|64)_t dvs_[a-z_]+\([^)]*\)[ A-Z_]*;' |
  sed -E 's/^[a-z0-9_]+ ([a-z_]+\(.*\)).*/\1;/; s/\(void\)/()/; s/([(,])[^(),]+/\10/g')

warns() { # compiler version
  local said
  said=$(printf '#include "dvs.h"\nvoid ignore(void);\nvoid ignore(void) {\n%s\n}\n' "$calls" |
    "$1" -x c -std="$2" -S -o /dev/null -Wall -I include - 2>&1) || { echo "$said"; exit 1; }
  [ "$(grep -c Wunused-result <<< "$said")" = "$(wc -l <<< "$calls")" ] ||
    { echo "$1, $2: a call whose answer is ignored has no warning"; echo "$said"; exit 1; }
  count=$((count + 1))
}

for compilers in "gcc g++" "clang clang++"; do
  read -r c cxx <<< "$compilers"
  command -v "$c" "$cxx" > /dev/null || { echo "no $c here"; continue; }
  for version in c99 c11 c17; do
    for header in dvs_layout.h dvs_refusals.h dvs.h; do try "$c" c $version $header; done
    use "$c" c $version
    warns "$c" $version
  done
  for version in c++17 c++20; do
    use "$cxx" c++ $version
    for header in dvs_layout.h dvs_refusals.h dvs.h dvs_refusals.hpp dvs_types.hpp dvs_lines.hpp dvs_saved.hpp dvs.hpp; do try "$cxx" c++ $version $header; done
  done
done
echo "$count compilations"
