#!/usr/bin/env bash
# Installs the library to a folder of its own and links against it by pkg-config alone: the wrapper's cases and the first example, with every compiler
# here, in C++17 and C++20, with all warnings and sanitizers; the other examples, by one of them; the C header in a C99 program; the archive in a shared
# object; and the first example by CMake, where it is here. What must not compile, and what must end a program, is tried too. So is dvs-show, as it is
# installed and as every compiler makes it.
set -euo pipefail
cd "$(dirname "${BASH_SOURCE[0]}")/../.."
work=$(mktemp -d)
trap 'rm -rf "$work"' EXIT

make --no-print-directory install DESTDIR="$work/root" PREFIX=/opt/dvs > "$work/log" || { cat "$work/log"; exit 1; }
export PKG_CONFIG_PATH="$work/root/opt/dvs/lib/pkgconfig" PKG_CONFIG_SYSROOT_DIR="$work/root"
read -ra cflags <<< "$(pkg-config --cflags dvs)"
read -ra libs <<< "$(pkg-config --libs dvs)"
fails() { # a command that must not succeed
  ! "$@" || { echo "not refused: $*"; exit 1; }
}
warnings=(-Wall -Wextra -Wpedantic -Wconversion -Wshadow -Werror)

"${CC:-cc}" -std=c99 "${warnings[@]}" "${cflags[@]}" -o "$work/c99" tests/wrapper/c99.c "${libs[@]}"
"$work/c99"
"${CC:-cc}" -std=c99 -fPIC -shared -Wl,-z,text "${warnings[@]}" "${cflags[@]}" -o "$work/libhost.so" tests/wrapper/shared.c "${libs[@]}"
"${CC:-cc}" -std=c99 -DSHARED "${warnings[@]}" "${cflags[@]}" -o "$work/c99" tests/wrapper/c99.c -L"$work" -lhost "${libs[@]}"
LD_LIBRARY_PATH="$work" "$work/c99"
for name in HOST LAYOUT REFUSALS SPEC; do
  [ ! -e "docs/$name.md" ] || cmp "docs/$name.md" "$work/root/opt/dvs/share/doc/dvs/$name.md"
done

# Below C++17 the wrapper says what it needs.
for header in dvs.hpp dvs_types.hpp; do
  printf '#include <%s>\n' "$header" > "$work/old.cpp"
  fails "${CXX:-c++}" -std=c++14 -fsyntax-only "${cflags[@]}" "$work/old.cpp" 2> "$work/log"
  grep -q 'need C++17 or newer' "$work/log"
done

# By CMake: the version of this installation is found, its minor version too; a later patch, minor or major version is not.
if command -v cmake > /dev/null; then
  find() { # version
    cmake -S tests/wrapper/package -B "$work/cmake-$1" -DWANTED="$1" -DCMAKE_PREFIX_PATH="$work/root/opt/dvs" \
      -DFIRST="$PWD/examples/first/first.cpp" > "$work/log" 2>&1
  }
  version=$(pkg-config --modversion dvs)
  IFS=. read -r major minor patch <<< "$version"
  find "$version" && cmake --build "$work/cmake-$version" >> "$work/log" 2>&1 || { cat "$work/log"; exit 1; }
  "$work/cmake-$version/first" | diff examples/first/expected.txt -
  find "$major.$minor" || { cat "$work/log"; exit 1; }
  for later in "$major.$minor.$((patch + 1))" "$major.$((minor + 1))" "$((major + 1))"; do fails find "$later"; done
  echo "wrapper: CMake: as expected"
else
  echo "no cmake here: its package was not tried"
fi

# Parts compiled under C++17 and under C++20 stand in one program.
printf '#include <dvs.hpp>\nvoid other(dvs::Book &book) { (void)book.load(dvs::Bytes()); }\n' > "$work/other.cpp"
printf '#include <dvs.hpp>\nint main() { dvs::Book book; return book.load(dvs::Bytes()).accepted() ? 1 : 0; }\n' > "$work/part.cpp"
"${CXX:-c++}" -std=c++17 "${cflags[@]}" -c -o "$work/other.o" "$work/other.cpp"
"${CXX:-c++}" -std=c++20 "${cflags[@]}" -o "$work/parts" "$work/part.cpp" "$work/other.o" "${libs[@]}"
"$work/parts"

# Of misuse.cpp the compiler refuses the lines that say so, each by an error that matches the line's pattern, and nothing else.
misuse=tests/wrapper/misuse.cpp
refuses() { # compiler and flags
  sed '/\/\/ refused: /d' "$misuse" > "$work/right.cpp"
  "$@" -fsyntax-only "$work/right.cpp"
  local all=()
  [[ $1 != clang* ]] || all=(-ferror-limit=0) # it gives up after some errors
  fails "$@" "${all[@]}" -fsyntax-only "$misuse" 2> "$work/log"
  grep -n '' "$misuse" | sed -nE 's|^([0-9]+):.*// refused: (.*)$|\1 \2|p' > "$work/wanted"
  [ -s "$work/wanted" ]
  while read -r line pattern; do
    grep -qE "^$misuse:$line:[0-9]+: error: .*($pattern)" "$work/log" ||
      { echo "$*: $misuse:$line is not refused by '$pattern':"; cat "$work/log"; exit 1; }
  done < "$work/wanted"
  sed -nE 's|^([^ ]+:[0-9]+):[0-9]+: (fatal )?error: .*|\1|p' "$work/log" | sort -u > "$work/errors"
  [ "$(wc -l < "$work/errors")" = "$(wc -l < "$work/wanted")" ] || { echo "$*: more is refused than $misuse says:"; cat "$work/log"; exit 1; }
}

# The value of a refused call ends the program by an assert, however it is taken; with NDEBUG it does not.
aborts() { # compiler and flags
  "$@" -o "$work/unaccepted" tests/wrapper/unaccepted.cpp "${libs[@]}"
  "$@" -DNDEBUG -o "$work/unasserted" tests/wrapper/unaccepted.cpp "${libs[@]}"
  "$work/unaccepted" none
  for way in value star arrow "moved value" "moved star"; do
    "$work/unasserted" "$way"
    local status=0
    { (ulimit -c 0; exec "$work/unaccepted" "$way") || status=$?; } 2> "$work/log"
    [ "$status" = 134 ] && grep -q 'the value of a refused call' "$work/log" ||
      { echo "$*: '$way' of a refused call: status $status"; cat "$work/log"; exit 1; }
  done
}

# dvs-show, which is a program in C++17, as this compiler makes it and as it is installed.
shows() { # compiler and flags
  "$@" -o "$work/situations" tests/show/situations.cpp "${libs[@]}"
  "$@" -o "$work/dvs-show" tools/dvs-show.cpp "${libs[@]}"
  local program
  for program in "$work/dvs-show" "$work/root/opt/dvs/bin/dvs-show"; do tests/show/run.sh "$work/situations" "$program"; done
}

# Scripts of the bench without an unreadable line: together they have every word of its replies.
scripts=(tests/scripts/{readme-session,trap-safe-in-every-hand,split-and-merge,views-pass-and-fail})

compilers=()
for compiler in g++ clang++; do ! command -v "$compiler" > /dev/null || compilers+=("$compiler"); done
for compiler in "${compilers[@]}"; do
  for standard in 17 20; do
    flags=(-std=c++"$standard" -O1 -g "${warnings[@]}" "${cflags[@]}" -fsanitize=address,undefined -fno-sanitize-recover=all)
    "$compiler" "${flags[@]}" -fno-exceptions -fno-rtti -o "$work/wrapper" tests/wrapper/wrapper.cpp "${libs[@]}"
    "$work/wrapper" > "$work/out"
    "$compiler" "${flags[@]}" -fno-exceptions -fno-rtti -o "$work/saved" tests/wrapper/saved.cpp "${libs[@]}"
    "$work/saved" >> "$work/out"
    "$compiler" "${flags[@]}" -fno-exceptions -fno-rtti -o "$work/lines" tests/wrapper/lines.cpp "${libs[@]}"
    "$work/lines" "${scripts[@]}" >> "$work/out"
    "$compiler" "${flags[@]}" -fno-exceptions -fno-rtti -o "$work/crossing" tests/wrapper/crossing.cpp "${libs[@]}"
    "$work/crossing" >> "$work/out"
    [ "$standard" != 17 ] || shows "$compiler" "${flags[@]}"
    "$compiler" "${flags[@]}" -o "$work/first" examples/first/first.cpp "${libs[@]}"
    "$work/first" | diff examples/first/expected.txt -
    # The other examples take long to compile. They are run with sanitizers in C++17 by one compiler; in C++20 the last one compiles them and no more.
    kept=(-Iexamples/kept examples/kept/*.cpp tests/kept/*.cpp)
    if [ "$compiler$standard" = "${compilers[0]}17" ]; then
      "$compiler" "${flags[@]}" -o "$work/offices" examples/offices/*.cpp "${libs[@]}"
      "$work/offices" | diff examples/offices/expected.txt -
      "$compiler" "${flags[@]}" -o "$work/trace" examples/trace/*.cpp "${libs[@]}"
      "$work/trace" '{1,3}' examples/trace/story.txt "$work/trace.svg" | diff examples/trace/expected.txt -
      diff examples/trace/expected.svg "$work/trace.svg"
      "$compiler" "${flags[@]}" -o "$work/kept" "${kept[@]}" "${libs[@]}"
      "$work/kept" disk "$work/kept-files" 2> "$work/log" || { cat "$work/log"; exit 1; }
      { "$work/kept" kills "$work/kept-files" 20 1 2> "$work/log" || { cat "$work/log" >&2; false; }; } | python3 tests/figure1/figure1.py --final - > /dev/null
    elif [ "$compiler$standard" = "${compilers[-1]}20" ]; then
      "$compiler" -std=c++"$standard" "${warnings[@]}" "${cflags[@]}" -fsyntax-only examples/offices/*.cpp examples/trace/*.cpp "${kept[@]}"
    fi
    refuses "$compiler" -std=c++"$standard" "${warnings[@]}" "${cflags[@]}"
    aborts "$compiler" -std=c++"$standard" "${warnings[@]}" "${cflags[@]}"
    echo "wrapper: $compiler, C++$standard: as expected"
  done
done
