#!/usr/bin/env bash
# compare.sh FIRST SECOND: compares two machine sheets. A file whose name ends in .txt is text: decimal words, blanks, `#` comments; any
# other is 16-bit words, low byte first.
# Each file is checked by itself first. One that is no accepted machine sheet is named, `FILE: refused Q S`, with the refusing question's
# number and 1 for the only sheet, or 0 0 for an odd number of bytes or too many, and then the same in words; the exit status is 1.
# Of two accepted sheets it prints `equal`, `unequal`, or `refused Q S`, and then the same in words; where the two are unequal, the rule
# that tells them apart, as a sentence and line by line. What is wrong with a text goes to standard error as `FILE: line L, column C: ..`, and the exit
# status is 1.
set -eu
if [ $# -ne 2 ]; then
  echo "usage: compare.sh FIRST SECOND" >&2
  exit 2
fi
here=$(cd "$(dirname "$0")" && pwd)
for program in sheet compare explain; do
  if [ ! -x "$here/target/bin/$program" ]; then
    bash "$here/build.sh" "$program" >&2
  fi
done
work=$(mktemp -d)
trap 'rm -rf "$work"' EXIT
bytes_of() { # FILE OUT
  case "$1" in
    *.txt)
      "$here/target/bin/sheet" bytes < "$1" > "$2" 2> "$work/fault" || true
      if [ -s "$work/fault" ]; then
        echo "$1: $(cat "$work/fault")" >&2
        exit 1
      fi
      ;;
    *) cat -- "$1" > "$2" ;;
  esac
}
accepted() { # FILE BYTES
  told=$("$here/target/bin/sheet" machine < "$2")
  if [ "$told" != accepted ]; then
    printf '%s: %s\n' "$1" "$told"
    exit 1
  fi
}
bytes_of "$1" "$work/first"
bytes_of "$2" "$work/second"
accepted "$1" "$work/first"
accepted "$2" "$work/second"
# The programs cut their input where the first sheet's header says that it ends. The first is accepted, so that is its end.
cat "$work/first" "$work/second" > "$work/sheets"
"$here/target/bin/compare" < "$work/sheets"
"$here/target/bin/explain" < "$work/sheets"
