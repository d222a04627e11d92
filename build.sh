#!/usr/bin/env bash
# build.sh [PROGRAM ..]: builds the proved programs into target/bin; with no names all of them, and the static library into
# target/staticlib/libexports.a. Only proved code is built, and what is proved already is not proved again. A program is run once, on
# no input, since that is how it is linked.
set -eu
cd "$(dirname "$0")"
mkdir -p target/bin target/staticlib
if [ $# -eq 0 ]; then
  (cd crates/exports_c && rt lib)
  cp crates/exports_c/out/libexports_c.a target/staticlib/libexports.a
  set -- compare explain label path sheet
fi
for program in "$@"; do
  (cd "crates/$program" && rt run < /dev/null > /dev/null)
  cp "crates/$program/out/$program" target/bin/
done
