#!/usr/bin/env bash
# Does the differential program notice mistakes? For each line of mutants.txt the plain evaluator is built with that one mistake as the library
# under test, and the program has to find a difference. `mutants.sh WORD` tries only the lines that hold WORD, and
# `mutants.sh '' FILE` those of another file. Names those that got away, and ends with status 1 if there are any.
set -euo pipefail
cd "$(dirname "$0")"
here=$PWD
work=$(realpath -m "${CARGO_TARGET_DIR:-target}/mutants")
mkdir -p "$work/plain" "$work/lib"

# The stand-in, from the sources in $work/plain.
build() {
    (cd "$work/plain" && cargo build --release --quiet -j1 --features stand_in --target-dir "$work/target") &&
        cp "$work/target/release/libplain.a" "$work/lib/libhuqabo_c.a" &&
        HUQABO_LIB_DIR="$work/lib" HUQABO_LIB=huqabo_c cargo build --release --quiet -j1 --target-dir "$work/differential"
}

tried=0 escaped=0
while IFS='~' read -r file old new; do
    [[ -z $file || $file == \#* || "$file~$old~$new" != *"${1:-}"* ]] && continue
    cp -r "$here/../plain/src" "$here/../plain/Cargo.toml" "$work/plain/"
    OLD=$old NEW=$new perl -0pi -e 's/\Q$ENV{OLD}\E/$ENV{NEW}/' "$work/plain/src/$file"
    tried=$((tried + 1))
    if cmp -s "$here/../plain/src/$file" "$work/plain/src/$file"; then
        echo "no such text: $file: $old"
        escaped=$((escaped + 1))
    elif ! build; then
        echo "does not build: $file: $old -> $new"
        escaped=$((escaped + 1))
    elif "$work/differential/release/differential" "${THOUSANDS:-8}" >"$work/told" 2>&1; then
        echo "not noticed: $file: $old -> $new"
        escaped=$((escaped + 1))
    else
        echo "noticed by $(grep -m1 '^seed' "$work/told" || tail -1 "$work/told"): $file: $old -> $new"
    fi
done < "${2:-mutants.txt}"
echo "$tried mistakes, $escaped not noticed"
[[ $tried -gt 0 && $escaped -eq 0 ]]
