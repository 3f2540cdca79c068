#!/usr/bin/env bash
# Builds one of the measuring programs in a clone of this repository, after its proof, and runs it:
#   bench/measure.sh table_times [WORD..]
# or makes it by tools/build_unproved, to compare before anything is proved:
#   bench/measure.sh --unproved table_times [WORD..]
# Its sources lie in bench/NAME with `.txt` after their names, since only a crate may hold sources.
set -e
unproved=
if [ "$1" = --unproved ]; then
    unproved=yes
    shift
fi
name=$1
shift
here=$(cd "$(dirname "$0")" && pwd)
# What `./nanocube` sets.
export GLIBC_TUNABLES="${GLIBC_TUNABLES:-$(<"$here/../tools/glibc_tunables")}"
copy=$(mktemp -d)
git clone -q "$here/.." "$copy/clone"
cd "$copy/clone"
rt new "crates/$name" start_io >/dev/null
rm -rf "crates/$name"/{src,specs,proofs,stdin,stdout}
mkdir -p "crates/$name"/{src,specs,proofs}
: >"crates/$name/specs/Lib.antt"
: >"crates/$name/proofs/Lib.antt"
cp "$here/$name/main.rt.txt" "crates/$name/src/main.rt"
(cd "$here/$name" && find . -path './proofs/*' -name '*.antt.txt') | while read -r file; do
    mkdir -p "crates/$name/$(dirname "$file")"
    cp "$here/$name/$file" "crates/$name/${file%.txt}"
done
echo "$name: $(cat "$here/$name/stands_on")" >>crates.txt
if [ -n "$unproved" ]; then
    "$here/../tools/build_unproved" "$copy/clone" "$copy/$name" "$name"
    exec "$copy/$name" "$@"
fi
cd "crates/$name"
exec rt run -- "$@"
