#!/bin/sh
# Compares crates/listing/out/listing with the finder in plain Rust: sh bench/run.sh [MIB], in the repository's root.
# MIB is the size of each recording in mebibytes, 64 if it is not given. What is built and made goes to target/bench/.
# Ends with status 1 if the two programs print different lists, and with 2 if something that it needs is not there or a
# program fails.
set -eu

mib=${1:-64}
case $mib in
    0* | *[!0-9]*)
        echo "usage: sh bench/run.sh [MIB]" >&2
        exit 2
        ;;
esac
if [ ! -f bench/finder.rs ]; then
    echo "run it in the repository's root: sh bench/run.sh [MIB]" >&2
    exit 2
fi
if [ ! -x crates/listing/out/listing ]; then
    echo "crates/listing/out/listing is not there: build it by (cd crates/listing && rt run < stdin)" >&2
    exit 2
fi

# The processor is named because it settles which instructions the compiler may use; it is the one that the kit builds for.
mkdir -p target/bench
rustc -C opt-level=3 -C target-cpu=x86-64-v2 -o target/bench/finder bench/finder.rs

# So that Python leaves nothing beside its files.
PYTHONDONTWRITEBYTECODE=1
export PYTHONDONTWRITEBYTECODE
python3 bench/record.py "$mib" "target/bench/$mib"
exec python3 bench/compare.py crates/listing/out/listing target/bench/finder "target/bench/$mib"
