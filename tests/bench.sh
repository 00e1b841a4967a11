#!/usr/bin/env bash
# The benchmark: each call's time beside the twin's, and its stack. It is no part of the gate.
# BENCH_ARCHIVE names another archive for x86-64; BENCH_OBJECT an object or archive for this very machine, which is then linked and run natively.
set -u
cd "$(dirname "$0")/.." || exit 1
. tests/lib.sh
need_c

out=target/tests
flags="-std=c99 -Wall -Wextra -Werror -pedantic -O2 -ffp-contract=off"
twin=$(echo tests/twin/{packs,measure,terms,house,grid,linked,shelf,lists,calls}.c)
sources=$(echo tests/bench.c tests/boundary/{drafts,ties,orderings,halves,shapes,extremes,grids,numbers,calls,lent}.c $twin)
machine="$(uname -m), $(nproc) processors$(sed -n 's/^model name[^:]*: */, /p' /proc/cpuinfo | head -n 1)"
mkdir -p "$out" || exit 1

if [ -n "${BENCH_OBJECT:-}" ]; then
  gcc $flags $sources "$BENCH_OBJECT" -o "$out/bench" && "$out/bench" "$machine: natively, $BENCH_OBJECT"
else
  make_archive || exit 1
  where="natively"
  on_x86 || where="under the emulator qemu-x86_64"
  cc_x86 $flags $sources "$archive" -o "$out/bench" && run_x86 "$out/bench" "$machine: $where, $archive"
fi
