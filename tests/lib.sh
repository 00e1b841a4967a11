# What the scripts at the root and in tests/ share. They start at the repository's root.

# need COMMAND PACKAGE: installs Debian's PACKAGE where COMMAND is missing.
need() {
  command -v "$1" >/dev/null 2>&1 && return 0
  echo "$1 is missing: installing Debian's $2" >&2
  local as=
  [ "$(id -u)" = 0 ] || as=sudo
  { $as apt-get update -qq && $as env DEBIAN_FRONTEND=noninteractive apt-get install -y -qq "$2"; } >/dev/null \
    || { echo "could not install $2: install it by hand and start again" >&2; exit 1; }
}

# The prover cannot be installed from Debian: say so instead of failing later.
need_prover() {
  command -v rt >/dev/null 2>&1 && return 0
  echo "rt, the Rattle toolchain's command, is not on the PATH: the proofs cannot be checked without it" >&2
  exit 1
}

# The library's archive and the programs are for x86-64. There they are linked and run as they are; elsewhere with a cross compiler, whose package brings
# the C library too, and an emulator.
on_x86() { [ "$(uname -m)" = x86_64 ]; }

need_x86() {
  on_x86 && return 0
  need x86_64-linux-gnu-gcc gcc-x86-64-linux-gnu
  need qemu-x86_64 qemu-user
}

need_c() {
  need gcc gcc
  need_x86
}

cc_x86() {
  if on_x86; then gcc "$@"; else x86_64-linux-gnu-gcc "$@"; fi
}

# Without erms: the emulator is slow at the string instructions that the C library would use for copying if it had them.
run_x86() {
  if on_x86; then "$@"; else qemu-x86_64 -cpu max,-erms -L /usr/x86_64-linux-gnu "$@"; fi
}

# made_from: a checksum of all that the library's archive and the programs are made from.
made_from() {
  { rt version && cat crates.txt && find crates/*/src crates/*/specs crates/*/proofs -type f | LC_ALL=C sort | xargs -d '\n' sha256sum; } 2>/dev/null | sha256sum
}

# is_made FILE: whether what `put` put there was made from what stands here now.
is_made() { [ -f "$1" ] && [ "$(cat "$1.of" 2>/dev/null)" = "$(made_from)" ]; }

# put MADE FILE OF: puts what the prover made at FILE, and beside it OF, what made_from was before.
put() { mkdir -p "$(dirname "$2")" && cp "$1" "$2" && echo "$3" >"$2.of"; }

# make_archive: says in `archive` where the library's archive is: BENCH_ARCHIVE if that is set, else what the prover writes. Writing takes half a minute
# or more, so it is done only where the archive is not of what stands here now.
make_archive() {
  local of
  archive=${BENCH_ARCHIVE:-target/staticlib/libbench.a}
  [ -n "${BENCH_ARCHIVE:-}" ] && return 0
  need_prover
  is_made "$archive" && return 0
  of=$(made_from)
  (cd crates/bench_c && rt lib) && put crates/bench_c/out/libbench_c.a "$archive" "$of"
}

# need_program NAME: proves the program NAME and what it rests on, and so builds target/bin/NAME. Where nothing changed that takes no time.
need_program() {
  local of
  need_prover
  need_x86
  mkdir -p target
  is_made "target/bin/$1" && return 0
  [ -f "target/bin/$1" ] || echo "proving the program $1 and what it rests on first; this takes some minutes" >&2
  of=$(made_from)
  (cd "crates/$1" && rt run <stdin) >target/need_program.log 2>&1 && put "crates/$1/out/$1" "target/bin/$1" "$of" && return 0
  cat target/need_program.log >&2
  exit 1
}

run_program() { run_x86 "target/bin/$1"; }
