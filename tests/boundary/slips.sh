#!/usr/bin/env bash
# Can the random tests fail? Each line of tests/boundary/slips is made in a copy of the twin, which then stands for the bench; the differential test
# has to find a mismatch within CALLS calls, or the test of drafts written in reverse within DRAFTS drafts. That one has to find a wrong turned.c too, with
# the twin as it is for the bench. The twin itself, in the bench's place, must pass both, also when undefined behaviour is trapped.
# No archive is tested here, so this needs neither the prover nor an emulator.
set -u
cd "$(dirname "$0")/../.." || exit 1
. tests/lib.sh
need gcc gcc

CALLS=70000 DRAFTS=4000
out=target/tests/slips
flags="-std=c99 -O1 -ffp-contract=off"
parts="packs measure terms house grid linked shelf lists calls"
passed=0 failed=0
good() { passed=$((passed + 1)); }
bad() { failed=$((failed + 1)); echo "FAILED  $1"; }

# The parts of both tests, and of each alone; their objects go to folders of these names.
both="drafts ties shapes extremes grids numbers"
differential="differential reached nines passes scenes calls orderings halves corrections shelves rows lists lent"
reversed="reversed met turned"

rm -rf "$out"
mkdir -p "$out"/{copy,whole,both,differential,reversed} || exit 1

# A copy of the twin under the bench's names.
as_bench() { sed 's/twin_/bench_/g' "$1" >"$2"; }

for header in parts twin; do as_bench tests/twin/$header.h "$out/copy/$header.h"; done
for part in $parts; do
  gcc $flags -c tests/twin/$part.c -o "$out/both/twin-$part.o" || exit 1
  as_bench tests/twin/$part.c "$out/copy/$part.c"
  gcc $flags -c "$out/copy/$part.c" -o "$out/whole/$part.o" || exit 1
done
for folder in both differential reversed; do
  for part in ${!folder}; do gcc $flags -Wall -Wextra -Werror -c tests/boundary/$part.c -o "$out/$folder/$part.o" || exit 1; done
done

# try FILE WHAT EDIT [end|start|reversed]: the test must end with 1 and name a mismatch. What is compiled for so few calls is not optimised.
try() {
  local from=tests/twin/$1 own=$out/whole/${1%.c}.o what=$2 edit=$3 lie=$4 test=differential count=$CALLS slip=$out/copy/slip.c objects= object
  if [ "$1" = turned.c ]; then from=tests/boundary/$1 own=$out/reversed/turned.o; fi
  if [ "$lie" = reversed ]; then test=reversed count=$DRAFTS lie=; fi
  sed "$edit" "$from" >"$out/slip.txt"
  if cmp -s "$out/slip.txt" "$from"; then bad "$what: its edit changes nothing in $1"; return; fi
  if [ "$1" = turned.c ]; then cp "$out/slip.txt" "$slip"; else as_bench "$out/slip.txt" "$slip"; fi
  for object in "$out"/{whole,both,$test}/*.o; do [ "$object" = "$own" ] || objects="$objects $object"; done
  if ! gcc $flags -O0 -w -Itests/boundary "$slip" $objects -o "$out/slipped"; then bad "$what: does not compile"; return; fi
  "$out/slipped" 1 $count $lie >"$out/log" 2>&1
  local status=$?
  if [ $status = 1 ] && grep -q '^MISMATCH' "$out/log"; then
    good
    echo "found   $what ($(sed -n 's/^MISMATCH .*, \([a-z]* [0-9]*\): .*/\1/p' "$out/log"))"
  else
    bad "$what: not found within $count calls or drafts (status $status)"
  fi
}

# whole TEST COUNT: the twin in the bench's place.
whole() {
  local sources=$(printf 'tests/twin/%s.c ' $parts; printf 'tests/boundary/%s.c ' $both ${!1})
  gcc $flags -fsanitize=undefined -fno-sanitize-recover=all "$out"/copy/*.c $sources -o "$out/twins" || exit 1
  if "$out/twins" 1 "$2" >"$out/log" 2>&1; then good; else bad "the twin does not pass the test $1"; tail -n 20 "$out/log"; fi
}

whole differential $CALLS
whole reversed $DRAFTS

while IFS='|' read -r file what edit; do
  case $file in '' | '#'*) continue ;; esac
  read -r file lie <<<"$file"
  what=${what# } what=${what% } edit=${edit# }
  try "$file" "$what" "$edit" "$lie"
done <tests/boundary/slips

echo "$passed passed, $failed failed"
# The twin at both tests, and every slip of the list.
[ "$failed" = 0 ] && [ "$passed" -gt 631 ]
