#!/usr/bin/env bash
# Plants each bug of tools/planted/CRATE/*.edit, one at a time, in a copy of the repository, and checks the crate: every one has to be
# refused. They have the form of must-fail edits, and are not in the gate only because each costs it a check from nothing; here a check
# takes over what has not changed. Last line: 'N passed, M failed'. Crates may be named: planted.sh planes survey
set -u
cd "$(dirname "$0")/.."
work=$(mktemp -d) || exit 2
trap 'rm -rf "$work"' EXIT
cp -r crates crates.txt "$work"/
ok=0 bad=0
for edit in tools/planted/*/*.edit; do
  crate=$(basename "$(dirname "$edit")")
  [ $# -eq 0 ] || [[ " $* " == *" $crate "* ]] || continue
  file=$(sed -n '1s/^file: //p' "$edit")
  cp "$work/crates/$crate/$file" "$work/kept"
  if ! python3 - "$edit" "$work/crates/$crate/$file" <<'P'; then
import sys
lines = open(sys.argv[1], encoding="utf-8").read().split("\n")
old, new = lines[1][5:], lines[2][5:]
text = open(sys.argv[2], encoding="utf-8").read()
if text.count(old) != 1:
    sys.exit(1)
open(sys.argv[2], "w", encoding="utf-8").write(text.replace(old, new))
P
    echo "STALE $edit"
    bad=$((bad + 1))
    continue
  fi
  out=$(cd "$work/crates/$crate" && rt check 2>&1)
  if grep -q "^logic=proved" <<<"$(grep "^logic=" <<<"$out" | tail -1)"; then
    echo "SURVIVED $edit"
    bad=$((bad + 1))
  elif grep -q "logic=not-proved\|NOT PROVED\|not proved" <<<"$out"; then
    ok=$((ok + 1))
  else
    echo "NO VERDICT $edit: $(grep -m1 error <<<"$out" | cut -c1-160)"
    bad=$((bad + 1))
  fi
  cp "$work/kept" "$work/crates/$crate/$file"
done
echo "$ok passed, $bad failed"
[ "$bad" -eq 0 ]
