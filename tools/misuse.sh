#!/usr/bin/env bash
# Compiles each misuse in tools/misuse/ against a copy of the repository, and expects the error that its first line names: what the
# types forbid cannot be a must-fail edit, since it never reaches the prover. Last line: 'N passed, M failed'.
set -u
cd "$(dirname "$0")/.."
work=$(mktemp -d) || exit 2
trap 'rm -rf "$work"' EXIT
cp -r crates crates.txt "$work"/
deps=$(grep -oE '^(algebra|geometry|solids|volumes|planes|survey):' crates.txt | tr -d ':' | tr '\n' ' ')
echo "misuse: $deps" >>"$work"/crates.txt
mkdir -p "$work"/crates/misuse/src
ok=0 bad=0
for case in tools/misuse/*.rt.txt; do
  want=$(sed -n '1s,^// expects: ,,p' "$case")
  cp "$case" "$work"/crates/misuse/src/lib.rt
  if out=$(cd "$work/crates/misuse" && rt check 2>&1); then
    echo "TAKEN $case"
    bad=$((bad + 1))
  elif grep -qF -- "$want" <<<"$out"; then
    ok=$((ok + 1))
  else
    echo "OTHER ERROR $case: $(grep -m1 error <<<"$out" | cut -c1-200)"
    bad=$((bad + 1))
  fi
done
echo "$ok passed, $bad failed"
[ "$bad" -eq 0 ]
