#!/usr/bin/env bash
# What is defined in one place: each line of tests/data/once.txt is held against the sources, definitions and proofs of all crates.
set -u
cd "$(dirname "$0")/.." || exit 1
list=${1:-tests/data/once.txt}
wrong=0
held=0
fail() {
  printf 'once: %s\n' "$*"
  wrong=1
}

while IFS=$'\t' read -r what places where pattern; do
  case $what in '' | '#'*) continue ;; esac
  if [ -z "$pattern" ] || ! [[ $places =~ ^[0-9]+$ ]]; then
    fail "$list: a line needs four columns with tabs between them: $what"
    continue
  fi
  found=$(grep -rnE --include='*.rt' --include='*.antt' -e "$pattern" crates/*/src crates/*/specs crates/*/proofs 2>/dev/null)
  count=$(printf '%s' "$found" | grep -c '')
  outside=$(printf '%s' "$found" | grep -vE -e "^$where:")
  if [ "$count" -ne "$places" ]; then
    fail "$what: defined $count times, and not $places:"$'\n'"$found"
  elif [ -n "$outside" ]; then
    fail "$what: defined elsewhere than in $where:"$'\n'"$outside"
  else
    held=$((held + 1))
  fi
done <"$list"

[ "$held" -gt 0 ] || fail "$list has no line that holds"
[ "$wrong" -eq 0 ] && printf 'once: each of %s things is defined in its one place\n' "$held"
exit "$wrong"
