#!/usr/bin/env bash
# The README's first command on the first example, through tools/pack.py and ./review: output and status.
# Once in a copy in which nothing is kept, so by the unproved way, within six minutes; and by the proved program where one lies here.
set -u
cd "$(dirname "$0")/.." || exit 1
limit=360
want='edit 1
edit 2
edit 3
issues 1
app.py:3:8 5001 app.run UserControlled:input RemoteCodeExecution:os.system Data from UserControlled may reach RemoteCodeExecution'
room=$(mktemp -d) || exit 1
trap 'rm -rf "$room"' EXIT
printf '%s\n' "$want" >"$room/want"

# Runs the command in a folder, and compares bytes and status; $2 says which way it is, $3 what review says on standard error.
first() {
  cd "$1" || exit 1
  local began=$SECONDS
  python3 tools/pack.py examples/first 2>"$room/packed" | timeout "$limit" ./review check >"$room/got" 2>"$room/said"
  local status=$?
  if ! cmp -s "$room/want" "$room/got" || [ "$status" -ne 8 ] || ! grep -qx "$3" <(head -n 1 "$room/said"; echo) ||
    [ "$(wc -l <"$room/said")" -gt 1 ]; then
    printf 'first: %s: status %s, output:\n' "$2" "$status"
    cat "$room/got" "$room/packed" "$room/said"
    exit 1
  fi
  printf 'first: %s: as README.md shows, after %s s\n' "$2" "$((SECONDS - began))"
}

mkdir "$room/copy" || exit 1
tar -cf - --exclude='crates/*/out' review tools examples crates crates.txt HANDLES | tar -xf - -C "$room/copy" || exit 1
here=$PWD
(first "$room/copy" 'nothing kept' 'review: not proved yet: .* \./review --proved') || exit 1
if tools/program --kept review >"$room/program"; then
  (first "$here" 'proved' '') || exit 1
else
  printf 'first: no proved program lies here, so that way is skipped\n'
fi
