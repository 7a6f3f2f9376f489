#!/usr/bin/env bash
# Tries every edit of the named crates, or of all where none is named: those in must-fail/, which the gate tries too, and those
# in edits/. Each changes a line of code, and the crate's contracts must refuse it. It works on a copy of this checkout, and
# begins with what `rt check` kept on this machine of the same crates.
#   scripts/edits.sh lag_fix view_change
# Ends with a count, and with status 1 where an edit was not refused or could not be tried.
# With --apply before the names nothing is proved: it only says which edits can no longer be applied.
root=$(cd "$(dirname "$0")/.." && pwd) || exit 1
cd "$root" || exit 1
apply_only=
if [ "$1" = --apply ]; then
  apply_only=yes
  shift
fi
names=("$@")
if [ $# -eq 0 ]; then
  mapfile -t names < <(sed -n 's/^\([a-z_0-9]*\)[ :].*/\1/p' crates.txt)
fi
for name in "${names[@]}"; do
  grep -q "^$name[ :]" crates.txt || {
    echo "edits: crates.txt has no crate $name" >&2
    exit 2
  }
done

# Whether each text after `old: ` stands once in the file that `file: ` names, after the changes before it.
can_apply() {
  python3 - "$@" <<'CODE'
import glob, os, sys


def applies(crate, edit):
    path, old, texts = None, None, {}
    for line in open(edit, encoding="utf-8").read().split("\n"):
        if line.startswith("file: "):
            path = os.path.join(crate, line[6:].strip())
            texts.setdefault(path, open(path, encoding="utf-8").read() if os.path.isfile(path) else "")
        elif line.startswith("old: "):
            old = line[5:]
        elif line.startswith("new:"):
            if path is None or old is None or texts[path].count(old) != 1:
                return False
            texts[path] = texts[path].replace(old, line[4:].removeprefix(" "))
    return True


lost = 0
for name in sys.argv[1:]:
    for folder in ("must-fail", "edits"):
        for edit in sorted(glob.glob(f"crates/{name}/{folder}/*.edit")):
            if not applies(f"crates/{name}", edit):
                print(f"edits: {edit} cannot be applied")
                lost += 1
print(f"edits: {lost} cannot be applied")
sys.exit(1 if lost else 0)
CODE
}

if [ -n "$apply_only" ]; then
  can_apply "${names[@]}"
  exit
fi

room=$(mktemp -d "${TMPDIR:-/tmp}/speclog-edits.XXXXXX") || exit 1
trap 'rm -rf "$room"' EXIT
cp crates.txt HANDLES "$room/" && tar -c --exclude=out crates | tar -x -C "$room" || exit 1

refused=0
other=0
for name in "${names[@]}"; do
  for edit in crates/"$name"/edits/*.edit; do
    [ -e "$edit" ] || continue
    mkdir -p "$room/crates/$name/must-fail"
    if [ -e "$room/crates/$name/must-fail/${edit##*/}" ]; then
      echo "edits: $name has ${edit##*/} in both folders" >&2
      exit 2
    fi
    cp "$edit" "$room/crates/$name/must-fail/"
  done
  count=$(find "$room/crates/$name" -path '*/must-fail/*.edit' | wc -l)
  [ "$count" -gt 0 ] || continue
  # The edits begin with what this check leaves: seconds where the same crate was checked before, else its first proof.
  if ! (cd "$room/crates/$name" && rt check) >"$room/log" 2>&1; then
    echo "edits: $name is not proved as it stands:"
    tail -n 5 "$room/log"
    other=$((other + count))
    continue
  fi
  (cd "$room" && rt must-fail "$name") >"$room/log" 2>&1
  status=$?
  sed -n 's/^rt: //; /^must-fail /p' "$room/log"
  here=$(grep -c '^\(rt: \)\?must-fail .*: refused, as it must be' "$room/log")
  refused=$((refused + here))
  other=$((other + count - here))
  if [ $status -ne 0 ] || [ "$here" -ne "$count" ]; then
    tail -n 3 "$room/log"
  fi
  echo "edits: $name: $here of $count refused"
done
echo "edits: $refused refused, $other not"
[ $other -eq 0 ]
