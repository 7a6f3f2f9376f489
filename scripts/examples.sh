#!/usr/bin/env bash
# Plays each script and runs each plan of a folder with ./speclog and compares what it writes, its errors and its status. The folder is
# the first argument, or else examples/.
#   NAME.script with NAME.report   status 0, the report on standard output
#   NAME.plan with NAME.summary    status 0, the summary on standard output
#   either with NAME.error         a refusal: nothing on standard output, that line on standard error;
#                                  NAME.status has the status
# NAME.words, where it is there, has the command's words, one a line, in place of `play` or `run`.
cd "$(dirname "$0")/.." || exit 1
folder=${1:-examples}
passed=0
failed=0
out=$(mktemp) err=$(mktemp)
trap 'rm -f "$out" "$err"' EXIT
for input in "$folder"/*.script "$folder"/*.plan; do
  [ -e "$input" ] || continue
  name=${input%.*}
  words=(play) wanted=$name.report
  [ "$input" = "$name.plan" ] && words=(run) wanted=$name.summary
  [ -e "$name.words" ] && mapfile -t words <"$name.words"
  ./speclog "${words[@]}" <"$input" >"$out" 2>"$err"
  status=$?
  if [ -e "$wanted" ]; then
    [ $status -eq 0 ] && cmp -s "$out" "$wanted" && [ ! -s "$err" ]
  else
    [ $status -eq "$(cat "$name.status")" ] && cmp -s "$err" "$name.error" && [ ! -s "$out" ]
  fi
  if [ $? -eq 0 ]; then
    passed=$((passed + 1))
  else
    failed=$((failed + 1))
    echo "$name: not as it should be (status $status)"
  fi
done
echo "$folder: $passed passed, $failed failed"
[ $failed -eq 0 ]
