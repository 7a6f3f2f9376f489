#!/usr/bin/env bash
# Plays the scripts of ../shared/vectors beside this checkout, which have the reports of an independent model of the protocol,
# as scripts/examples.sh plays those of examples/, and makes the plan that is there. Where the folder is missing nothing is played.
cd "$(dirname "$0")/.." || exit 1
folder=../shared/vectors
if [ ! -d "$folder" ]; then
  echo "vectors: none here"
  exit 0
fi
./speclog gen 7 200 | cmp - "$folder/gen-7-200.plan" || exit 1
exec scripts/examples.sh "$folder"
