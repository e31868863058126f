#!/bin/sh
# Tries the edits that the gate leaves out for their time, crates/NAME/must-fail-by-hand: in a copy of the repository, where they take the
# place of the gate's. The prover must refuse each. What is proved already (the crates' folders out/) is taken over.
#
#   tools/try_edits.sh          all of them: half an hour and more
#   tools/try_edits.sh NAME..   those of these crates, and of the crates below them
set -eu
cd "$(dirname "$0")/.."
made=$(mktemp -d)
trap 'rm -rf "$made"' EXIT

cp -R crates crates.txt "$made"
cd "$made"
rm -rf crates/*/must-fail
for folder in crates/*/must-fail-by-hand; do
    mv "$folder" "$(dirname "$folder")/must-fail"
done
rt must-fail "$@"
