#!/usr/bin/env bash
# Tries every edit that must fail, of all crates or of those that are named: the few of a crate that the gate tries too, and
# those of edits/, which it doesn't try for the time that they take. It works on a clone of what is committed.
# usage: tests/by_hand/edits.sh [CRATE..]
set -u
cd "$(dirname "$0")/../.." || exit 2
room=$(mktemp -d) || exit 2
trap 'rm -rf "$room"' EXIT
git clone -q . "$room/clone" || exit 2
for folder in edits/*/; do
    crate=$(basename "$folder")
    if [ $# -eq 0 ] || [[ " $* " == *" $crate "* ]]; then
        mkdir -p "$room/clone/crates/$crate/must-fail"
        cp "$folder"*.edit "$room/clone/crates/$crate/must-fail/" || exit 2
    fi
done
cd "$room/clone" || exit 2
rt must-fail "$@"
