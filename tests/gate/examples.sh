#!/usr/bin/env bash
# Runs each example through the built program and compares what it writes with what stands beside it: the folders of
# examples/ with a scenario.txt and its journal.txt, and the trace where there is one, the capture, the storms, and the vectors,
# all of which pass. Without its own lines a trace is the journal.
set -u
cd "$(dirname "$0")/../.." || exit 2
failed=0

compare() {
    local wanted="$1" words="$2" given="$3"
    if ! ./clnp $words <"$given" | cmp - "$wanted"; then
        echo "$given isn't answered by $wanted" >&2
        failed=1
    fi
}

for scenario in examples/*/scenario.txt; do
    folder="$(dirname "$scenario")"
    compare "$folder/journal.txt" sim "$scenario"
    if [ -e "$folder/trace.txt" ]; then
        compare "$folder/trace.txt" trace "$scenario"
    fi
    if ! ./clnp trace <"$scenario" | grep -v -E '^[0-9]+ ([a-z0-9]+ rx|- lost|- nobody) ' | cmp - "$folder/journal.txt"; then
        echo "the trace of $scenario has another journal in it" >&2
        failed=1
    fi
done
compare examples/captures-shown.txt show examples/captures.txt
if ! seq 1 20 | xargs -n 1 ./clnp storm | cmp - examples/storms.txt; then
    echo "the storms aren't those of examples/storms.txt" >&2
    failed=1
fi
if [ "$(./clnp check <examples/vectors.txt | tail -n 1)" != "passed $(grep -c -v -e '^#' -e '^$' examples/vectors.txt) failed 0" ]; then
    echo "not all of examples/vectors.txt pass" >&2
    failed=1
fi
exit "$failed"
