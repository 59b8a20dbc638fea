#!/usr/bin/env bash
# Builds swiftview and runs it on the words that are given, as in
#     ./swiftview.sh examples/counter/counter.swift examples/counter/counter.taps
# After `rt ci`, or `rt run` in crates/swiftview, the proved program stands in crates/swiftview/out and is run at once. Before
# that, or where a source has changed since, it is built without its proofs, and shows at most 1 MiB of output.
set -eu
words=()
for word in "$@"; do
    if [ -e "$word" ]; then
        words+=("$(realpath -- "$word")")
    else
        words+=("$word")
    fi
done
cd "$(dirname "$0")/crates/swiftview"
if [ -x out/swiftview ] && [ -z "$(find .. -name '*.rt' -newer out/swiftview -print -quit)" ]; then
    exec out/swiftview ${words[@]+"${words[@]}"}
fi
echo "building swiftview without its proofs ..." >&2
exec rt try -- ${words[@]+"${words[@]}"}
