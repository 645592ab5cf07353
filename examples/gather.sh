#!/bin/sh
# Writes what the program `playbook` is run on, from the scripts and their outputs.
cd "$(dirname "$0")" || exit 1
for script in [a-g]_*.txt attack_*.txt; do
    name=${script%.txt}
    echo "== $name 1 1"
    cat "$script"
done > ../crates/playbook/stdin
for output in [a-g]_*.out attack_*.out; do
    echo "== ${output%.out}"
    cat "$output"
done > ../crates/playbook/stdout
