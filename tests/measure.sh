#!/bin/bash
# How long a built program, whose path is the first word, searches the problems of the folder `measured`, of which only the last
# one ends, at several step limits: for each the labels, the user time in seconds, the least of three runs, and microseconds a
# label.
set -eu
export LC_ALL=C TIMEFORMAT=%U
program=$(cd -- "$(dirname -- "$1")" && pwd)/$(basename -- "$1")
cd -- "$(dirname -- "$0")/measured"
output=$(mktemp)
trap 'rm -f "$output"' EXIT

# The least user time of three runs on the file $1 with the step limit $2.
least() {
    for _ in 1 2 3; do
        { time "$program" analyse --limit "$2" <"$1" >"$output" || [ $? -eq 1 ]; } 2>&1
    done | sort -n | head -n 1
}

while read -r input limits; do
    for limit in $limits; do
        seconds=$(least "$input.scm" "$limit")
        labels=$(tail -n 1 "$output" | sed 's/.* labels \([0-9]*\) .*/\1/')
        awk -v input="$input" -v limit="$limit" -v labels="$labels" -v seconds="$seconds" \
            'BEGIN { printf "%-12s limit %5d labels %6d  %7.3f s  %6.1f\n", input, limit, labels, seconds, 1e6 * seconds / labels }'
    done
done <<'END'
three_roles 67 200 667 2000
five_roles 40 200 400 2000
eight_roles 25 250 2000
five_roles_of_ten 4 40 400
yahalom_kept_from_the_penetrator 20 200
END
