#!/bin/bash
# compare.sh FIRST SECOND FOLDER: runs both programs on every *.round file of FOLDER and compares standard output and
# status byte for byte. Each file is played on standard input; then all are played once more as arguments, 200 a call.
# Prints each difference, the number of rounds and of differences, and a tally of the replies of FIRST.
# The status is 1 if there is a difference, and 2 if there is nothing to compare.
set -u
if [ $# -ne 3 ]; then
    echo "compare.sh FIRST SECOND FOLDER" >&2
    exit 2
fi
for program in "$1" "$2"; do
    if ! command -v "$program" >/dev/null; then
        echo "compare.sh: cannot run $program" >&2
        exit 2
    fi
done
first=$(realpath "$(command -v "$1")")
second=$(realpath "$(command -v "$2")")
cd "$3" || exit 2
shopt -s nullglob
files=(*.round)
if [ ${#files[@]} -eq 0 ]; then
    echo "compare.sh: no *.round files in $3" >&2
    exit 2
fi

scratch=$(mktemp -d) || exit 2
trap 'rm -r "$scratch"' EXIT
export LC_ALL=C
rounds=0
differences=0

for file in "${files[@]}"; do
    rounds=$((rounds + 1))
    "$first" <"$file" >"$scratch/first" 2>/dev/null
    first_status=$?
    "$second" <"$file" >"$scratch/second" 2>/dev/null
    second_status=$?
    if [ $first_status -ne $second_status ]; then
        differences=$((differences + 1))
        echo "difference: $file (status $first_status and $second_status)"
    elif ! cmp -s "$scratch/first" "$scratch/second"; then
        differences=$((differences + 1))
        echo "difference: $file"
    fi
    # For the tally: the first and the last line of the reply, and the status.
    mapfile -t lines <"$scratch/first"
    top=${lines[0]:-}
    bottom=
    [ ${#lines[@]} -eq 0 ] || bottom=${lines[-1]}
    printf '%s\n%s\nstatus %s\n' "${top:0:60}" "${bottom:0:60}" "$first_status" >>"$scratch/ends"
done

# All files as arguments.
wrong=0
for ((i = 0; i < ${#files[@]}; i += 200)); do
    "$first" "${files[@]:i:200}" >"$scratch/first" 2>/dev/null
    first_status=$?
    "$second" "${files[@]:i:200}" >"$scratch/second" 2>/dev/null
    second_status=$?
    if [ $first_status -ne $second_status ] || ! cmp -s "$scratch/first" "$scratch/second"; then
        wrong=$((wrong + 1))
        echo "difference: as arguments, ${files[i]} and up to 199 more"
    fi
done

echo "$rounds rounds, $differences differences"
[ $wrong -eq 0 ] || echo "$wrong calls with arguments differ"

# The tally. Each round has three lines: the first and the last of its reply, and its status.
awk '
NR % 3 == 1 { top = $0 }
NR % 3 == 2 { bottom = $0 }
NR % 3 == 0 {
    if ($2 != 0) other++
    else if (top ~ /^age /) {
        reports++
        if (bottom ~ /^tape /) tapes++
        else if (bottom ~ /^no majority /) split_++
        else other++
    } else if (top ~ /^refused /) { split(top, part, " "); refused[part[2] + 0]++; refusals++ }
    else other++
}
END {
    printf "%d reports: %d tape, %d no majority\n", reports, tapes, split_
    printf "%d refusals\n", refusals
    for (number = 1; number <= 999; number++)
        if (number in refused) printf "refused %d: %d\n", number, refused[number]
    if (other) printf "%d other replies\n", other
}' "$scratch/ends"

[ $differences -eq 0 ] && [ $wrong -eq 0 ]
