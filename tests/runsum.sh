#!/usr/bin/env bash
# Runs the program `runsum` on many archives and compares what it prints. What it should print is written out here, or comes
# from the reference beside this file.
#
#     runsum.sh PROGRAM

source "$(dirname "$(realpath "$0")")/program.sh"

top=18446744073709551615 # 2^64 - 1
half=9223372036854775808 # 2^63

# sums NAME ARCHIVE LINE..: of this archive the program prints these lines.
sums() {
    archive "$2"
    answers "$1" '' "$(lines "${@:3}")"
}

# by_reference [FILE]: what the reference prints of this file, or of the archive in hand.
by_reference() {
    python3 "$reference/reference.py" runsum "${1-$folder/archive.csv}"
}

# agrees NAME: of an archive of the lines on standard input the program prints what the reference does.
agrees() {
    fresh
    cat >"$folder/archive.csv"
    answers "$1" '' "$(by_reference)"
}

# The cases.

examples() {
    sums 'example' "$example" 1,16,16 2,8,8 total,24
    sums 'an archive of 0 bytes' '' total,0
    sums 'one line' '4,5,3,1,0,16\n' 1,16,16 total,16
    sums 'the lines the other way round' '10,371,995,73,100,8\n4,5,3,1,0,16\n' 1,8,8 2,16,16 total,24
    sums 'a far run' '4,5,3,1,1000000007,16\n' 1,16,16 total,16
}

# Equal lines are refused; different ones that show the same numbers are all counted.
equal_lines() {
    sums 'equal lines' '4,5,3,1,0,16\n4,5,3,1,0,16\n' refused,11,2
    sums 'lines that show the same' '4,5,3,1,0,16\n4,5,3,1,16,16\n' 1,16,16 2,16,16 total,32
    sums 'lines that differ in the last digit' '4,5,3,1,0,16\n4,5,3,1,0,17\n' 1,16,16 2,17,16 total,33
    with_near_twin | agrees '65536 bytes, two lines differ in the last digit'
    sums 'equal lines, 2^64 - 1 each' "4,5,3,1,0,$top\n4,5,3,1,0,$top\n" refused,11,2
    sums 'equal lines, 2^63 each' "64,1,1,0,0,$half\n64,1,1,0,0,$half\n" refused,11,2
    sums 'equal lines before a total of 2^64' "4,5,3,1,0,1\n4,5,3,1,0,1\n4,2,0,1,0,$top\n" refused,11,2
    sums 'equal lines about a total of 2^64' "4,5,3,1,0,1\n4,2,0,1,0,$top\n4,5,3,1,0,1\n" refused,11,3
    sums 'equal lines behind a total of 2^64' "4,5,3,1,0,1\n4,2,0,1,0,$top\n4,2,0,1,0,3\n4,2,0,1,0,3\n" refused,11,4
    { shares 9007199254740992; echo 9,5,3,1,1,9007199254740992; } | agrees '2048 lines, 2^64, and one of them again'
}

# Nothing is read from standard input, and nothing waited for.
inputs() {
    local wanted
    wanted=$(lines 1,16,16 2,8,8 total,24)
    archive "$example"
    prints 'standard input closed' "$wanted" <&-
    prints 'standard input is a folder' "$wanted" <"$work"
    prints 'standard input has no end' "$wanted" </dev/zero
    mkfifo "$work/open"
    prints 'standard input is open and has nothing to read' "$wanted" <>"$work/open"
    prints 'standard input is empty and does not block' "$wanted" python3 -c "$not_blocking" ''
    digits | prints '100 MB of digits' "$wanted"
    answers 'a question of runfind' '5\n' "$wanted"
    answers 'a question of runshow' '2,0,8\n' "$wanted"
    answers 'no question' 'x' "$wanted"
    left_alone "$wanted"
}

# left_alone WANTED: what stands on standard input is there for whoever reads it next.
left_alone() {
    local rest
    echo 49 >"$work/input"
    {
        prints 'standard input is a file' "$1"
        rest=$(cat)
    } <"$work/input"
    if [ "$rest" = 49 ]; then
        report ok 'standard input is left as it was'
    else
        report FAIL "standard input is left as it was: wanted 49, got $rest"
    fi
}

# Counts and varieties that differ.
varieties() {
    sums 'more than a period' '4,5,3,1,0,20\n5,3,0,2,0,9\n4,1,0,9,0,1000\n' 1,20,16 2,9,4 3,1000,1 total,1029
    sums 'even multipliers' '4,2,0,1,0,10\n4,2,0,1,3,10\n4,2,0,1,4,10\n4,6,1,1,0,3\n' 1,10,5 2,10,2 3,10,1 4,3,3 total,33
    sums 'even multipliers, width 64' '64,2,1,1,0,1000\n64,2,1,1,60,9\n64,0,9,4,0,7\n' 1,1000,64 2,9,4 3,7,2 total,1016
    sums 'width 0, about its period' \
        '0,16807,0,1,0,2147483645\n0,16807,0,1,0,2147483646\n0,16807,0,1,0,2147483647\n0,16807,0,1,7,4294967296\n' \
        1,2147483645,2147483645 2,2147483646,2147483646 3,2147483647,2147483646 4,4294967296,2147483646 total,10737418234
    sums 'width 0 beside others' '4,2,0,1,0,10\n0,16807,0,1,0,5\n4,5,3,1,0,16\n' 1,10,5 2,5,5 3,16,16 total,31
    { echo 0,16807,0,1,7,1000; seq -f '%.0f,1,1,0,7,1000' 64; } | agrees 'every width'
    { echo 0,16807,0,2,0,60; seq -f '%.0f,0,1,0,0,60' 64; } | agrees 'every width, multiplier 0'
}

# accepted NAME LINE POSITION: an archive of this line; the position doesn't matter.
accepted() {
    echo "$2" | agrees "$1"
}

# Totals about 2^64, some of them small modulo 2^64.
totals() {
    sums '2^64 - 1 in one line' "64,1,1,0,0,$top\n" "1,$top,$top" "total,$top"
    sums '2^64 - 2 and 1' '4,5,3,1,0,18446744073709551614\n4,5,3,1,0,1\n' 1,18446744073709551614,16 2,1,1 "total,$top"
    sums '1 and 2^64 - 2' '4,5,3,1,0,1\n4,5,3,1,0,18446744073709551614\n' 1,1,1 2,18446744073709551614,16 "total,$top"
    sums '2^63 and 2^63 - 1' "64,1,1,0,0,$half\n4,2,0,1,0,9223372036854775807\n" \
        "1,$half,$half" 2,9223372036854775807,5 "total,$top"
    sums '2^64 - 1 and 1' "4,5,3,1,0,$top\n4,5,3,1,0,1\n" refused,10,0
    sums '1 and 2^64 - 1' "4,5,3,1,0,1\n4,5,3,1,0,$top\n" refused,10,0
    sums '2^63 twice' "64,1,1,0,0,$half\n4,2,0,1,0,$half\n" refused,10,0
    sums '2^64 - 1 and 25' "4,5,3,1,0,$top\n4,5,3,1,0,25\n" refused,10,0
    sums '2^64 - 1 twice' "4,5,3,1,0,$top\n64,1,1,0,0,$top\n" refused,10,0
    sums '2^64 - 1 twice, and 2' "4,5,3,1,0,$top\n64,1,1,0,0,$top\n4,5,3,1,0,2\n" refused,10,0
    sums '2^64 - 1 and 1 before the example' "4,5,3,1,0,$top\n4,5,3,1,0,1\n$example" refused,10,0
    sums '2^64 - 1 and 1 behind the example' "${example}4,5,3,1,0,$top\n4,5,3,1,0,1\n" refused,10,0
    sums '2^64 - 1 and 1 at width 0' "0,16807,0,1,0,$top\n0,16807,0,1,0,1\n" refused,10,0
    shares 9007199254740991 | agrees '2048 lines, 2^64 - 1'
    shares 9007199254740992 | agrees '2048 lines, 2^64'
}

# shares COUNT: 2,048 different lines, the last with this count and the others with 2^53.
shares() {
    seq -f '9,5,3,1,%.0f,9007199254740992' 2047
    echo "9,5,3,1,0,$1"
}

# Among lines whose total is above 2^64 - 1 a bad one is told, wherever it stands.
bad_lines() {
    local first="4,5,3,1,0,$top\n" second="4,2,0,1,0,$top\n" number bad
    while read -r number bad; do
        sums "$bad before a total of 2^65 - 2" "$bad\n$first$second" "refused,$number,1"
        sums "$bad within a total of 2^65 - 2" "$first$bad\n$second" "refused,$number,2"
        sums "$bad behind a total of 2^65 - 2" "$first$second$bad\n" "refused,$number,3"
    done <<'END'
2 4,5,3,1,0
2 4,5,3,1,0,18446744073709551616
3 65,5,3,1,0,16
4 4,5,3,16,0,16
4 0,16807,0,0,0,16
5 4,5,3,1,0,0
5 4,5,3,1,1,18446744073709551615
END
    sums 'byte 10 missing within a total of 2^65 - 2' "${first}4,2,0,1,0,$top" refused,2,2
    sums 'an empty line behind a total of 2^65 - 2' "$first$second\n" refused,2,3
    sums 'two bad lines behind a total of 2^65 - 2' "$first${second}4,5,3,1,0,0\n4,5\n" refused,5,3
    { shares 9007199254740992; echo 4,5; } | agrees '2048 lines, 2^64, and a bad line'
}

# The longest archives, lines and summaries.
full() {
    longest | agrees '65536 bytes of short lines'
    long_lines | agrees '629 long lines'
    lines 64,$top,$top,$top,10000000000000000000,8446744073709551615 \
        64,$top,$top,18446744073709551614,10000000000000000000,8446744073709551615 | agrees 'two lines of 107 bytes'
    long_summary | agrees 'a long summary'
    in_a_pipe
}

# long_lines: different lines of 104 bytes, 65,416 together.
long_lines() {
    awk 'BEGIN {
        for (k = 0; k < 629; k++)
            printf "64,18446744073709551615,18446744073709551614,1844674407370955%04d,10000000000000000000,100000000000%04d\n", k, k
    }'
}

# long_summary: different lines, 65,512 bytes, with counts as long as the total allows, and varieties as long as these. Their
# summary has more bytes than a pipe holds.
long_summary() {
    seq -f '64,1,1,0,0,1%016.0f' 1700
    seq -f '64,1,1,0,0,1%015.0f' 579
}

# Of the archive in hand, read late.
in_a_pipe() {
    (cd "$folder" && timeout "$limit" "$program" </dev/null | { sleep 0.2 && cat; }) >"$work/printed"
    if by_reference | cmp -s - "$work/printed"; then
        report ok "a summary of $(wc -c <"$work/printed") bytes in a pipe"
    else
        report FAIL 'a summary in a pipe: other bytes'
    fi
}

in_pieces() {
    longest >"$work/longest"
    archives_in_pieces "$(lines 1,16,16 2,8,8 total,24)" total,0 "$(by_reference "$work/longest")"
}

failing_reads() {
    failing_files "$(lines 1,16,16 2,8,8 total,24)"
    closed_file
}

unwritable() {
    local sentence='runsum: the answer could not be written'
    archive "$example"
    unwritten 'a summary' '' "$sentence"
    (cd "$folder" && timeout "$limit" "$program" </dev/null >&- 2>"$work/errors")
    told 'standard output closed' "$sentence"
    long_summary >"$folder/archive.csv"
    unwritten 'a long summary' '' "$sentence"
    # Where the signal of a broken pipe is ignored the write fails.
    (trap '' PIPE; cd "$folder" && timeout "$limit" "$program" </dev/null 2>"$work/errors" | head -c 1 >"$work/printed")
    told 'a long summary that nobody reads on' "$sentence"
}

examples
equal_lines
inputs
varieties
faults
in_range
totals
bad_lines
full
in_pieces
failing_reads
unwritable
done_with runsum
