#!/usr/bin/env bash
# Runs the program `runshow` on many questions and archives and compares what it prints. What it should print is written out
# here, or comes from the reference beside this file.
#
#     runshow.sh PROGRAM

source "$(dirname "$(realpath "$0")")/program.sh"
question='2,0,8\n'

# agrees NAME LINE POSITION COUNT [THERE]: of an archive of this line the numbers are those of the reference; THERE are there.
agrees() {
    archive "$2\n"
    answers "$1" "1,$3,$4\n" "$(shown "$2" "$3" "${5-$4}")"
}

examples() {
    archive "$example"
    answers 'example' '2,0,8\n' "$(lines 49 742 821 434 217 606 541 1002)"
    answers 'example, from the middle' '2,3,2\n' "$(lines 434 217)"
    answers 'example, one number' '1,4,1\n' 5
    answers 'example, the first line' '1,0,16\n' "$(shown 4,5,3,1,0,16 0 16)"
}

at_the_end() {
    archive "$example"
    answers 'fewer at the end' '2,6,8\n' "$(lines 541 1002)"
    answers 'the last position' '2,7,1\n' 1002
    answers 'the last position, more asked for' '2,7,18446744073709551615\n' 1002
    answers 'as many as can be asked for' '2,0,18446744073709551615\n' "$(lines 49 742 821 434 217 606 541 1002)"
    answers '2^32 asked for' '2,0,4294967296\n' "$(lines 49 742 821 434 217 606 541 1002)"
    answers '2^32 + 1 asked for' '2,0,4294967297\n' "$(lines 49 742 821 434 217 606 541 1002)"
    answers '2^32 + 1 asked for, from the middle' '2,6,4294967297\n' "$(lines 541 1002)"
    answers 'the position behind the last' '2,8,1\n' none
    answers 'a position far behind' '2,18446744073709551615,1\n' none
    answers 'none asked for' '2,0,0\n' none
    answers 'none asked for behind the last' '2,8,0\n' none
    answers 'line 0' '0,0,1\n' none
    answers 'a line behind the last' '3,0,1\n' none
    answers 'a line far behind' '18446744073709551615,0,1\n' none
    archive ''
    answers 'an archive of 0 bytes' '1,0,1\n' none
}

questions() {
    archive "$example"
    answers 'no input' '' question
    answers 'no byte 10' '2,0,8' question
    answers 'byte 10 alone' '\n' question
    answers 'one field' '2\n' question
    answers 'two fields' '2,0\n' question
    answers 'four fields' '2,0,8,1\n' question
    answers 'an empty field' '2,,8\n' question
    answers 'a comma at the end' '2,0,8,\n' question
    answers 'a comma at the start' ',2,0,8\n' question
    answers 'two lines' '2,0,8\n2,0,8\n' question
    answers 'more behind byte 10' '2,0,8\nx' question
    answers 'a second byte 10' '2,0,8\n\n' question
    answers 'a line for each field' '2\n0\n8\n' question
    answers 'leading zero' '2,00,8\n' question
    answers 'blank' '2, 0,8\n' question
    answers 'sign' '2,0,+8\n' question
    answers 'byte 13' '2,0,8\r\n' question
    answers 'letters' 'two,0,8\n' question
    answers '2^64 in a field' '2,0,18446744073709551616\n' question
    answers '62 bytes' '18446744073709551615,18446744073709551615,9999999999999999999\n' none
    answers '63 bytes' '18446744073709551615,18446744073709551615,18446744073709551615\n' none
    answers '63 bytes and one more' '18446744073709551615,18446744073709551615,18446744073709551615\nx' question
    answers '64 bytes' '18446744073709551615,18446744073709551615,184467440737095516150\n' question
    prints 'standard input closed' question <&-
    prints 'standard input is a folder' question <"$work"
    prints 'standard input is empty and does not block' question python3 -c "$not_blocking" ''
    digits | prints '100 MB of digits' question
    { echo 2,0,8; digits; } | prints '100 MB behind byte 10' question
    pieces 2, 0 ,8 '\n' | prints 'question in pieces' "$(lines 49 742 821 434 217 606 541 1002)"
    pieces 2,0,8 '\n' 2 | prints 'question in pieces, more behind it' question
}

refusals() {
    archive '4,5,3,1,0,16\n4,5\n'
    answers 'a malformed line behind the one asked for' '1,0,1\n' refused,2,2
    answers 'a malformed line, none asked for' '1,0,0\n' refused,2,2
    answers 'a malformed line, no such line' '9,0,1\n' refused,2,2
    archive '4,5,3,1,0,16\n10,371,995,73,100,8\n4,5,3,1,0,16\n'
    answers 'equal lines, the earlier asked for' '1,0,1\n' refused,11,3
    answers 'equal lines, the later asked for' '3,0,1\n' refused,11,3
    answers 'equal lines, the one between them asked for' '2,0,8\n' refused,11,3
    answers 'equal lines, none asked for' '1,0,0\n' refused,11,3
    answers 'equal lines, no such line' '9,0,1\n' refused,11,3
    archive '4,5,3,1,0,16\n4,5,3,1,0,17\n'
    answers 'lines that differ in the last digit, the earlier' '1,15,9\n' 6
    answers 'lines that differ in the last digit, the later' '2,15,9\n' "$(lines 6 1)"
    archive '65,5,3,1,0,16\n'
    answers 'width 65' '1,0,1\n' refused,3,1
    archive '4,5,3,16,0,16\n'
    answers 'seed 2^4 at width 4' '1,0,1\n' refused,4,1
    archive '0,16807,0,0,0,16\n'
    answers 'seed 0 at width 0' '1,0,1\n' refused,4,1
    archive '4,5,3,1,0,0\n'
    answers 'count 0' '1,0,1\n' refused,5,1
    fresh
    longest >"$folder/archive.csv"
    answers "$(wc -c <"$folder/archive.csv") bytes, the last line" '5460,0,2\n' "$(lines 49 742)"
    echo >>"$folder/archive.csv"
    answers "$(wc -c <"$folder/archive.csv") bytes" '5460,0,2\n' refused,1,0
    with_near_twin >"$folder/archive.csv"
    answers '65536 bytes, two lines differ in the last digit' '5460,0,2\n' "$(lines 49 742)"
}

wide() {
    agrees 'width 64' 64,6364136223846793005,1442695040888963407,1,1099511627776,1000 500 500
    agrees 'numbers of 20 digits' 64,18446744073709551615,18446744073709551615,18446744073709551615,0,5000 0 5000
    agrees 'width 1' 1,1,1,0,0,100 0 100
    agrees 'more than two chunks' 32,1664525,1013904223,1,5,1000000 100 3000
    agrees 'a chunk' 32,1664525,1013904223,1,5,1000000 0 1024
    agrees 'a chunk and a number' 32,1664525,1013904223,1,5,1000000 0 1025
    agrees 'an even multiplier' 64,18446744073709551614,1,12345678901234567890,3,100 0 100
    agrees 'an even multiplier, behind its preperiod' 16,6,1,1,1152921504606846976,9 2 20 7
    agrees 'multiplier 0' 8,0,7,3,0,5 0 5
    agrees 'first 2^64 - 2, count 1' 4,5,3,1,18446744073709551614,1 0 9 1
    agrees 'first 0, count 2^64 - 1, its end' 16,5,3,1,0,18446744073709551615 18446744073709551600 100 15
    agrees 'first 1, count 2^64 - 2, its last position' 64,5,3,1,1,18446744073709551614 18446744073709551613 18446744073709551615 1
}

prime_modulus() {
    archive '4,5,3,1,0,16\n0,16807,0,1,0,5\n10,371,995,73,100,8\n'
    answers 'width 0' '2,0,8\n' "$(lines 1 16807 282475249 1622650073 984943658)"
    answers 'width 0, from the middle' '2,2,2\n' "$(lines 282475249 1622650073)"
    answers 'width 0, the position behind the last' '2,5,1\n' none
    answers 'the line before one of width 0' '1,3,3\n' "$(lines 10 5 12)"
    answers 'the line behind one of width 0' '3,6,8\n' "$(lines 541 1002)"
    archive '0,16807,0,1,2147483645,4\n'
    answers 'width 0, across the end of its period' '1,0,9\n' "$(lines 1407677000 1 16807 282475249)"
    agrees 'width 0, more than two chunks' 0,16807,0,1043618065,5,1000000 100 3000
    agrees 'width 0, the largest seed' 0,16807,0,2147483646,0,100 0 100
    agrees 'width 0, first 2^64 - 2, count 1' 0,16807,0,1,18446744073709551614,1 0 9 1
    agrees 'width 0, first 0, count 2^64 - 1, its end' 0,16807,0,1,0,18446744073709551615 18446744073709551600 100 15
    archive '0,16807,0,1,0,5\n0,16807,1,1,0,5\n'
    answers 'increment 1 at width 0, behind the line asked for' '1,0,1\n' refused,4,2
}

# cut_off NAME QUESTION COUNT WANTED: of a run without an end in sight only so many numbers are read, and the program ends.
cut_off() {
    local printed
    printed=$(cd "$folder" && printf '%b' "$2" | timeout "$limit" "$program" 2>"$work/errors" | head -n "$3")
    if [ "$printed" = "$4" ]; then
        report ok "$1: $3 numbers read"
    else
        report FAIL "$1: other numbers"
    fi
}

without_end() {
    local line=64,6364136223846793005,1442695040888963407,1,5,18446744073709551610
    archive "$line\n"
    SECONDS=0
    cut_off 'nobody reads on' '1,0,18446744073709551615\n' 5 "$(shown $line 0 5)"
    cut_off 'nobody reads on, after some chunks' '1,7,18446744073709551615\n' 5000 "$(shown $line 7 5000)"
    if [ "$SECONDS" -lt "$limit" ]; then
        report ok 'it ends when nobody reads on'
    else
        report FAIL 'it did not end when nobody read on'
    fi
    # Where the signal of a broken pipe is ignored the write fails, and the program stops with its sentence.
    (trap '' PIPE; cd "$folder" && echo 1,0,18446744073709551615 | timeout "$limit" "$program" 2>"$work/errors" | head -n 1 >"$work/printed")
    if [ "$(cat "$work/printed")" = "$(shown $line 0)" ] && [ "$(wc -l <"$work/errors")" -eq 1 ]; then
        report ok "a write that fails: $(cat "$work/errors")"
    else
        report FAIL 'a write that fails: no sentence on standard error, or another number'
    fi
}

# All elements of a generator of period 2^16, several times over: each occurs as often as the others.
whole_periods() {
    archive '16,5,3,1,0,18446744073709551615\n'
    local counts
    counts=$(cd "$folder" && echo 1,0,262144 | "$program" | sort | uniq -c | awk '{ print $1 }' | sort | uniq -c | tr -s ' ')
    if [ "$counts" = ' 65536 4' ]; then
        report ok 'four whole periods of 2^16'
    else
        report FAIL "four whole periods of 2^16: $counts"
    fi
}

failing_reads() {
    failing_files "$(lines 49 742 821 434 217 606 541 1002)"
    failing_questions "$(lines 49 742 821 434 217 606 541 1002)"
    closed_file
}

unwritable() {
    archive "$example"
    unwritten 'numbers' '2,0,8\n' 'runshow: the numbers could not be written'
    unwritten 'a word' '2,8,8\n' 'runshow: the answer could not be written'
}

examples
at_the_end
questions
question_first
faults
refusals
wide
prime_modulus
without_end
whole_periods
failing_reads
unwritable
done_with runshow
