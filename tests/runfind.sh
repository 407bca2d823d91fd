#!/usr/bin/env bash
# Runs the program `runfind` on many questions and archives and compares what it prints. What it should print is written out
# here, or comes from the reference beside this file.
#
#     runfind.sh PROGRAM

source "$(dirname "$(realpath "$0")")/program.sh"
question='5\n'

# agrees NAME NUMBER: asked for the number, the program prints what the reference does.
agrees() {
    answers "$1, $2" "$2\n" "$(echo "$2" | python3 "$reference/reference.py" runfind "$folder/archive.csv")"
}

# The cases.

examples() {
    archive "$example"
    answers 'example' '5\n' 1,4
    answers 'example' '49\n' 2,0
    answers 'example' '985\n' none
}

questions() {
    archive "$example"
    answers 'no input' '' question
    answers 'no byte 10' '5' question
    answers 'byte 10 alone' '\n' question
    answers 'two lines' '5\n49\n' question
    answers 'more behind byte 10' '5\n6' question
    answers 'a second byte 10' '5\n\n' question
    answers 'byte 10 first' '\n5\n' question
    answers 'leading zero' '05\n' question
    answers 'two zeros' '00\n' question
    answers 'blank before' ' 5\n' question
    answers 'blank behind' '5 \n' question
    answers 'plus sign' '+5\n' question
    answers 'minus sign' '-5\n' question
    answers 'byte 13' '5\r\n' question
    answers 'letters' 'five\n' question
    answers 'digit and letter' '5x\n' question
    answers 'comma' '5,4\n' question
    answers 'byte 0' '5\0000\n' question
    answers 'byte 181' '\0265\n' question
    answers 'the byte below 0' '/\n' question
    answers 'the byte above 9' ':\n' question
    answers '2^64' '18446744073709551616\n' question
    answers '20 nines' '99999999999999999999\n' question
    answers '21 digits' '100000000000000000000\n' question
    answers '2^64 - 1' '18446744073709551615\n' none
    answers 'more behind 2^64 - 1' '18446744073709551615\nx' question
    answers 'zero' '0\n' 1,9
    prints 'standard input closed' question <&-
    prints 'standard input is a folder' question <"$work"
    prints 'standard input is empty and does not block' question python3 -c "$not_blocking" ''
    digits | prints '100 MB of digits' question
    { digits; echo; } | prints '100 MB of digits and byte 10' question
    { echo 5; digits; } | prints '100 MB behind byte 10' question
}

# An archive as long as may be.
full() {
    fresh
    longest >"$folder/archive.csv"
    agrees '65536 bytes, first line' 0
    agrees '65536 bytes, last line' 49
    agrees '65536 bytes' 1023
    with_near_twin >"$folder/archive.csv"
    answers '65536 bytes, two lines differ in the last digit' '49\n' 5460,0
}

# accepted NAME LINE POSITION: an archive of this line; the number at the position is looked for.
accepted() {
    archive "$2\n"
    agrees "$1" "$(shown "$2" "$3")"
}

searches() {
    archive ''
    answers 'an archive of 0 bytes' '0\n' none
    archive '4,5,3,1,0,16\n4,5,3,1,0,17\n'
    answers 'lines that differ in the last digit, both show it' '5\n' 1,4
    archive '4,5,3,1,0,16\n4,5,3,1,0,16\n'
    answers 'equal lines, both show it' '5\n' refused,11,2
    answers 'equal lines, neither shows it' '16\n' refused,11,2
    archive '4,5,3,1,0,16\n10,371,995,73,100,8\n4,5,3,1,0,16\n'
    answers 'equal lines, only the one between them shows it' '49\n' refused,11,3
    # The second seed is 1 less the hash's factor, 11400714819323198485, modulo 2^64.
    archive '64,5,0,1,0,9\n64,5,1,7046029254386353132,0,9\n'
    answers 'different lines to which the check gives the same hash' '7046029254386353132\n' 2,0
    archive '4,5,3,1,0,16\n4,5,3,1,4,2\n'
    answers 'an earlier line with a higher position' '5\n' 1,4
    archive '4,5,3,1,0,4\n4,5,3,1,0,5\n'
    answers 'line 1 ends one position too early' '5\n' 2,4
    archive '4,5,3,1,2,16\n'
    answers 'the position, not the index' '5\n' 1,2
    answers 'a number from before the run comes round again' '1\n' 1,14
    archive '4,5,3,1,1000000007,16\n'
    agrees 'a far run' 5
    archive '4,5,3,1,0,16\n6,5,3,1,0,64\n'
    agrees 'a number too wide for line 1' 21
    agrees 'a number too wide for line 1' 63
    answers 'a number too wide for both lines' '64\n' none
}

even_multipliers() {
    archive '4,2,0,1,0,10\n'
    answers 'even multiplier, the seed' '1\n' 1,0
    answers 'even multiplier, before the cycle' '4\n' 1,2
    answers 'even multiplier, in the cycle' '0\n' 1,4
    answers 'even multiplier, never shown' '3\n' none
    archive '4,2,0,1,1,2\n4,2,0,1,1,10\n'
    answers 'even multiplier, only before the run' '1\n' none
    answers 'even multiplier, before the cycle, line 2' '8\n' 2,2
    archive '4,6,1,1,1152921504606846976,9\n'
    answers 'even multiplier, a run within the cycle' '3\n' 1,0
    answers 'even multiplier, a run within the cycle' '11\n' none
}

# 0,16807,0,1,0,5 shows 1, 16807, 282475249, 1622650073 and 984943658.
prime_modulus() {
    archive '0,16807,0,1,0,5\n'
    answers 'width 0, the seed' '1\n' 1,0
    answers 'width 0, the next element' '16807\n' 1,1
    answers 'width 0, the last position' '984943658\n' 1,4
    answers 'width 0, behind the end of the run' '1144108930\n' none
    answers 'width 0, zero' '0\n' none
    answers 'width 0, 2^31 - 1' '2147483647\n' none
    answers 'width 0, the seed and 2^31 - 1' '2147483648\n' none
    answers 'width 0, 2^64 - 1' '18446744073709551615\n' none
    archive '0,16807,0,1,2,2147483645\n'
    answers 'width 0, a whole period but one' '16807\n' none
    answers 'width 0, the seed comes round again' '1\n' 1,2147483644
    answers 'width 0, half the period on' '2147483646\n' 1,1073741821
    archive '0,16807,0,1,2,2147483646\n'
    answers 'width 0, a whole period' '16807\n' 1,2147483645
    archive '0,16807,0,1,2147483646,5\n'
    answers 'width 0, a run from the period on' '16807\n' 1,1
}

# Lines of width 0 beside others: 40,1,1,16800,0,16 shows 16800 to 16815, and 4,5,3,1,0,16 all numbers below 16.
mixed_archives() {
    archive '40,1,1,16800,0,16\n0,16807,0,1,0,5\n'
    answers 'both show it, width 40 first' '16807\n' 1,7
    answers 'width 0 alone shows it, line 2' '282475249\n' 2,2
    answers 'neither shows it' '16816\n' none
    archive '0,16807,0,1,0,5\n40,1,1,16800,0,16\n'
    answers 'both show it, width 0 first' '16807\n' 1,1
    answers 'width 40 alone shows it, line 2' '16808\n' 2,8
    archive '4,5,3,1,0,16\n0,16807,0,1,1,4\n0,16807,0,1,0,5\n'
    answers 'the seed of line 2 is before its run, line 1 shows it' '1\n' 1,0
    answers 'zero, of width 4 only' '0\n' 1,9
    archive '0,16807,0,1,1,4\n4,5,3,1,0,16\n0,16807,0,1,0,5\n'
    answers 'the seed of line 1 is before its run, line 2 shows it' '1\n' 2,0
    archive '0,16807,0,1,1,4\n0,16807,0,1,0,5\n4,5,3,1,0,16\n'
    answers 'the seed of line 1 is before its run, line 2 of width 0 shows it' '1\n' 2,0
    archive '0,16807,0,1,0,18446744073709551615\n64,1,1,0,0,18446744073709551615\n'
    agrees 'every number but zero, line 1' 5
    answers 'zero, line 2' '0\n' 2,0
    answers '2^31 - 1, line 2' '2147483647\n' 2,2147483647
    archive '0,16807,0,1,0,5\n0,16807,0,0,0,5\n4,5,3,1,0,16\n'
    answers 'seed 0 in line 2, line 1 shows it' '1\n' refused,4,2
    archive '4,5,3,1,0,16\n0,16807,0,1,0,5\n65,5,3,1,0,16\n'
    answers 'width 65 in line 3, line 1 shows it' '1\n' refused,3,3
}

in_pieces() {
    archive "$example"
    pieces 4 9 '\n' | prints 'question in pieces' 2,0
    pieces 49 '\n' 4 | prints 'question in pieces, more behind it' question
    pieces 1844674407 3709551615 '\n' | prints 'question of 20 digits in pieces' none
    local question='49\n'
    archives_in_pieces 2,0 none 5460,0
}

failing_reads() {
    failing_files 1,4
    failing_questions 1,4
    closed_file
}

unwritable() {
    archive "$example"
    unwritten 'an answer' '5\n' 'runfind: the answer could not be written'
}

examples
questions
question_first
full
faults
in_range
searches
even_multipliers
prime_modulus
mixed_archives
in_pieces
failing_reads
unwritable
done_with runfind
