# What the scenarios of the programs share; runfind.sh, runshow.sh and runsum.sh read it in. Each run is in a folder of its own,
# and what the program prints is compared byte for byte. Its exit status doesn't matter, and standard error only where the
# answer can't be written; but it must end.

set -u
shopt -s lastpipe # the end of a pipe counts in this shell
export LC_ALL=C PYTHONDONTWRITEBYTECODE=1

if [ $# -ne 1 ] || [ ! -x "$1" ]; then
    echo "usage: $(basename "$0") PROGRAM" >&2
    exit 2
fi
program=$(realpath "$1")
reference=$(dirname "$(realpath "$0")")/reference
work=$(mktemp -d) || exit 2
trap 'rm -rf "$work"' EXIT
chmod 755 "$work"
folder=$work/folder
limit=60 # seconds for one run
question= # what is asked where the archive alone matters: nothing, unless a script sets it
compared=0
failed=0

# Building blocks. Texts go through printf's %b: \n is byte 10, \r byte 13, \0NNN any byte.

# fresh: an empty folder for the next runs.
fresh() {
    rm -rf "$folder"
    mkdir "$folder"
}

# archive TEXT: a fresh folder with this archive.
archive() {
    fresh
    printf '%b' "$1" >"$folder/archive.csv"
}

# lines TEXT..: each on a line of its own.
lines() {
    printf '%s\n' "$@"
}

# shown LINE POSITION [COUNT]: the numbers at this position of the line's run and behind it, one if no count is given, by the
# reference.
shown() {
    PYTHONPATH=$reference python3 -c '
import sys, reference
*generator, first, _ = map(int, sys.argv[1].split(","))
for position in range(int(sys.argv[2]), int(sys.argv[2]) + int(sys.argv[3])):
    print(reference.element(*generator, first + position)[1])' "$1" "$2" "${3-1}"
}

# report VERDICT TEXT
report() {
    compared=$((compared + 1))
    [ "$1" = ok ] || failed=$((failed + 1))
    printf '%-4s %s\n' "$1" "$2"
}

# prints NAME WANTED [COMMAND..]: the program, with COMMAND before it, reads this function's
# standard input and prints WANTED and byte 10.
prints() {
    local name=$1 wanted=$2
    shift 2
    (cd "$folder" && exec timeout "$limit" "$@" "$program") >"$work/printed" 2>"$work/errors"
    if [ $? -eq 124 ]; then
        report FAIL "$name: did not end, so the rest is not tried"
        exit 1
    elif printf '%s\n' "$wanted" | cmp -s - "$work/printed"; then
        report ok "$name: $(head -c 60 <<<"$wanted" | tr '\n' ' ')"
    else
        report FAIL "$name: wanted $(head -c 200 <<<"$wanted" | tr '\n' ' '), got$(head -c 200 "$work/printed" | od -An -c | tr -s ' \n' ' ')"
    fi
}

# answers NAME QUESTION WANTED: the same, with this text as standard input.
answers() {
    printf '%b' "$2" | prints "$1" "$3"
}

# pieces PART..: the parts with pauses between them.
pieces() {
    local part
    for part; do
        printf '%b' "$part"
        sleep 0.1
    done
}

digits() {
    head -c 100000000 /dev/zero | tr '\0' 7
}

example='4,5,3,1,0,16\n10,371,995,73,100,8\n'

# longest: different lines that make 65,536 bytes; only the last one, 5460, shows 49.
longest() {
    awk 'BEGIN {
        for (k = 0; k < 5459; k++)
            printf "%d,%d,%d,%d,%d,%d\n", 4 + k % 2, k / 2 % 10, k / 20 % 10, k / 200 % 10, k / 2000, k < 8 ? 10 : 1 + k % 9
    }'
    echo 10,371,995,73,100,8
}

# with_twin EARLIER LATER: the longest archive with a copy of the earlier line in place of the later.
with_twin() {
    longest | awk -v earlier="$1" -v later="$2" 'NR == earlier { line = $0 } NR == later { $0 = line } { print }'
}

# with_near_twin: the same for lines 9 and 5459, but that these differ in their last digit.
with_near_twin() {
    with_twin 9 5459 | sed '5459s/.$/1/'
}

# Runs a program, the second argument, whose standard input is a pipe that is still open and holds no more than the first, in
# which \n is byte 10: the read behind that fails.
not_blocking='
import os, sys
out, into = os.pipe()
os.write(into, sys.argv[1].replace("\\n", "\n").encode())
os.set_blocking(out, False)
os.dup2(out, 0)
os.set_inheritable(into, True)
os.execv(sys.argv[2], sys.argv[2:])'

# failing_read: a library to preload, by which the read of the number in FAILS_AT fails, of those of standard input, or, where
# FAILS_OF is "file", of any other; each brings at most as many bytes as PIECE says.
failing_read() {
    gcc -shared -fPIC -o "$work/failing_read.so" "$(dirname "$reference")/failing_read.c"
}

# fails_at NUMBER SOURCE PIECE NAME WANTED: with such a read the program prints WANTED; standard input as for prints.
fails_at() {
    prints "$4" "$5" env LD_PRELOAD="$work/failing_read.so" FAILS_AT="$1" FAILS_OF="$2" PIECE="$3"
}

# failing_files EXAMPLE: a read of the file fails, in its midst or behind its last byte. Without such a read the program prints
# EXAMPLE.
failing_files() {
    failing_read || { report FAIL 'no library to preload'; return; }
    archive "$example"
    printf '%b' "$question" | fails_at 0 file 65537 'no read of the file fails' "$1"
    printf '%b' "$question" | fails_at 0 file 1 'no read of the file fails, a byte at a time' "$1"
    printf '%b' "$question" | fails_at 1 file 65537 'the first read of the file fails' unread
    printf '%b' "$question" | fails_at 2 file 65537 'the second read of the file fails, behind its last byte' unread
    printf '%b' "$question" | fails_at 2 file 13 'the second read of the file fails, behind its first line' unread
    printf '%b' "$question" | fails_at 3 file 13 'the third read of the file fails, within its second line' unread
    printf '%b' "$question" | fails_at 34 file 1 'the 34th read of the file fails, behind its last byte' unread
}

# failing_questions EXAMPLE: the same of standard input that holds the question.
failing_questions() {
    failing_read || { report FAIL 'no library to preload'; return; }
    archive "$example"
    printf '%b' "$question" | fails_at 0 input 1 'no read of standard input fails, a byte at a time' "$1"
    printf '%b' "$question" | fails_at 1 input 64 'the first read of standard input fails' question
    printf '%b' "$question" | fails_at 2 input 64 'the second read of standard input fails, behind a question' question
    printf '%b' "$question" | fails_at "$(($(printf '%b' "$question" | wc -c) + 1))" input 1 \
        'the last of many reads of standard input fails, behind a question' question
    prints 'a question, and no end, on a standard input that does not block' question \
        python3 -c "$not_blocking" "$question"
}

# Runs a program whose standard output is a pipe that is full, so that it waits there, and tells whether it holds the file open
# for ten seconds.
full_output='
import os, subprocess, sys, time
out, into = os.pipe()
os.set_blocking(into, False)
try:
    while True:
        os.write(into, bytes(4096))
except BlockingIOError:
    os.set_blocking(into, True)
program = subprocess.Popen(sys.argv[1], stdout=into)
held = f"/proc/{program.pid}/fd"
told = "open"
for _ in range(20):
    time.sleep(0.5)
    names = [os.path.basename(os.readlink(os.path.join(held, one))) for one in os.listdir(held)]
    if "archive.csv" not in names:
        told = "closed"
        break
print(told if program.poll() is None else "ended")
program.kill()'

# closed_file: the file is closed once it is read.
closed_file() {
    archive "$example"
    printf '%b' "$question" | prints 'the file is not open while the answer is written' closed python3 -c "$full_output"
}

# refused NAME NUMBER TEXT: the text behind a good line is refused with this number, as line 2, though line 1 answers the
# question.
refused() {
    archive "4,5,3,1,0,16\n$3"
    answers "$1" "$question" "refused,$2,2"
}

# refuses NAME NUMBER,LINE: the archive on standard input is refused so.
refuses() {
    fresh
    cat >"$folder/archive.csv"
    answers "$1" "$question" "refused,$2"
}

# fed NAME WANTED PART..: the archive is a named pipe that gets these pieces.
fed() {
    local name=$1 wanted=$2 writer
    shift 2
    fresh
    mkfifo "$folder/archive.csv"
    pieces "$@" >"$folder/archive.csv" 2>"$work/writer" &
    writer=$!
    answers "$name" "$question" "$wanted"
    kill "$writer" 2>"$work/writer" # only if nobody read it to the end
    wait "$writer" 2>"$work/writer"
}

# Every fault of the file; they are told alike whatever is asked.
faults() {
    unread
    overlong
    malformed
    spreadsheets
    out_of_range
    order
    twins
    twins_and_bad_lines
    far_twins
}

# A file that can't be read.
unread() {
    fresh
    answers 'missing archive' "$question" unread
    mkdir "$folder/archive.csv"
    answers 'a folder as archive' "$question" unread
    fresh
    ln -s nowhere "$folder/archive.csv"
    answers 'a link to nothing as archive' "$question" unread
    no_permission
}

# Root may read everything, so the program is then run as nobody, from a copy that nobody reaches.
no_permission() {
    local as_user=() program=$program
    if [ "$(id -u)" -eq 0 ]; then
        as_user=(setpriv --reuid 65534 --regid 65534 --clear-groups)
        install -m 755 "$program" "$work/program"
        program=$work/program
    fi
    archive "$example"
    chmod 000 "$folder/archive.csv"
    if "${as_user[@]}" test -x "$program" && ! "${as_user[@]}" test -r "$folder/archive.csv"; then
        printf '%b' "$question" | prints 'archive without permission' unread "${as_user[@]}"
    else
        echo 'skip archive without permission: no user here may run the program but not read the file'
    fi
}

overlong() {
    fresh
    longest >"$folder/archive.csv"
    echo >>"$folder/archive.csv"
    answers "$(wc -c <"$folder/archive.csv") bytes" "$question" refused,1,0
    head -c 65536 /dev/zero >"$folder/archive.csv"
    answers '65536 bytes, all 0' "$question" refused,2,1
    head -c 65537 /dev/zero >"$folder/archive.csv"
    answers '65537 bytes, all 0' "$question" refused,1,0
    head -c 65536 /dev/zero | tr '\0' '\n' >"$folder/archive.csv"
    answers '65536 bytes, all 10' "$question" refused,2,1
    if truncate -s 3G "$folder/archive.csv"; then
        answers '3 GB' "$question" refused,1,0
    else
        echo 'skip 3 GB: no such file can be made here'
    fi
}

malformed() {
    refused 'last line without byte 10' 2 '4,5,3,1,0,16'
    refused 'one byte behind the last line' 2 '4'
    refused 'empty line' 2 '\n4,5,3,1,0,16\n'
    refused 'empty last line' 2 '\n'
    refused 'byte 13' 2 '4,5,3,1,0,16\r\n'
    refused 'seven fields' 2 '4,5,3,1,0,16,1\n'
    refused 'five fields' 2 '4,5,3,1,0\n'
    refused 'comma at the end' 2 '4,5,3,1,0,16,\n'
    refused 'comma at the start' 2 ',4,5,3,1,0,16\n'
    refused 'empty field' 2 '4,5,,1,0,16\n'
    refused 'blank between fields' 2 '4,5,3, 1,0,16\n'
    refused 'blank at the end' 2 '4,5,3,1,0,16 \n'
    refused 'sign' 2 '4,5,3,+1,0,16\n'
    refused 'quoted field' 2 '4,5,3,"1",0,16\n'
    refused 'letter' 2 '4,5,3,a,0,16\n'
    refused 'semicolons' 2 '4;5;3;1;0;16\n'
    refused 'byte 0' 2 '4,5,3,1,0,16\0000\n'
    refused 'field of 60,000 digits' 2 "$(head -c 60000 /dev/zero | tr '\0' 1),5,3,1,0,16\n"
    bad_fields
}

# Each of the six fields with a zero before it, and too large for 64 bits.
bad_fields() {
    local fields=(4 5 3 1 0 16) at bad changed
    for at in "${!fields[@]}"; do
        for bad in "0${fields[at]}" 18446744073709551616 100000000000000000000; do
            changed=("${fields[@]}")
            changed[at]=$bad
            refused "field $((at + 1)) is $bad" 2 "$(IFS=,; echo "${changed[*]}")\n"
        done
    done
}

# What README says of an archive that a spreadsheet has saved.
spreadsheets() {
    archive '4,5,3,1,0,16\r\n10,371,995,73,100,8\r\n'
    answers 'lines that end with bytes 13 and 10' "$question" refused,2,1
    archive '\0357\0273\0277'"$example"
    answers 'a byte-order mark' "$question" refused,2,1
    archive "width,multiplier,increment,seed,first,count\\n$example"
    answers 'a row of headings' "$question" refused,2,1
    archive '4;5;3;1;0;16\n10;371;995;73;100;8\n'
    answers 'semicolons in every line' "$question" refused,2,1
    refused 'a large number rounded' 2 '4,5,3,1,1E+19,16\n'
}

out_of_range() {
    refused 'width 65' 3 '65,5,3,1,0,16\n'
    refused 'width 2^64 - 1' 3 '18446744073709551615,5,3,1,0,16\n'
    refused 'multiplier 2^4 at width 4' 4 '4,16,3,1,0,16\n'
    refused 'increment 2^4 at width 4' 4 '4,5,16,1,0,16\n'
    refused 'seed 2^4 at width 4' 4 '4,5,3,16,0,16\n'
    refused 'seed 2^63 at width 63' 4 '63,5,3,9223372036854775808,0,16\n'
    refused 'all operands 0 at width 0' 4 '0,0,0,0,0,16\n'
    refused 'seed 0 at width 0' 4 '0,16807,0,0,0,16\n'
    refused 'seed 2^31 - 1 at width 0' 4 '0,16807,0,2147483647,0,16\n'
    refused 'increment 1 at width 0' 4 '0,16807,1,1,0,16\n'
    refused 'multiplier 16806 at width 0' 4 '0,16806,0,1,0,16\n'
    refused 'multiplier 16808 at width 0' 4 '0,16808,0,1,0,16\n'
    refused 'count 0' 5 '4,5,3,1,0,0\n'
    refused 'first 2^64 - 2, count 2' 5 '4,5,3,1,18446744073709551614,2\n'
    refused 'first 2^64 - 1, count 1' 5 '4,5,3,1,18446744073709551615,1\n'
    refused 'first 2^64 - 1, count 0' 5 '4,5,3,1,18446744073709551615,0\n'
    refused 'first 1, count 2^64 - 1' 5 '4,5,3,1,1,18446744073709551615\n'
    refused 'count 0 at width 0' 5 '0,16807,0,1,0,0\n'
    refused 'first 2^64 - 1, count 1 at width 0' 5 '0,16807,0,1,18446744073709551615,1\n'
}

# In a line the lowest number counts, among lines the first.
order() {
    refused 'line malformed, width 65, count 00' 2 '65,5,3,1,0,00\n'
    refused 'width 65, count 0' 3 '65,5,3,1,0,0\n'
    refused 'seed 2^4 at width 4, count 0' 4 '4,5,3,16,0,0\n'
    refused 'width 65, seed 0, count 0' 3 '65,16807,0,0,0,0\n'
    refused 'seed 0 at width 0, count 0' 4 '0,16807,0,0,0,0\n'
    refused 'seed 0 at width 0, count 00' 2 '0,16807,0,0,0,00\n'
    refused 'line 2 is 5, line 3 is 2' 5 '4,5,3,1,0,0\n4,5\n'
    refused 'line 2 is 4, line 3 is 3' 4 '4,5,3,16,0,1\n65,5,3,1,0,1\n'
    refused 'line 2 is 4 at width 0, line 3 is 3' 4 '0,5,3,1,0,1\n65,5,3,1,0,1\n'
    refused 'line 2 is 3, line 3 is 4 at width 0' 3 '65,5,3,1,0,1\n0,5,3,1,0,1\n'
    refused 'line 2 is 3, line 4 is 2' 3 '70,5,3,1,0,1\n4,5,3,1,0,16\n4,5\n'
    archive '4,5\n4,5,3,1,0,16\n'
    answers 'bad line 1 of 2' "$question" refused,2,1
    archive "$(longest | sed -n 1,6p)\n4,5,3,1,0,0\n"
    answers 'bad line 7 of 7' "$question" refused,5,7
}

# Of a line that equals an earlier one the later is told, and of several the first.
twins() {
    local one=4,5,3,1,0,16 other=10,371,995,73,100,8 prime=0,16807,0,1,0,5
    local wide=64,18446744073709551615,18446744073709551615,18446744073709551615,10000000000000000000,8446744073709551615
    lines $one $one | refuses 'line 2 equals line 1' 11,2
    lines $one $one $one | refuses 'lines 2 and 3 equal line 1' 11,2
    lines $one $one $other | refuses 'line 2 equals line 1, another behind' 11,2
    lines $one $other $one | refuses 'line 3 equals line 1' 11,3
    lines $one $other $other | refuses 'line 3 equals line 2' 11,3
    lines $one $other $other $one | refuses 'line 3 equals line 2, line 4 equals line 1' 11,3
    lines $one $other $one $other | refuses 'line 3 equals line 1, line 4 equals line 2' 11,3
    lines $one $prime $other $prime | refuses 'line 4 equals line 2, of width 0' 11,4
    lines $one $wide $wide | refuses 'line 3 equals line 2, of 107 bytes' 11,3
    lines ${one}0 $one ${one}1 $one | refuses 'line 4 equals line 2, the others begin alike' 11,4
}

# It is the last that is looked at in a line, and the first line that is refused counts.
twins_and_bad_lines() {
    local one=4,5,3,1,0,16 number bad
    while read -r number bad; do
        lines $one "$bad" $one | refuses "$bad before a line that equals line 1" "$number,2"
        lines $one $one "$bad" | refuses "$bad behind a line that equals line 1" 11,2
        lines $one "$bad" "$bad" | refuses "$bad twice" "$number,2"
    done <<'END'
2 4,5,3,1,0
3 65,5,3,1,0,16
4 4,5,3,16,0,16
4 0,16807,0,0,0,16
5 4,5,3,1,0,0
END
    archive "${example}4,5,3,1,0,16"
    answers 'line 3 equals line 1 but for byte 10, which is missing' "$question" refused,2,3
    archive "${example}4,5,3,1,0,16\n4,5"
    answers 'line 3 equals line 1, byte 10 missing behind it' "$question" refused,11,3
}

# In archives of about 1,000 bytes and of 65,536.
far_twins() {
    { longest | head -n 80; longest | head -n 1; } | refuses '81 lines, the last equals the first' 11,81
    { longest | head -n 90; longest | head -n 1; } | refuses '91 lines, the last equals the first' 11,91
    with_twin 9 10 | refuses '65536 bytes, line 10 equals line 9' 11,10
    with_twin 9 5459 | refuses '65536 bytes, line 5459 equals line 9' 11,5459
    with_twin 2730 2731 | refuses '65536 bytes, line 2731 equals line 2730' 11,2731
    with_twin 5458 5459 | refuses '65536 bytes, line 5459 equals line 5458' 11,5459
    with_twin 1 5460 | refuses '5460 lines, the last equals the first' 11,5460
    with_twin 9 5459 | sed 5000s/.$/x/ | refuses '65536 bytes, line 5459 equals line 9, line 5000 is bad' 2,5000
    with_twin 9 5000 | sed 5459s/.$/x/ | refuses '65536 bytes, line 5000 equals line 9, line 5459 is bad' 11,5000
    { with_twin 9 10; echo; } | refuses '65537 bytes, line 10 equals line 9' 1,0
}

# Lines at the bounds. What is tried of an archive of such a line the scripts say, in accepted NAME LINE POSITION.
in_range() {
    accepted 'width 64' 64,6364136223846793005,1442695040888963407,1,1099511627776,1000 777
    accepted 'width 64, all as large as can be' \
        64,18446744073709551615,18446744073709551615,18446744073709551615,0,18446744073709551615 1
    accepted 'multiplier 15 at width 4' 4,15,0,1,0,2 1
    accepted 'first 2^64 - 2, count 1' 4,5,3,1,18446744073709551614,1 0
    accepted 'first 0, count 2^64 - 1' 4,5,3,1,0,18446744073709551615 15
    accepted 'even multiplier, width 64' 64,18446744073709551614,1,12345678901234567890,3,100 20
    accepted 'width 0, seed 1' 0,16807,0,1,0,16 15
    accepted 'width 0, seed 2^31 - 2' 0,16807,0,2147483646,1099511627776,1000 777
    accepted 'width 0, first 2^64 - 2, count 1' 0,16807,0,1043618065,18446744073709551614,1 0
    accepted 'width 0, first 0, count 2^64 - 1' 0,16807,0,1043618065,0,18446744073709551615 2147483645
}

# archives_in_pieces EXAMPLE NOTHING LONGEST: what is printed for the example, for 0 bytes and for the longest archive.
archives_in_pieces() {
    fed 'archive in pieces' "$1" 4,5, 3,1,0,16 '\n' 10,371 ',995,73,100,8\n'
    fed 'archive in pieces, byte 10 missing' refused,2,2 4,5, 3,1,0,16 '\n' 10,371,995,73,100,8
    fed 'archive in pieces, line 2 equals line 1' refused,11,2 4,5, 3,1,0,16 '\n' 4,5,3,1,0 ',16\n'
    fed 'archive in pieces, 0 bytes' "$2" '' ''
    local bytes
    bytes=$(longest)
    fed 'archive in pieces, 65536 bytes' "$3" "${bytes:0:20000}" "${bytes:20000:1}" "${bytes:20001}" '\n'
    fed 'archive in pieces, 65537 bytes' refused,1,0 "${bytes:0:20000}" "${bytes:20000}" '\n' '\n'
}

# question_first: what is no question is told before the file is looked at.
question_first() {
    fresh
    answers 'bad question, missing archive' 'x\n' question
    mkdir "$folder/archive.csv"
    answers 'bad question, a folder as archive' 'x\n' question
    archive 'spoiled'
    answers 'bad question, refused archive' 'x\n' question
    fresh
    mkfifo "$folder/archive.csv"
    local limit=10
    answers 'bad question, a pipe that nobody writes to as archive' 'x\n' question
}

# unwritten NAME QUESTION SENTENCE: output that can't be written is told in this sentence on standard error.
unwritten() {
    (cd "$folder" && printf '%b' "$2" | timeout "$limit" "$program" >/dev/full 2>"$work/errors")
    told "standard output is full, $1" "$3"
}

# told NAME SENTENCE: standard error has this sentence and nothing else.
told() {
    if printf '%s\n' "$2" | cmp -s - "$work/errors"; then
        report ok "$1: $2"
    else
        report FAIL "$1: wanted $2, got on standard error$(head -c 200 "$work/errors" | od -An -c | tr -s ' \n' ' ')"
    fi
}

# done_with NAME: the count of what was compared; fails if any failed.
done_with() {
    echo "$1: $compared compared, $failed failed"
    [ "$failed" -eq 0 ]
}
