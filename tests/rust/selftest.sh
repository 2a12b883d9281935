#!/bin/sh
# Tests of these programs themselves: the unit tests, the model against itself,
# and commands that give wrong answers, which `compare` must find.
set -eu
cd "$(dirname "$0")"
: "${CARGO_TARGET_DIR:=$PWD/../../target/tests}"
export CARGO_TARGET_DIR
cargo test --release --offline --quiet
cargo build --release --offline --quiet

bin=$CARGO_TARGET_DIR/release
model=$bin/model
scratch=$(mktemp -d)
trap 'rm -r "$scratch"' EXIT
saved=$scratch/difference.txt

# wrong MESSAGE: ends these tests.
wrong() {
    echo "selftest: $1:" >&2
    head -c 2000 "$scratch/output" >&2
    exit 1
}

# ends_with STATUS COMMAND...: the command ends with this status; its output is kept.
ends_with() {
    status=0
    wanted=$1
    shift
    "$@" >"$scratch/output" 2>&1 || status=$?
    [ "$status" = "$wanted" ] || wrong "$*: status $status instead of $wanted"
}

# says MESSAGE: the output has a line with this message.
says() {
    grep -q -e "$1" "$scratch/output" || wrong "not '$1'"
}

# expect STATUS MESSAGE ARGUMENT...: compare ends with this status and says so.
expect() {
    wanted=$1 message=$2
    shift 2
    ends_with "$wanted" "$bin/compare" --save "$saved" "$@"
    says "$message"
}

expect 0 "no difference" --min 12000 --each 1..8 --bytes table,info tables 1 12000 , large 1 20 , bad -- "$model"
expect 0 "no difference" --min 16000 prefixes -- "$model"
expect 0 "no difference" --min 13500 --each 1..7 --bytes table,file,text,little-file,little-text fields -- "$model"
expect 0 "no difference" --min 19500 torn -- "$model"
expect 0 "no difference" --min 108000 types , types 1 1000 -- "$model"
expect 0 "no difference" --min 10000 --each 1..14 --trimmed 10 --bytes file,text,little-file,little-text \
    standard 1 10000 -- "$model"
expect 0 "no difference" --min 10000 --each 1..12 --each-of place1:1..11 --bytes file,little-file \
    incremental 1 10000 -- "$model"
expect 0 "no difference" --min 11000 --each 1..14 small-file -- "$model"
expect 0 "no difference" --min 16900 looks -- "$model"
expect 0 "no difference" --min 16000 rows -- "$model"
expect 0 "no difference" --min 7900 --each-of place1:1..11 one-bucket -- "$model"
expect 0 "no difference" --min 14800 --each-of view:1..11 --each-of view:13..14 --each-of viewplan:1..14 \
    --each-of padded:1..11 --each-of padded:13..14 --each-of paddedplan:1..14 --trimmed 350 texts -- "$model"
expect 0 "no difference" --min 14000 --each-of keyword:1..8 --each-of keyword:15..16 --each-of field:1..5 --each-of field:7..8 \
    --each-of field:15..16 --bytes table,keywords keywords 1 2000 , keyword-fields -- "$model"
expect 0 "no difference" --min 10 files-large 1 10 -- "$model"

expect 1 "difference at request" tables 1 3000 -- sh -c "'$model' | sed 's/^refused 7/refused 1/'"
# The saved request is the one with the difference.
"$model" <"$saved" | grep -qx 'refused 7 [0-9]*'
expect 1 "difference at request" prefixes -- sh -c "'$model' | sed 's/^ok rows=7/ok rows=8/'"
# A type with other bits, a refusal in place of 0, a sign that does not count, only the last two digits, a plus.
expect 1 "difference at request" types -- sh -c "'$model' | sed 's/^ok 16$/ok 8/'"
[ "$(cat "$saved")" = "elementbits 3" ]
expect 1 "difference at request" types 1 100 -- sh -c "'$model' | sed 's/^ok 0$/refused 8/'"
expect 1 "difference at request" types -- sh -c "sed 's/ -/ /' | '$model'"
expect 1 "difference at request" types -- sh -c "sed 's/[0-9]*\\([0-9][0-9]\\)$/\\1/' | '$model'"
expect 1 "difference at request" bad -- sh -c "sed 's/+//' | '$model'"
# A room that is not cleared, or not filled.
expect 1 "difference at request" standard 1 1000 -- sh -c "'$model' | sed 's/^refused 9 0 00/refused 9 0 a5/'"
expect 1 "difference at request" small-file -- sh -c "'$model' | sed 's/^ok SSM be/ok SSM 00/'"
# A header of the other byte order by its Bool; a DMInfo of few bytes as an object, and the other way round.
expect 1 "difference at request" standard 1 1000 -- sh -c "'$model' | sed 's/^refused 1 8 /refused 6 29 /'"
expect 1 "difference at request" prefixes -- sh -c "'$model' | sed 's/^refused 7 906$/refused 1 914/'"
expect 1 "difference at request" prefixes -- sh -c "'$model' | sed 's/^refused 1 914$/refused 7 906/'"
# LOOKS: one more, one less than the most, 1 for a single entry, not there, in a view, after a refusal, in IncrementalStMan.
placed='^(ok [0-9]+ [0-9]+)'
for change in "s/$placed 2 /\\1 3 /" "s/$placed 12 /\\1 11 /" "s/$placed 0 be/\\1 1 be/" "s/$placed [0-9]+ /\\1 /" \
    "s/$placed ([^ ]*)\$/\\1 0 \\2/" "s/^refused 9 /refused 9 0 /" "s/$placed 0 (-|0*)\$/\\1 1 \\2/"; do
    expect 1 "difference at request" looks -- sh -c "'$model' | sed -E '$change'"
done
# Row numbers of 64 bits: a count in its low half, the largest refused, one more accepted, one below 0 accepted or left to the map,
# a row as the one with the same low half, and the old range of counts and version of buckets.
for change in 's/^ok rows=4294967303 /ok rows=7 /' 's/^ok rows=4611686018427387904 .*/refused 4 813/' \
    's/^refused 4 [0-9]+$/ok rows=4611686018427387905/' 's/^refused 4 [0-9]+ ([0-9a-f-]+)$/ok SSM \1/' \
    's/^refused 4 [0-9]+ /refused 11 0 /' 's/^ok rows=2147483648 .*/refused 4 21/' 's/^ok ISM .*/refused 3 512 -/'; do
    expect 1 "difference at request" rows -- sh -c "'$model' | sed -E '$change'"
done
expect 1 "difference at request" rows -- sh -c "sed -E 's/^(place .*) 4294967296 ([01] 0)\$/\1 0 \2/' | '$model'"
expect 1 "difference at request" incremental 1 2000 -- sh -c "'$model' | sed -E 's/^refused 4 [0-9]+ /refused 11 0 /'"
expect 1 "difference at request" standard 1 2000 -- sh -c "'$model' | sed -E 's/^refused 4 (9|1)[0-9]+ /refused 11 0 /'"
# Place in one bucket: a full check, a row that is not there after the buckets, the byte of a bucket 0, a room that is kept, a look,
# a place of a String or of StandardStMan, and 9 in place of what comes before the row.
expect 1 "difference at request" one-bucket -- sh -c "sed 's/^place1/place/' | '$model' | sed -E 's/$placed 0 /\1 /'"
for change in 's/^refused 9 0 /refused 11 0 /' 's/^refused 1 [0-9]+ /refused 1 0 /' 's/^(refused 11 0) 00/\1 a5/' \
    "s/$placed 00/\1 a5/" "s/$placed /\1 0 /" 's/^refused 8 0 /ok 0 96 /' 's/^refused 10 0 /refused 9 0 /'; do
    expect 1 "difference at request" one-bucket -- sh -c "'$model' | sed -E '$change'"
done
# Views: all padded, none padded, by plan or by position alone; one zero more, an empty one refused, or at the file's start; a
# place with the text's bits.
for change in 's/^view/padded/' 's/^padded/view/' 's/^viewplan/paddedplan/' 's/^paddedplan/viewplan/' 's/^view /padded /' \
    's/^padded /view /'; do
    expect 1 "difference at request" texts -- sh -c "sed '$change' | '$model'"
done
for change in 's/^(ok [0-9]+) 4 /\1 5 /' 's/^ok [0-9]+ 0 /refused 9 0 /' 's/^ok [0-9]+ 0 /ok 0 0 /' \
    's/^(ok [0-9]+) 64 ([0-9]+) /\1 32 \2 /'; do
    expect 1 "difference at request" texts -- sh -c "'$model' | sed -E '$change'"
done
expect 1 "difference at request" standard 1 2000 -- sh -c "sed 's/^viewplan/paddedplan/' | '$model'"
# Keywords: a String without its length, an Array without its header, an array's element type for its own, the second of equal
# names; 16 for 15, 8 for 16 and 16 for 8; a byte with 16, none with 1 to 7, and one counted in the record; a field without its
# name's place, and with the name's length counted to it; a field asked as a keyword, and a column's keyword as the table's.
for change in 's/^ok 11 ([0-9]+) 7$/ok 11 \1 3/' 's/^ok 24 ([0-9]+) 40$/ok 24 \1 23/' 's/^ok 24 /ok 11 /' \
    's/^ok 11 2058 9$/ok 11 2067 10/' 's/^refused 15 0$/refused 16 0/' 's/^refused 16 0$/refused 8 0/' 's/^refused 8 0$/refused 16 0/' \
    's/^refused 16 0$/refused 16 4/' 's/^(refused [1-7]) [0-9]+$/\1 0/' 's/^refused 1 99$/refused 1 23/' \
    's/^ok [0-9]+ [0-9]+ ([0-9]+ [0-9]+ [0-9]+)$/ok \1/' 's/^ok ([0-9]+) 4 (.* .* .*)$/ok \1 8 \2/'; do
    expect 1 "difference at request" keyword-fields -- sh -c "'$model' | sed -E '$change'"
done
expect 1 "difference at request" keywords 1 500 -- sh -c "sed 's/^field \(.*\) [0-9]*\$/keyword \1/' | '$model'"
expect 1 "difference at request" keywords 1 500 -- sh -c "sed 's/^\(keyword [^ ]*\) [0-9]* /\1 table /' | '$model'"
# The byte: one more, 0 in its place, not there, in a room's place, and in an answer that is not refused; not in a listing.
for change in 's/^(refused . [0-9]*)3( |$)/\14\2/' 's/^(refused .) [0-9]+/\1 0/' 's/^(refused .) [0-9]+/\1/' \
    's/^(refused .) [0-9]+ [0-9a-f-]+$/\1 0/' 's/^ok SSM/ok 0 SSM/' 's/^(726566757365642...)20.*0a$/\10a/'; do
    expect 1 "difference at request" fields -- sh -c "'$model' | sed -E '$change'"
done
# A byte with a refusal above 7; the file's place of a byte in index text; the length of a torn file less 1.
expect 1 "difference at request" small-file -- sh -c "'$model' | sed -E 's/^(refused (8|9|1[0-4])) 0/\1 4/'"
expect 1 "difference at request" torn -- sh -c "'$model' | sed 's/^refused 7 134 /refused 7 798 /'"
expect 1 "difference at request" torn -- sh -c "'$model' | sed 's/^refused 1 831 /refused 1 830 /'"
expect 1 "difference at request" incremental 1 1000 -- sh -c "'$model' | sed 's/^refused 11/refused 1/'"
# The saved request again.
expect 1 "difference at request 1 " --replay "$saved" -- sh -c "'$model' | sed 's/^refused 11/refused 1/'"
expect 0 "1 requests compared" --replay "$saved" -- "$model"
expect 1 "can not be read" --replay "$scratch/none" -- "$model"
expect 1 "no answer" tables 1 3000 -- sh -c "'$model' | head -n 5"
expect 1 "no answer" tables 1 3000 -- true
expect 1 "more than 100 answers" tables 1 100 -- sh -c "'$model'; echo ok"
expect 1 "ended with" tables 1 100 -- sh -c "'$model'; exit 3"
expect 1 "does not start" tables 1 100 -- "$scratch/none"
expect 1 "are needed" --min 101 tables 1 100 -- "$model"
expect 1 "did not occur: 9" --each 1..9 tables 1 3000 -- "$model"
expect 1 "did not occur with place1: 12, 13" --each-of place1:11..13 one-bucket -- "$model"
expect 1 "did not occur with padded: 12" --each-of padded:11..14 texts -- "$model"
expect 1 "only 0 answers of view were shorter, 1 are needed" --trimmed 1 small-file -- "$model"
expect 1 "answers of view were empty, 1000 are needed" --trimmed 1000 texts -- "$model"
expect 1 "with a byte of the text: 1, 2, 3, 4, 6, 7" --bytes table,text tables 1 3000 -- "$model"
expect 1 "with a byte of the file: 2, 3, 5, 6" --bytes file torn -- "$model"
expect 1 "with a byte of the keywords: 1, 2, 3, 4, 5, 7" --bytes keywords bad -- "$model"
expect 1 "did not occur with field: 9, 10, 11, 12, 13, 14" --each-of field:8..16 keywords 1 2000 -- "$model"
expect 2 "usage" tables -- "$model"

# A campaign asks as many requests as it says, and tells how to ask the one with a difference again.
ends_with 0 ../campaign 5 1234 -- "$model"
says "^1234 requests compared, no difference"
says "^elementbits *24 "
says "^place1 "
says "^padded "
says "^paddedplan "
says "^view, shorter "
for count in 1 2 5 49 50 99; do
    ends_with 0 ../campaign 5 "$count" -- "$model"
    says "^$count requests compared, no difference"
done
ends_with 1 ../campaign 5 1234 -- sh -c "'$model' | sed 's/^refused 11/refused 1/'"
again=$(sed -n 's/^campaign: to ask it again: //p' "$scratch/output")
ends_with 1 sh -c "cd ../.. && $again"
says "difference at request 1 "
ends_with 0 ../campaign --help
for arguments in "" 5 "5 0" "5 x" "-5 1" "5 100000001" "5 1 2" "5 1 --"; do
    # Each word is an argument.
    # shellcheck disable=SC2086
    ends_with 2 ../campaign $arguments
done

# The same seed gives the same requests, and the samples are up to date.
for set in tables types keywords standard incremental; do
    "$bin/requests" "$set" 1 200 >"$scratch/requests"
    "$bin/requests" "$set" 1 200 | cmp - "$scratch/requests"
done
for set in fields torn looks rows one-bucket texts keyword-fields; do
    "$bin/requests" "$set" >"$scratch/requests"
    "$bin/requests" "$set" | cmp - "$scratch/requests"
done
"$bin/requests" sample "$scratch/samples"
diff -r "$scratch/samples" ../../samples

echo "selftest: all passed"
