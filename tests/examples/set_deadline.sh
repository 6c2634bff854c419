#!/usr/bin/env bash
# The example that writes, on the listing's pair, on pairs a step from it and on pairs that a real littlefs wrote: for
# each reason why there is no room, what it says, and the deadline afterwards; with both erased bytes, on pairs of that
# flash and of the other. What it refuses leaves the file as it was.
#
#     set_deadline.sh SET_DEADLINE DEADLINE     the commands that set and print a deadline
set -euo pipefail
set=$1 get=$2
pair=$(mktemp)
trap 'rm -f "$pair" "$pair.full"' EXIT

# tried OFFSET BYTES 'PROG_SIZE [ERASED]' SAID: the listing's pair with these bytes at this offset
tried() {
  cp samples/q212.pair "$pair"
  printf "$2" | dd of="$pair" bs=1 seek="$1" conv=notrunc status=none
  $set "$pair" 0 3600 $3 | diff - <(printf "$4\n")
  $get "$pair" 0 | diff - <(echo 3600)
}
again="compacted\ncommitted: revision 2, end"
# the deadline's 8 bytes, a forward check of 12, and the check, up to the next multiple
tried 0 '' 16 "committed: revision 1, end 80"
# the log ends at 48, no multiple of 32; a compaction ends at 64, and the commit behind it at 96, by both program sizes
tried 0 '' 32 "no room, -211: the log's end is no multiple of the program size\n$again 96"
# its check as one of type 0x501, and the checksum of that
moved="no room, -212: the end tag has the wrong validity bit"
tried 32 '\x5f\xfc\x09\x37\x9b\xc2\x51' 16 "$moved\n$again 96"
# the listing brought to 0x00 flash; a commit there, without a forward check, up to 112; and brought back
tried 0 '' '16 00' "$moved\n$again 96"
$set "$pair" 0 7 16 00 | diff - <(echo "committed: revision 2, end 112")
$set "$pair" 0 8 16 ff | diff - <(printf "$moved\ncompacted\ncommitted: revision 3, end 96\n")
$get "$pair" 0 | diff - <(echo 8)
# a check of 0x00 flash before a room of 0xff: not erased, though nothing was written there
tried 32 '\x5f\xfc\x09\x37\x9b\xc2\x51' '16 00' \
  "no room, -213: byte 48 isn't erased, as after a commit that was cut short\n$again 96"
tried 48 '\x67' 16 "no room, -213: byte 48 isn't erased, as after a commit that was cut short\n$again 96"
tried 100 '\x00' 16 "no room, -213: byte 100 isn't erased, which no commit of ours left\n$again 96"
# three commits fill the block from 48 on: up to 80, to 112, and without a forward check to 128
cp samples/q212.pair "$pair"
for seconds in 1 2 3; do $set "$pair" 0 $seconds; done |
  diff - <(printf "committed: revision 1, end %s\n" 80 112 128)
$set "$pair" 0 6 | diff - <(printf "no room, -28: the block is full\n$again 96\n")
$get "$pair" | diff - <(echo 6)
# in the place of one of two bytes, which can't be read
cp samples/instructions.pair "$pair"
$set "$pair" 8 3600 | diff - <(echo "committed: revision 7, end 464")
$get "$pair" 8 | diff - <(echo 3600)

# littlefs's own pairs, which have names without creates, of 0xff flash and of 0x00. real PAIR SLOT 'PROG ERASED' SAID
real() {
  cp "samples/$1.pair" "$pair"
  $set "$pair" "$2" 3600 $3 | diff - <(printf "$4\n")
  $get "$pair" "$2" | diff - <(echo 3600)
}
# in the place of one of eight bytes: 28 bytes behind the end, 256
real real/attrs-512-0-1 3 '16 ff' "committed: revision 4, end 288"
real zero/attrs-512-0-1 3 '16 00' "committed: revision 4, end 288"
# torn by a power cut while a deadline was set: four slots compacted end at 160
torn() { printf "no room, -213: byte $1 isn't erased, as after a commit that was cut short\ncompacted"; }
real real/cut-512-setattr-torn-0-0-1 3 '16 ff' "$(torn 448)\ncommitted: revision 3, end 192"
real zero/cut-512-setattr-torn-0-0-1 3 '16 00' "$(torn 304)\ncommitted: revision 3, end 192"
# full: five slots compacted, with a create each, end at 176; and two with a tail and a move state at 160
real real/cut-512-setattr-torn-0-2-3 1 '16 ff' "no room, -28: the block is full\n$again 208"
real zero/churn-256-14-15 0 '16 00' "no room, -28: the block is full\ncompacted\ncommitted: revision 6, end 192"
# a name of slot 1,022 alone: four commits fill the block, and there is no room for 1,023 creates
cp crates/check_edges/data/count-1023 "$pair"
for seconds in 3 4 5 6; do $set "$pair" 0 $seconds >/dev/null; done
cp "$pair" "$pair.full"
status=0
said=$($set "$pair" 0 7 2>&1) || status=$?
[[ $status = 1 && $said == *'no room, -28'* && $said == *refused*-28* ]] ||
  { echo "$set exits $status on a full block of names: $said"; exit 1; }
cmp "$pair.full" "$pair"
$get "$pair" 0 | diff - <(echo 6)

# exit status, what is said, the pair, arguments
while IFS=: read -r expected words from arguments; do
  cp "$from" "$pair"
  status=0
  said=$($set "$pair" $arguments 2>&1) || status=$?
  [[ $status = "$expected" && $said == *"$words"* ]] || { echo "$set $arguments exits $status: $said"; exit 1; }
  cmp "$from" "$pair"
done <<'END'
1:-201:samples/q212.pair:1 3600
1:-22:samples/q212.pair:0 3600 3
1:-84:crates/check_edges/data/all-erased:0 3600
2:usage:samples/q212.pair:0
2:usage:samples/q212.pair:0 -1
2:usage:samples/q212.pair:0 3600 x
2:usage:samples/q212.pair:65536 3600
2:usage:samples/q212.pair:0 3600 16 7f
2:usage:samples/q212.pair:0 3600 16 0
2:usage:samples/q212.pair:0 3600 16 0xff
2:usage:samples/q212.pair:0 3600 16 ff 00
END
printf abc >"$pair" # no two blocks of one size
for file in "$pair" missing; do
  status=0
  $set "$file" 0 3600 2>/dev/null || status=$?
  [ $status = 2 ] || { echo "$set exits $status on $file"; exit 1; }
done
