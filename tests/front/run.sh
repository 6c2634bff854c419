#!/usr/bin/env bash
# Tests of the front door: each exit status, what goes to which output, and which bytes and words a program gets. The
# first half runs the programs themselves. The second has stubs in their place, in a tree of its own with the few tools
# that the front door may use, so that a machine without rt or without an emulator can be tried too.
set -euo pipefail
cd "$(dirname "$0")/../.."
root=$PWD scratch=$(mktemp -d)
trap 'rm -rf "$scratch"' EXIT

# Called by door, in the directory from, with the tools of path.
door=$root/lanolin from=$root path=$PATH calls=0
fail() { echo "lanolin $tried: $*"; exit 1; }

# tries STATUS WORDS..: the front door, called with these words, exits so
tries() {
  local status=0
  calls=$((calls + 1)) tried=${*:2}
  (cd "$from" && PATH=$path "$door" "${@:2}") >"$scratch/out" 2>"$scratch/err" || status=$?
  [ "$status" = "$1" ] || fail "exits $status, not $1: $(cat "$scratch/err")"
}
# On standard output: shows FILE's bytes, ends with a line. On standard error: says words, says them first, lacks them.
shows() { diff "$scratch/out" "$1" || fail "shows something else"; }
ends() { [ "$(tail -n 1 "$scratch/out")" = "$1" ] || fail "does not end with '$1': $(cat "$scratch/out")"; }
says() { grep -qF -- "$1" "$scratch/err" || fail "does not say '$1': $(cat "$scratch/err")"; }
first() { head -n 1 "$scratch/err" | grep -qF -- "$1" || fail "does not say '$1' first: $(cat "$scratch/err")"; }
lacks() { if grep -qF -- "$1" "$scratch/err"; then fail "says '$1'"; fi; }
# quiet out, quiet err: nothing is there
quiet() { [ ! -s "$scratch/$1" ] || fail "has on standard $1: $(cat "$scratch/$1")"; }

# lists FILE WORDS..: the listing is this file's
lists() { tries 0 list "${@:2}"; shows "$1"; }
# refused NUMBER REASON FILE
refused() { tries 1 list "$3"; ends "refused $1"; says "$2"; says docs/REFUSALS.md; }
# misused WORDS ARGUMENTS..: what was wrong stands first, then how it is used
misused() { tries 2 "${@:2}"; first "$1"; says "usage: ./lanolin"; quiet out; }
# unfit WORDS ARGUMENTS..: a number, a file or a block that can't be taken
unfit() { tries 2 "${@:2}"; first "$1"; lacks usage; quiet out; }

# ---- the programs
pair=$root/samples/q212.pair listed=$root/crates/list/stdout
lists "$listed" "$pair"
lists "$listed" "$pair" # it is proved by now, so nothing is said
quiet err
lists "$listed" - <"$pair"
lists "$listed" <(cat "$pair")
cp "$pair" "$scratch/a pair"
cp "$pair" "$scratch/-x"
ln -s "$door" "$scratch/door"
from=$scratch
lists "$listed" "a pair"
lists "$listed" ./-x
lists "$listed" -- -x
door=./door lists "$listed" "$pair"
from=$root/tests
door=../lanolin lists "$listed" ../samples/q212.pair
from=$root
tries 0 audit samples/instructions.pair
ends "slots 10"

tries 0 log "$pair"
shows crates/raw_log/stdout

# ---- find: a file, a directory, no such name, and names that begin with a dash or are no plain text
many=samples/instructions.pair
tries 0 find "$pair" q212
shows crates/find/stdout
tries 0 find "$pair" q212 # it is proved by now, so nothing is said
quiet err
tries 0 find --prog-size 16 "$many" q213
shows <(printf 'slot 3 001 q213 201 6\nattr 3 374 100e0000\nattr 3 375 01\n')
tries 0 find "$many" $'q217 \\\xb5'
ends "attr 7 374 80510100"
tries 0 find --dir "$many" done
shows <(printf 'slot 1 002 done 200 8\nattr 1 374 05000000\n')
# none WORDS ARGUMENTS..: there is no such name
none() { tries 1 find "${@:2}"; ends none; says "$1"; lacks REFUSALS; }
none "no file is named 'done'" "$many" done
none "no directory is named 'q212'" "$many" q212 --dir
none "no file is named 'q21'" - q21 <"$many"
none "no file is named '-x'" -- "$many" -x
none "no file is named" "$many" "$(printf 'q%.0s' {1..2000})"
tries 1 find crates/check_edges/data/all-erased q212
ends "refused -84"
says "neither block"
misused "find takes FILE and NAME, not 1 words" find "$pair"
misused "find takes FILE and NAME, not 3 words" find "$pair" q212 q213
misused "--dir goes with find alone" list --dir "$pair"
unfit "NAME is empty" find "$pair" ""

refused -84 "neither block has a valid commit" crates/check_edges/data/all-erased
tries 1 log crates/check_edges/data/all-erased # the log is shown all the same
ends "refused -84"
grep -q '^block 1 rev 4294967295$' "$scratch/out" || fail "shows no log"
refused -2 "more than 1,023 slots" crates/check_edges/data/count-1024
refused -202 "not regular" samples/real/empty-128-0-1.pair
[ "$(wc -l <"$scratch/out")" = 7 ] || fail "-202 comes behind six lines of the record"

# ---- littlefs's rule: by it real pairs are shown as samples/make_listings.py says, and where it would help it is said
hint="littlefs's own rule takes this pair: try --littlefs"
# expects OUTPUT CASE: what samples/listings expects of a case, in the file named text
expects() { sed -n "/^== $2\$/,/^== /{/^== /!p}" "samples/listings/$1" >"$text"; }
text=$scratch/text
for real in empty-128-0-1 move-256-pending-69-70 attrs-512-2-3; do
  for shown in "list expected" "audit audited"; do
    read -r command output <<<"$shown"
    expects "$output" "real-$real"
    status=0
    [[ $(tail -n 1 "$text") != "refused -202" ]] || status=1
    tries "$status" "$command" "samples/real/$real.pair"
    shows "$text"
    if [ "$status" = 1 ]; then says "$hint"; else quiet err; fi
    expects "$output-littlefs" "real-$real"
    tries 0 "$command" "samples/real/$real.pair" --littlefs
    shows "$text"
    quiet err
  done
done
real=samples/real/empty-128-0-1.pair
expects expected-littlefs real-empty-128-0-1
lists "$text" --littlefs - <"$real"
lists "$text" --littlefs --prog-size 8 "$real"
lists "$listed" --littlefs "$pair" # what is regular by document 01 is shown as without it
{ head -c 256 /dev/zero && cat "$real"; } >"$scratch/volume"
sed 's/^block 1$/block 3/' "$text" >"$scratch/three"
lists "$scratch/three" --block-size 128 --pair 2,3 --littlefs "$scratch/volume"
lists "$scratch/three" --littlefs --pair=3,2 --block-size=128 --prog-size=16 - <"$scratch/volume"
tries 1 list --block-size 128 --pair 2,3 "$scratch/volume"
says "$hint"
tries 1 list --littlefs crates/check_edges/data/all-erased
ends "refused -84"
# a pair that neither rule takes: its bytes, and 0xff behind them
bytes=$(sed -n 's/^irregular-struct \([0-9a-f]*\),ff\*229$/\1/p' samples/listings/cases)
{ printf "$(sed 's/../\\x&/g' <<<"$bytes")" && head -c 229 /dev/zero | tr '\0' '\377'; } >"$scratch/neither"
refused -202 "where a real littlefs compacted" "$scratch/neither"
lacks "--littlefs"
tries 1 list --littlefs "$scratch/neither"
ends "refused -202"
says "by littlefs's own rule either"
lacks "--littlefs"

# ---- a pair out of a volume
# A volume whose blocks 4 and 5 are the pair's: block 4 answers, and nothing else differs.
volume=$scratch/volume four=$scratch/four
{ head -c 512 /dev/zero && cat "$pair" && head -c 256 /dev/zero; } >"$volume"
sed 's/^block 0$/block 4/' "$listed" >"$four"
lists "$four" --block-size 128 --pair 4,5 "$volume"
quiet err
lists "$four" "$volume" --pair 0x4,0x05 --block-size 0x80
lists "$four" --block-size=128 --pair=5,4 --prog-size 4 - <"$volume"
lists "$listed" --prog-size 016 "$pair" # not octal
tries 0 log --full --block-size 128 --pair 5,4 "$volume"
ends "block 4 answers"
grep -q '^      0000000c: 71 32 31 32  *q212$' "$scratch/out" || fail "does not show all data"
tries 1 list --block-size 128 --pair 6,7 "$volume"
says "neither block"
head -c 800 "$volume" >"$scratch/short"
lists "$four" --block-size 128 --pair 4,5 "$scratch/short"
says "no multiple of 128"
unfit "block 6 is outside" list --block-size 128 --pair 5,6 "$scratch/short"

# ---- wrong arguments, and files that can't be read or can't be a pair
misused "no command is given"
misused "no command lists" lists "$pair"
misused "takes one FILE" list
misused "takes one FILE" list "$pair" "$pair"
misused "no option --nope" list --nope "$pair"
misused "--prog-size needs a value" list "$pair" --prog-size
misused "--pair needs a value" list --pair= "$pair"
misused "--full goes with log alone" list --full "$pair"
misused "log shows every log as it is, and needs no rule" log --littlefs "$pair"
misused "no option --littlefs=1" list --littlefs=1 "$pair"
misused "go together" list --block-size 128 "$pair"
misused "go together" audit --pair 4,5 "$pair"
misused "lib takes no argument" lib all
unfit "the program size is a number" list --prog-size x "$pair"
unfit "the program size is 4 to 512, not 3" list --prog-size 3 "$pair"
unfit "the program size is 4 to 512, not 513" list --prog-size 513 "$pair"
unfit "the block size is 128 to 32768, not 64" list --block-size 64 --pair 0,1 "$volume"
unfit "the block size is 128 to 32768, not 65536" list --block-size 65536 --pair 0,1 "$volume"
unfit "130 is none of 16" list --block-size 130 --pair 0,1 "$volume"
unfit "with a comma" list --block-size 128 --pair 4 "$volume"
unfit "a block number is a number" list --block-size 128 --pair 4,5,6 "$volume"
unfit "not 4 twice" list --block-size 128 --pair 4,0x4 "$volume"
unfit "block 8 is outside" list --block-size 128 --pair 7,8 "$volume"
unfit "is not there" list "$scratch/missing"
unfit "is a directory" audit "$scratch"
unfit "has 1024 bytes, and a pair" list --prog-size 20 "$volume"
unfit "standard input has 0 bytes" list - </dev/null
for help in help --help -h "list --help" "lib -h"; do
  tries 0 $help
  quiet err
  [[ $(cat "$scratch/out") == "usage: ./lanolin "*--littlefs* ]] || fail "does not say how it is used"
done

# ---- stubs: programs that say what they are told and how much they are given, an rt that notes its words and where it
# is asked, and an apt-get that no one may call
tree=$scratch/tree tools=$scratch/tools
for crate in list find audit raw_log lanolin; do mkdir -p "$tree/crates/$crate/out"; done
mkdir -p "$tree/.ci" "$tools"
cp "$door" "$tree"
door=$tree/lanolin path=$tools
for tool in bash cat cp dd dirname env grep mkdir mktemp readlink rm sed tail tee wc; do ln -s "$(command -v $tool)" "$tools"; done
# stub FILE COMMAND: a program that does this
stub() { printf '#!/usr/bin/env bash\n%s\n' "$2" >"$1" && chmod +x "$1"; }
program() { for crate in list find audit raw_log; do stub "$tree/crates/$crate/out/$crate" "$1"; done; }
stub "$tools/uname" 'echo x86_64'
stub "$tools/apt-get" "echo >$scratch/installed"
stub "$tools/rt" "echo \"\${PWD##*/} \$*\" >>$scratch/asked
echo 'rt: chose --jobs 2 for format' >&2
echo \"rt: running out/\${PWD##*/}; to give it other input, run that file yourself\" >&2
echo 'logic=proved functions=52 sum=0'"
touch "$tree/crates/lanolin/out/liblanolin.a"
stub "$tree/.ci/run" 'exit 7'

# told COMMAND WORDS BYTES ARGUMENTS..: what the program is told and given
told() {
  tries 0 "$1" "${@:4}"
  [ "$(cat "$scratch/out")" = "told '$2', given $3" ] || fail "has the program $(cat "$scratch/out")"
}
program "echo \"told '\$*', given \$(wc -c)\""
told log "" 256 "$pair"
says "proving format"
told log "--full" 256 "$pair" --full
told log "8 0 1" 256 --prog-size 8 "$pair"
told log "--full 16 4 7" 256 --full --block-size 128 --pair 4,7 "$volume"
[ "$(sort -u "$scratch/asked")" = "raw_log run" ] || fail "asks rt otherwise: $(cat "$scratch/asked")"
told list "" 256 "$pair"
told list "16 0 1 1" 256 --littlefs "$pair"
told audit "8 0 1 1" 256 "$pair" --prog-size 8 --littlefs
told audit "16 4 7 1" 256 --littlefs --block-size 128 --pair 4,7 "$volume"
told find "1 a b" 256 "$pair" "a b"
told find "2 q212 16 4 7 1" 256 --dir --littlefs --block-size 128 --pair 4,7 "$volume" q212

# After -202 by document 01's rule, and then alone, the program is asked once more; what it shows then is not shown.
# asked_again SAID WORDS ARGUMENTS..: what is said of littlefs's rule, and the words of each time
asked_again() {
  : >"$scratch/words"
  tries 1 "${asks:-list}" "${@:3}"
  [ "$(grep -F -- --littlefs "$scratch/err")" = "${1:+lanolin: $1}" ] || fail "says $(cat "$scratch/err")"
  [ "$(paste -sd/ "$scratch/words")" = "$2" ] || fail "has the program told $(cat "$scratch/words")"
  [ "$(wc -l <"$scratch/out")" = 1 ] || fail "shows $(cat "$scratch/out")"
}
note="echo \"\$*\" >>$scratch/words"
program "$note; [ \$# = 4 ] && echo fine || echo 'refused -202'"
asked_again "$hint" "/16 0 1 1" "$pair"
asked_again "$hint" "8 4 7/8 4 7 1" --prog-size 8 --block-size 128 --pair 4,7 "$volume"
program "$note; [ \$# = 6 ] && echo none || echo 'refused -202'"
asks=find asked_again "$hint" "1 q212/1 q212 16 0 1 1" "$pair" q212 # none is an answer too
program "$note; echo 'refused -202'"
asked_again "" "/16 0 1 1" "$pair"
asked_again "" "16 0 1 1" --littlefs "$pair"
program "$note; [ \$# = 4 ] || echo 'refused -202'"
asked_again "" "/16 0 1 1" "$pair" # nothing shown is not taken
program "$note; echo 'refused -84'"
asked_again "" "" "$pair"
program 'echo "refused -22"'
tries 1 log "$pair"
says "outside of the limits"
program 'echo "refused -84"'
tries 1 log "$pair"
says "neither block"
lacks "lanolin log"
tries 0 lib
says "proving format"
grep -qF -- "-I$tree/include controller.c $tree/target/staticlib/liblanolin.a" "$scratch/out" || fail "says no link"
[ "$(tail -n 1 "$scratch/asked")" = "lanolin lib" ] || fail "asks rt otherwise: $(cat "$scratch/asked")"
tries 7 test # the gate's own

# ---- what can't be built or run
stuck() { tries 3 "${@:2}"; says "$1"; quiet out; }
program 'exit 1'
stuck "log did not run" log "$pair"
program :
stuck "log showed nothing" log "$pair"
stub "$tools/rt" 'echo "rt: lookup is not proved"; exit 1'
stuck "lookup is not proved" log "$pair"
stuck "lookup is not proved" lib
stub "$tools/uname" 'echo aarch64'
stuck "apt-get install qemu-user libc6-amd64-cross" log "$pair"
lacks "not proved" # it is asked first
[ ! -e "$scratch/installed" ] || fail "installs unasked"
stub "$tools/uname" 'echo x86_64'
rm "$tools/rt"
stuck "'rt' is not on this machine" log "$pair"
stuck "'rt' is not on this machine" lib
echo "./lanolin: $calls calls, all as expected"
