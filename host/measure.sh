#!/usr/bin/env bash
# Instructions that a program takes for a call, counted by callgrind.
#   host/measure.sh PROGRAM [ARGUMENT..]            every case
#   CASES=set host/measure.sh PROGRAM [ARGUMENT..]  the cases with `set` in their names
# The program gets a tape as its last argument and prints what `replay` prints:
#   host/measure.sh target/bin/replay
#   host/measure.sh host/target/release/board-tools replay
#
# A case is a pair of tapes that differ by N repetitions of some calls. What is printed is the difference of the two runs, divided by N:
# all instructions, and those outside memcpy, memmove and memset. Reading the records and printing the results is part of it; the case
# `clock get` shows how much that can be. The proved programs test the tables at every call, `board-tools` once a tape.
set -euo pipefail

[ $# -gt 0 ] || { sed -n '2,7s/^# //p' "$0" >&2; exit 2; }
program=("$@")
root=$(CDPATH= cd -- "$(dirname -- "$0")/.." && pwd)
tools=$root/host/target/release/board-tools
[ -x "$tools" ] || { echo "measure: $tools is not built" >&2; exit 2; }
for needed in "$1" valgrind callgrind_annotate; do
    command -v "$needed" >/dev/null || { echo "measure: $needed is not there" >&2; exit 2; }
done
folder=$(mktemp -d)
trap 'rm -rf "$folder"' EXIT

# A text, so many times.
times() {
    local i
    for ((i = 0; i < $2; i++)); do printf '%s\n' "$1"; done
}

# So many ready threads, which run in the order of their numbers.
threads() {
    local t
    for ((t = 0; t < $1; t++)); do echo "startup tx_thread_create thread=$t priority=10 threshold=10 start=1"; done
}

# All instructions of the program on a text, and those in copying functions. The output goes to a file.
count() {
    "$tools" assemble - -o "$folder/tape"
    if ! valgrind --tool=callgrind --callgrind-out-file="$folder/counts" "${program[@]}" "$folder/tape" >"$folder/output" 2>"$folder/log"; then
        cat "$folder/log" >&2
        return 1
    fi
    callgrind_annotate --threshold=100 --auto=no "$folder/counts" | awk '
        { n = $1; gsub(",", "", n) }
        /PROGRAM TOTALS/ { all = n }
        /mem(cpy|move|set)/ && n ~ /^[0-9]+$/ { copies += n }
        END { printf "%d %d\n", all, copies }'
}

# measure NAME N STATUSES SETUP UNIT: N repetitions of the unit after the set-up. The statuses (decimal) are those that the unit must
# answer: a case that is refused by mistake is no case.
measure() {
    local name=$1 n=$2 statuses=$3 setup=$4 unit=$5 short long answered calls
    [[ $name == *"${CASES:-}"* ]] || return 0
    # The words that messages are taken from are the same on both tapes.
    setup="words [1, 2, 3, 4, 5, 6, 7, 8, 9, 10, 11, 12, 13, 14, 15, 16]"$'\n'$setup
    calls=$(wc -w <<<"$statuses")
    short=$(count <<<"$setup")
    long=$(count < <(printf '%s\n' "$setup"; times "$unit" "$n"))
    answered=$(grep -v '^done' "$folder/output" | tail -n "$calls" | cut -d ' ' -f 1 | xargs)
    if [ "$answered" != "$(xargs <<<"$statuses")" ]; then
        echo "measure: $name: answered $answered and not $statuses" >&2
        return 1
    fi
    awk -v name="$name" -v n="$n" -v calls="$calls" -v short="$short" -v long="$long" 'BEGIN {
        split(short, s, " "); split(long, l, " ")
        all = (l[1] - s[1]) / n
        rest = all - (l[2] - s[2]) / n
        printf "%-52s %4d %5d %10d %10d %10d %10d\n", name, n, calls, all, rest, all / calls, rest / calls
    }'
}

printf '%-52s %4s %5s %10s %10s %10s %10s\n' '' '' calls 'all' 'no copies' 'all' 'no copies'
printf '%-52s %4s %5s %10s %10s %10s %10s\n' case N 'each' 'a unit' 'a unit' 'a call' 'a call'

# ---- what every call costs
measure 'clock get' 400 0 'interrupt tx_time_get' 'interrupt tx_time_get'
measure 'tick, nobody waits' 400 0 'interrupt tick' 'interrupt tick'

# ---- queues
one='startup tx_queue_create queue=0 message_words=1 storage_words=64'
wide='startup tx_queue_create queue=0 message_words=16 storage_words=64'
single='startup tx_queue_create queue=0 message_words=16 storage_words=16'
send='interrupt tx_queue_send queue=0 wait=none message=@0'
front='interrupt tx_queue_front_send queue=0 wait=none message=@0'
receive='interrupt tx_queue_receive queue=0 wait=none'
pair=$send$'\n'$receive
measure 'send, 1 word, store fills up' 60 0 "$one"$'\n'"$send" "$send"
measure 'front send, 1 word, store fills up' 60 0 "$one"$'\n'"$front" "$front"
measure 'send, 16 words, store fills up' 3 0 "$wide"$'\n'"$send" "$send"
measure 'receive, 1 word, store empties' 60 0 "$one"$'\n'"$(times "$send" 64)"$'\n'"$receive" "$receive"
measure 'send and receive, 1 word, empty store' 400 '0 0' "$one"$'\n'"$pair" "$pair"
measure 'send and receive, 1 word, 63 stored' 400 '0 0' "$one"$'\n'"$(times "$send" 63)"$'\n'"$pair" "$pair"
measure 'send and receive, 16 words, empty store' 400 '0 0' "$wide"$'\n'"$pair" "$pair"
measure 'send refused, store full' 400 11 "$single"$'\n'"$send"$'\n'"$send" "$send"
measure 'receive refused, store empty' 400 10 "$single"$'\n'"$receive" "$receive"
handover='thread tx_queue_receive queue=0 wait=forever'$'\n'$send
measure 'receiver waits, send to it, 16 words' 400 '257 0' "$(threads 1)"$'\n'"$single"$'\n'"$handover" "$handover"
past='thread tx_queue_send queue=0 wait=forever message=@0'$'\n'$receive
measure 'sender waits, receive past it, 16 words' 400 '257 0' "$(threads 1)"$'\n'"$single"$'\n'"$send"$'\n'"$past" "$past"
past='thread tx_queue_front_send queue=0 wait=forever message=@0'$'\n'$receive
measure 'front sender waits, receive past it, 16 words' 400 '257 0' "$(threads 1)"$'\n'"$single"$'\n'"$send"$'\n'"$past" "$past"

# ---- event flags
group='startup tx_event_flags_create group=0'
set='interrupt tx_event_flags_set group=0 flags=1 option=or'
get='interrupt tx_event_flags_get group=0 flags=1 option=or wait=none'
other='interrupt tx_event_flags_set group=0 flags=2 option=or'
wait='thread tx_event_flags_get group=0 flags=1 option=or_clear wait=forever'
measure 'get served at once' 400 0 "$group"$'\n'"$set"$'\n'"$get" "$get"
measure 'get refused, flags not set' 400 7 "$group"$'\n'"$get" "$get"
measure 'set AND' 400 0 "$group"$'\n'"${set/%or/and}" "${set/%or/and}"
measure 'set OR, nobody waits' 400 0 "$group"$'\n'"$set" "$set"
for w in 1 8 31; do
    waiting=$(threads "$w")$'\n'$group$'\n'$(times "$wait" "$w")
    again=$set$'\n'$(times "$wait" "$w")
    measure "set OR, $w wait, none woken" 400 0 "$waiting"$'\n'"$other" "$other"
    measure "set OR, $w wait, all woken (one set)" 1 0 "$waiting"$'\n'"$again" "$set"
    measure "set OR, $w wait, all woken, all wait again" 40 "0 $(times 257 "$w" | xargs)" "$waiting"$'\n'"$again" "$again"
done

# ---- block pools
pool='startup tx_block_pool_create pool=0 block_bytes=4 total_bytes=512'
last='startup tx_block_pool_create pool=0 block_bytes=4 total_bytes=8'
allocate='interrupt tx_block_allocate pool=0 wait=none'
release='interrupt tx_block_release pool=0 block=0'
pair=$allocate$'\n'$release
measure 'allocate, 64 blocks run out' 60 0 "$pool"$'\n'"$allocate" "$allocate"
measure 'allocate and release, 64 blocks' 400 '0 0' "$pool"$'\n'"$pair" "$pair"
measure 'allocate refused, no block free' 400 16 "$last"$'\n'"$allocate"$'\n'"$allocate" "$allocate"
handover='thread tx_block_allocate pool=0 wait=forever'$'\n'$release
measure 'allocate waits, release to it' 400 '257 0' "$(threads 1)"$'\n'"$last"$'\n'"$allocate"$'\n'"$handover" "$handover"
