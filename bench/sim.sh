#!/bin/sh
# The simulated modems beside the stand-in modems in C, one program at each: processor time of the modem's process a
# request, of its own and in the system, the best of five runs in turn, and the ratio, which is to be at most 2. The QMI
# request is Get Model, the MBIM command a query of the radio state. Then how long mbimcli takes for the phone book and
# for the messages of the greatest profile there is, the median, which is to be under 20 ms for both. Fails where one of
# the three is missed.
# MODEMKIT names a program that is built already. REQUESTS is how many a run has.
top=$(CDPATH= cd -- "$(dirname -- "$0")/.." && pwd) || exit 70
. "$top/bench/needs.sh"
needs "Debian: gcc, hyperfine, python3" cc hyperfine python3
program=${MODEMKIT:-$("$top/bench/build.sh")} || exit 70
requests=${REQUESTS:-100000}
folder=$(mktemp -d) || exit 70
modems=
stop() { [ -z "$modems" ] || { kill $modems; wait $modems; } 2>/dev/null; modems=; }
trap 'stop; rm -rf "$folder"' EXIT
trap 'exit 130' INT TERM
cc -O2 -o "$folder/qmi_load" "$top/bench/load.c" && cc -O2 -o "$folder/qmi_modem" "$top/bench/answering_modem.c" || exit 70
cc -O2 -o "$folder/mbim_load" "$top/bench/mbim_load.c" && cc -O2 -o "$folder/mbim_modem" "$top/bench/answering_mbim.c" || exit 70

wait_for() {
    tries=0
    while [ ! -S "$1" ]; do
        tries=$((tries + 1))
        [ "$tries" -le 100 ] || { echo "a modem doesn't start" >&2; exit 70; }
        sleep 0.05
    done
}
# The processor time of a process so far, in ticks.
ticks() { read -r stat <"/proc/$1/stat"; set -- $stat; echo $((${14} + ${15})); }
# run KIND SOCKET PROCESS: one run, in ticks
run() {
    before=$(ticks "$3")
    "$folder/$1_load" "$2" "" 1 1 "$requests" >/dev/null || { echo "a request of $1 isn't answered" >&2; exit 1; }
    echo $(($(ticks "$3") - before))
}

missed=0
for kind in qmi mbim; do
    "$program" modem-sim --kind=$kind --socket="$folder/$kind.sim" & ours=$!
    "$folder/${kind}_modem" unix "$folder/$kind.c" & theirs=$!
    modems="$ours $theirs"
    wait_for "$folder/$kind.sim"
    wait_for "$folder/$kind.c"
    : >"$folder/ours"
    : >"$folder/theirs"
    for round in 1 2 3 4 5; do
        run $kind "$folder/$kind.sim" $ours >>"$folder/ours" || exit 1
        run $kind "$folder/$kind.c" $theirs >>"$folder/theirs" || exit 1
    done
    stop
    python3 - $kind "$folder" "$requests" "$(getconf CLK_TCK)" <<'P' || missed=1
import sys
kind, folder = sys.argv[1:3]
requests, a_second = map(int, sys.argv[3:5])
def best(name):
    return min(int(ticks) for ticks in open(f"{folder}/{name}")) / a_second / requests * 1e6
ours, theirs = best("ours"), best("theirs")
print(f"{kind}: modem-sim {ours:.2f} us a request, the stand-in in C {theirs:.2f} us, ratio {ours / theirs:.2f}")
sys.exit(ours > 2 * theirs)
P
done

python3 - >"$folder/profile.json" <<'P'
import json
entry = {"number": "1" * 100, "name": "A" * 100}
print(json.dumps({"sms": ["5A" * 255] * 100, "phonebook": [entry] * 100}))
P
"$program" modem-sim --kind=mbim --socket="$folder/full.sim" --profile="$folder/profile.json" & modems=$!
wait_for "$folder/full.sim"
entries="$program mbimcli -d $folder/full.sim --phonebook-read-all"
messages="$program mbimcli -d $folder/full.sim --sms-read-all"
$entries | grep -qx "Entries: 100" && $messages | grep -qx "Messages: 100" || { echo "not all is read" >&2; exit 1; }
hyperfine --warmup 20 --runs 200 --shell=none --export-json "$folder/times.json" "$entries" "$messages" >/dev/null 2>&1 || exit 1
python3 - "$folder/times.json" <<'P' || missed=1
import json, sys
entries, messages = [run["median"] * 1000 for run in json.load(open(sys.argv[1]))["results"]]
print(f"100 entries of the phone book in {entries:.1f} ms, 100 messages in {messages:.1f} ms")
sys.exit(entries + messages >= 20)
P
exit $missed
