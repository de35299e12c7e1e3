#!/bin/sh
# Rules of the simulated modems over sockets: what our tools say to each kind of rule, in QMI and in MBIM, what becomes of files that
# hold none, and what 1,000 rules cost, a third of each list: processor time of the modem's process a request, with them and without,
# the best of five runs in turn, and the rate with them, which is to be at least nine tenths of that without. Then how long it takes from the start
# of the program to the first answer, with 1,000 rules, the median of 20 starts, which is to be under 5 ms. Fails where one is missed.
# MODEMKIT names a program that is built already. REQUESTS is how many a run has.
top=$(CDPATH= cd -- "$(dirname -- "$0")/.." && pwd) || exit 70
. "$top/bench/needs.sh"
needs "Debian: gcc, python3" cc python3
program=${MODEMKIT:-$("$top/bench/build.sh")} || exit 70
requests=${REQUESTS:-100000}
folder=$(mktemp -d) || exit 70
modems=
stop() { [ -z "$modems" ] || { kill $modems; wait $modems; } 2>/dev/null; modems=; }
trap 'stop; rm -rf "$folder"' EXIT
trap 'exit 130' INT TERM
failed=0

# starts SOCKET WORD..: a modem, and waits for its socket
starts() {
    socket=$1
    shift
    "$program" modem-sim --socket="$folder/$socket" "$@" & modems="$modems $!"
    tries=0
    while [ ! -S "$folder/$socket" ]; do
        tries=$((tries + 1))
        [ "$tries" -le 100 ] || { echo "a modem doesn't start" >&2; exit 70; }
        sleep 0.05
    done
}
# expects WHAT GOT: that they are the same
expects() { [ "$1" = "$2" ] || { echo "expected: $1"; echo "     got: $2"; failed=1; }; }
# late MILLISECONDS: that it isn't earlier (a fifth tick comes behind four whole ones)
late() { [ "$(date +%s%3N)" -ge "$1" ] || { echo "an answer isn't late"; failed=1; }; }
qmi() { timeout 2 "$program" qmicli -d "$folder/qmi" "$@" 2>&1; }
mbim() { timeout 2 "$program" mbimcli -d "$folder/mbim" "$@" 2>&1; }

# ---- each kind of rule ----

basic=a289cc33-bcbb-8b4f-b6b0-133ec2aae6df
cat >"$folder/qmi.json" <<END
{"answers": [{"service": 2, "message": 35, "data": "01010039"}],
 "faults": [{"service": 3, "message": 32, "nth": 1, "error": 3}, {"service": 2, "message": 34, "nth": 2, "error": null},
            {"service": 2, "message": 34, "nth": 3, "ticks": 5}, {"service": 2, "message": 33, "nth": 1, "hangs_up": true}],
 "indications": [{"service": 3, "message": 2, "data": "", "after": {"service": 3, "message": 32}},
                 {"service": 0, "message": 40, "data": "", "each": 1}]}
END
cat >"$folder/mbim.json" <<END
{"answers": [{"service": "$basic", "command": 11, "data": "1f00000000000000000000000000000000000000"}],
 "faults": [{"service": "$basic", "command": 3, "nth": 1, "error": 14}, {"service": "$basic", "command": 1, "nth": 1, "error": null},
            {"service": "$basic", "command": 1, "nth": 2, "ticks": 5}, {"service": "$basic", "command": 2, "nth": 1, "hangs_up": true}],
 "indications": [{"service": "$basic", "command": 11, "data": "", "after": {"service": "$basic", "command": 11}}]}
END
starts qmi --rules="$folder/qmi.json"
starts mbim --kind=mbim --rules="$folder/mbim.json"
expects "Revision: 9" "$(qmi --dms-get-revision)"
expects "Model: Sim-1" "$(qmi --dms-get-model)"
expects 124 "$(qmi --dms-get-model; echo $?)"
began=$(date +%s%3N)
expects "Model: Sim-1" "$(qmi --dms-get-model)"
late $((began + 400))
expects "error: link ended" "$(qmi --dms-get-manufacturer)"
expects "Manufacturer: Example" "$(qmi --dms-get-manufacturer)"
expects "error: denied 3" "$(qmi --nas-get-signal-strength)"
expects "Signal:" "$(qmi --nas-get-signal-strength | head -n 1)"
expects "error: denied 14" "$(mbim --query-radio-state)"
expects 0 "$(mbim --query-radio-state >"$folder/out"; echo $?)"
expects 124 "$(mbim --query-device-caps; echo $?)"
began=$(date +%s%3N)
expects 0 "$(mbim --query-device-caps >"$folder/out"; echo $?)"
late $((began + 400))
expects "error: link ended" "$(mbim --query-subscriber-ready-status)"
expects 0 "$(mbim --query-subscriber-ready-status >"$folder/out"; echo $?)"
expects 31 "$(mbim --query-signal-state | grep -o 31)"
stop

# ---- files that hold none ----

refused() { "$program" modem-sim --socket="$folder/none" "$@" 2>&1; echo "status $?"; }
expects "error: rules: answers in 0
status 16" "$(refused --kind=mbim --rules="$folder/qmi.json")"
expects "error: rules: answers in 0
status 16" "$(refused --rules="$folder/mbim.json")"
python3 - "$folder" <<'END'
import json, sys
folder = sys.argv[1]
text = '{"other": "' + "x" * (16_777_216 - 13) + '"}'
open(f"{folder}/longest.json", "w").write(text)
open(f"{folder}/longer.json", "w").write(text + " ")
def request(n):
    return {"service": 16 + n % 200, "message": n}
answers = [{**request(n), "data": "010100%02x" % (n % 256)} for n in range(0, 1000, 3)]
faults = [{**request(n), "nth": n, "error": n} for n in range(1, 1000, 3)]
indications = [{**request(n), "data": "", "after": request(n)} for n in range(2, 1000, 3)]
with open(f"{folder}/thousand.json", "w") as file:
    json.dump({"answers": answers, "faults": faults, "indications": indications}, file)
END
expects "error: rules: long
status 16" "$(refused --rules="$folder/longer.json")"
starts longest --rules="$folder/longest.json"
stop

# ---- what rules cost ----

cc -O2 -o "$folder/load" "$top/bench/load.c" || exit 70
# the processor time of a process so far, in ticks
ticks() { read -r stat <"/proc/$1/stat"; set -- $stat; echo $((${14} + ${15})); }
# run SOCKET PROCESS: one run, in ticks
run() {
    before=$(ticks "$2")
    "$folder/load" "$folder/$1" "" 1 1 "$requests" >/dev/null || { echo "a request isn't answered" >&2; exit 1; }
    echo $(($(ticks "$2") - before))
}
starts plain
plain=${modems##* }
starts ruled --rules="$folder/thousand.json"
ruled=${modems##* }
for round in 1 2 3 4 5; do
    run plain "$plain" >>"$folder/plain.ticks" || exit 1
    run ruled "$ruled" >>"$folder/ruled.ticks" || exit 1
done
stop
python3 - "$folder" "$program" "$requests" "$(getconf CLK_TCK)" <<'END' || failed=1
import os, signal, socket, statistics, sys, time
folder, program = sys.argv[1:3]
requests, a_second = map(int, sys.argv[3:5])
def best(name):
    return min(int(ticks) for ticks in open(f"{folder}/{name}.ticks")) / a_second / requests * 1e6
plain, ruled = best("plain"), best("ruled")
print(f"{plain:.2f} us a request without rules, {ruled:.2f} us with 1,000: {plain / ruled:.2f} of the rate")

def connected(path, until):
    while time.monotonic() < until:
        client = socket.socket(socket.AF_UNIX)
        try:
            client.connect(path)
            return client
        except OSError:
            client.close()
    sys.exit("a modem doesn't start")

def first_answer(number):
    path = f"{folder}/first{number}"
    words = [program, "modem-sim", f"--socket={path}", f"--rules={folder}/thousand.json"]
    began = time.monotonic()
    modem = os.posix_spawn(program, words, os.environ)
    try:
        client = connected(path, began + 10)
        client.sendall(bytes.fromhex("010b00000000000721000000"))
        if not client.recv(4096):
            sys.exit("no answer")
        return time.monotonic() - began
    finally:
        os.kill(modem, signal.SIGKILL)
        os.waitpid(modem, 0)

first = statistics.median(first_answer(number) for number in range(20)) * 1000
print(f"{first:.1f} ms from the start of the program to the first answer")
sys.exit(plain / ruled < 0.9 or first >= 5)
END
[ "$failed" = 0 ] && echo "all as expected"
exit "$failed"
