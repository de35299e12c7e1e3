#!/bin/sh
# One command of each tool against a modem on this machine, beside libqmi's qmicli and libmbim's mbimcli: wall time
# and peak memory of both in one run, as ratios. The real tools want a character device, so their modem is behind a
# raw pseudo terminal; ours is behind a Unix socket. With --node ours is at that terminal too, over a bridge and two pumps that
# it starts and ends.
# tool.sh [--node]. MODEMKIT names a program that is built already.
top=$(CDPATH= cd -- "$(dirname -- "$0")/.." && pwd) || exit 70
. "$top/bench/needs.sh"
needs "Debian: gcc, hyperfine, libqmi-utils, libmbim-utils, python3, time" cc hyperfine qmicli mbimcli python3 /usr/bin/time
program=${MODEMKIT:-$("$top/bench/build.sh")} || exit 70

folder=$(mktemp -d) || exit 70
modems=
clean() { [ -z "$modems" ] || kill $modems 2>/dev/null; rm -rf "$folder"; }
trap clean EXIT
trap 'exit 130' INT TERM
cc -O2 -o "$folder/answering" "$top/bench/answering_mbim.c" || exit 70
python3 "$top/bench/modem.py" "$folder/qmi.sock" & modems=$!
python3 "$top/bench/modem.py" --pty "$folder/qmi.tty" & modems="$modems $!"
"$folder/answering" unix "$folder/mbim.sock" & modems="$modems $!"
"$folder/answering" pty "$folder/mbim.tty" & modems="$modems $!"
tries=0
while [ ! -S "$folder/qmi.sock" ] || [ ! -e "$folder/qmi.tty" ] || [ ! -S "$folder/mbim.sock" ] || [ ! -e "$folder/mbim.tty" ]; do
    tries=$((tries + 1))
    [ "$tries" -le 100 ] || { echo "a stand-in modem doesn't start" >&2; exit 70; }
    sleep 0.05
done

peak() { /usr/bin/time -f %M -o "$folder/peak" "$@" >/dev/null 2>&1; cat "$folder/peak"; }

# compare TOOL OURS THEIRS
compare() {
    $2 >"$folder/ours.txt" || { echo "our $1 fails" >&2; exit 1; }
    $3 >"$folder/theirs.txt" 2>&1 || { echo "the real $1 fails:" >&2; cat "$folder/theirs.txt" >&2; exit 1; }
    hyperfine --warmup 20 --runs 200 --shell=none --export-json "$folder/times.json" "$2" "$3" >/dev/null 2>&1 || exit 1
    python3 - "$1" "$folder/times.json" "$(peak $2)" "$(peak $3)" <<'P'
import json, sys
tool, times = sys.argv[1:3]
ours, theirs = json.load(open(times))["results"]
memory = [int(kilobytes) / 1024 for kilobytes in sys.argv[3:5]]
for name, run, megabytes in ((f"modemkit {tool}", ours, memory[0]), (f"the real {tool}", theirs, memory[1])):
    print(f"{name}: best {run['min'] * 1000:.2f} ms, median {run['median'] * 1000:.2f} ms, {megabytes:.1f} MB")
print(f"ratio: best {ours['min'] / theirs['min']:.2f}, median {ours['median'] / theirs['median']:.2f}, memory {memory[0] / memory[1]:.2f}")
P
}

qmi_tty=$(readlink "$folder/qmi.tty") mbim_tty=$(readlink "$folder/mbim.tty")
qmi="-d $folder/qmi.sock" mbim="-d $folder/mbim.sock"
[ "$1" != --node ] || qmi="-d $qmi_tty --bridge $folder/qmi.bridge" mbim="-d $mbim_tty --bridge $folder/mbim.bridge"
compare qmicli "$program qmicli $qmi --get-service-version-info" "qmicli -d $qmi_tty --device-open-qmi --get-service-version-info"
compare mbimcli "$program mbimcli $mbim --query-radio-state" "mbimcli -d $mbim_tty --query-radio-state"
