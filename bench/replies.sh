#!/bin/sh
# What a reply of the proxy costs that it gives by itself: system calls and user instructions a message, of
# one client that asks again once it was answered. The modem is there, and is asked for nothing.
# MODEMKIT names a program that is built already.
top=$(CDPATH= cd -- "$(dirname -- "$0")/.." && pwd) || exit 70
. "$top/bench/needs.sh"
needs "Debian: gcc, procps, strace, valgrind, python3" cc pkill strace valgrind python3
program=${MODEMKIT:-$("$top/bench/build.sh")} || exit 70
folder=$(mktemp -d) || exit 70
modem=
clean() { [ -z "$modem" ] || kill $modem 2>/dev/null; rm -rf "$folder"; }
trap clean EXIT
trap 'exit 130' INT TERM
cc -O2 -o "$folder/answering" "$top/bench/answering_modem.c" || exit 70

# wait_for SOCKET
wait_for() {
    tries=0
    while [ ! -S "$1" ]; do
        tries=$((tries + 1))
        [ "$tries" -le 400 ] || { echo "$1 doesn't come" >&2; cat "$folder/log" >&2; exit 70; }
        sleep 0.05
    done
}

# run COUNT COMMAND..: the proxy under a command, and a client that asks so often. Each ask is a turn, and
# so are the client's joining, its opening, and a few ticks of the clock before and after it.
run() {
    count=$1; shift
    rm -f "$folder/proxy.sock" "$folder/modem"
    "$folder/answering" unix "$folder/modem" & modem=$!
    wait_for "$folder/modem"
    "$@" "$program" qmi-proxy -d "$folder/modem" --socket "$folder/proxy.sock" 2>>"$folder/log" & proxy=$!
    wait_for "$folder/proxy.sock"
    python3 "$top/bench/asks.py" "$folder/proxy.sock" "$folder/modem" "$count" >"$folder/client" || exit 1
    pkill -TERM -f "qmi-proxy -d $folder/modem --socket $folder/proxy.sock"
    wait "$proxy" 2>/dev/null
    kill $modem 2>/dev/null
    wait $modem 2>/dev/null
    modem=
}

run 10000 env
cat "$folder/client"
run 10000 strace -f -c -o "$folder/calls"
awk '$NF == "total" {print $(NF-1) " is the table'"'"'s column"} $NF ~ /^(epoll_wait|recvfrom|recvmsg|read|sendto|sendmsg|write|total)$/ {printf "%s: %.2f a message\n", $NF, $4 / 10000}' "$folder/calls" | grep -v column
for count in 1000 11000; do
    run "$count" valgrind --tool=callgrind --callgrind-out-file="$folder/grind.$count"
    sed -n 's/^summary: //p; s/^totals: //p' "$folder/grind.$count" | tail -n 1 >"$folder/instructions.$count"
done
echo "user instructions a message: $((($(cat "$folder/instructions.11000") - $(cat "$folder/instructions.1000")) / 10000))"
