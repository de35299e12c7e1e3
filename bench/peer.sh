#!/bin/sh
# libqmi's real qmicli, command by command, through our proxy and through libqmi's own, over the same stand-in
# modem, while 32 other connections ask all the time; and then our own qmicli in the same way. A line for each
# command: its exit status, and whether that and all that was printed on both streams is the same through both
# proxies. Fails where anything differs, or where a command doesn't end as it should. The last line is our own
# qmicli at the modem itself.
# The real qmicli asks the abstract socket `@qmi-proxy`. There libqmi's proxy listens by itself, and a relay leads
# from there to ours. Our qmicli asks a socket that has a path: our proxy's, or one from which a relay leads to
# libqmi's. The modem has one path for all: where our proxy finds a Unix socket, libqmi's finds a pseudo terminal
# and the real qmicli a device node, each in a mount namespace of its own.
# MODEMKIT names a program that is built already. SHOW=1 shows what was printed. MODEM=sim has the program's own
# simulated modem in place of the stand-in.
top=$(CDPATH= cd -- "$(dirname -- "$0")/.." && pwd) || exit 70
peer=${QMI_PROXY:-/usr/libexec/qmi-proxy}
. "$top/bench/needs.sh"
needs "Debian: gcc, libqmi-utils, libqmi-proxy, socat" cc qmicli socat mknod timeout unshare mount "$peer"
is_taken() { grep -q ' @qmi-proxy$' /proc/net/unix; }
is_free() { ! is_taken; }
is_free || { echo "another program has the socket @qmi-proxy; nothing was tried"; exit 0; }
folder=$(mktemp -d) || exit 70
started=
stop() { [ -z "$started" ] || { kill $started; wait $started; } 2>/dev/null; started=; }
trap 'stop; rm -rf "$folder"' EXIT
trap 'exit 130' INT TERM
mknod "$folder/node" c 1 3 2>/dev/null && unshare -m true 2>/dev/null || { echo "a device node or a mount namespace can't be made here (root is wanted); nothing was tried"; exit 0; }
program=${MODEMKIT:-$("$top/bench/build.sh")} || exit 70
kind=qmi
. "$top/bench/offer.sh"
cc -O2 -o "$folder/answering" "$top/bench/answering_modem.c" && cc -O2 -o "$folder/load" "$top/bench/load.c" || exit 70

# The status that each command ends with, and its words. N is the client id that was kept last; the last line uses
# it once it was released. The stand-in doesn't know an MSISDN.
cat >"$folder/commands" <<'C'
0 --get-service-version-info
0 --dms-get-model
0 --dms-get-manufacturer
0 --dms-get-revision
0 --dms-get-ids
0 --dms-get-capabilities
0 --dms-get-operating-mode
1 --dms-get-msisdn
0 --nas-get-signal-strength
0 --nas-get-serving-system
0 --nas-get-home-network
0 --wds-get-packet-service-status
0 --dms-noop --client-no-release-cid
0 --dms-get-model --client-cid=N --client-no-release-cid
0 --dms-get-revision --client-cid=N
1 --dms-get-revision --client-cid=N
C
[ "$MODEM" != sim ] || sed -i 's/^1 --dms-get-msisdn/0 --dms-get-msisdn/' "$folder/commands"
# Our qmicli has the same words, but for this one.
sed 's/--dms-noop/--dms-get-model/' "$folder/commands" >"$folder/own"

# Of the load: three streams, what it waits with, and 32 connections.
all_ask() { [ "$(ls "/proc/$load/fd" | wc -l)" -ge 36 ]; }

# over DEVICE COMMAND..: runs it where the device stands at the modem's path
over() {
    device=$1; shift
    exec unshare -m sh -c 'mount --bind "$1" "$2" && shift 2 && exec "$@"' sh "$device" "$folder/modem" "$@"
}

# ask TOOL LIST SOCKET: runs each command of the list with the real qmicli, or with ours at this socket
ask() {
    row=0
    while read -r status words; do
        row=$((row + 1))
        # the relay hangs up a moment after the command before, which is to leave the id to this one
        case $words in *=N*) sleep 0.1 ;; esac
        words=$(echo "$words" | sed "s/=N/=$id/")
        case $1 in
        real) (over "$folder/node" timeout 30 qmicli -p -d "$folder/modem" --device-open-qmi $words) ;;
        own) timeout 30 "$program" qmicli -p --socket "$3" -d "$folder/modem" $words ;;
        esac </dev/null >"$side.$1.$row.out" 2>"$folder/said"
        echo "$?" >"$side.$1.$row.status"
        sed 's/^\[[^]]* [0-9:]*\] //' "$folder/said" >"$side.$1.$row.err" # without the time of day
        kept=$(sed -n "s/.*CID: '\([0-9]*\)'.*/\1/p; s/^client id kept: .* id //p" "$side.$1.$row.out")
        id=${kept:-$id}
    done <"$2"
}

# ask_all LOAD SOCKET: runs all commands, ours at the socket, while the load asks at its own, and ends all that was
# started
ask_all() {
    "$folder/load" "$1" "$folder/modem" 32 1 2000000000 2>>"$folder/log" & load=$!
    started="$started $load"
    wait_until all_ask
    sleep 0.5
    ask real "$folder/commands"
    ask own "$folder/own" "$2"
    kill -0 "$load" 2>/dev/null || { echo "the load failed:" >&2; cat "$folder/log" >&2; exit 1; }
    stop
}

side=$folder/ours
offer_socket "$folder/modem"
"$program" qmi-proxy -d "$folder/modem" --socket "$folder/proxy.sock" >>"$folder/log" 2>&1 & started="$started $!"
wait_until test -S "$folder/proxy.sock"
socat ABSTRACT-LISTEN:qmi-proxy,fork "UNIX-CONNECT:$folder/proxy.sock" 2>>"$folder/log" & started="$started $!"
wait_until is_taken
ask_all "$folder/proxy.sock" "$folder/proxy.sock"

side=$folder/theirs
wait_until is_free
rm -f "$folder/modem"
: >"$folder/modem"
offer_terminal "$folder/terminal"
over "$(readlink "$folder/terminal")" "$peer" --no-exit >>"$folder/log" 2>&1 & started="$started $!"
wait_until is_taken
socat "UNIX-LISTEN:$folder/theirs.sock,fork" ABSTRACT-CONNECT:qmi-proxy 2>>"$folder/log" & started="$started $!"
wait_until test -S "$folder/theirs.sock"
ask_all @qmi-proxy "$folder/theirs.sock"

failed=0
# line WORDS STATUS WANTED OURS THEIRS: the two are files
line() {
    found=same
    diff "$4" "$5" >"$folder/diff" || found=differs
    [ "$found$2" = "same$3" ] || failed=1
    printf '%-73s %3s  %s\n' "$1" "$2" "$found"
    [ -z "$SHOW" ] || cat "$4"
    cat "$folder/diff" >&2
}
# compare TOOL LIST NAME: a line for each command of the list
compare() {
    row=0
    while read -r status words; do
        row=$((row + 1))
        for side in "$folder/ours" "$folder/theirs"; do
            cat "$side.$1.$row.out" "$side.$1.$row.err" "$side.$1.$row.status" >"$side"
        done
        line "$3$words" "$(cat "$folder/ours.$1.$row.status")" "$status" "$folder/ours" "$folder/theirs"
    done <"$2"
}
compare real "$folder/commands"
compare own "$folder/own" "modemkit qmicli -p "

offer_socket "$folder/alone"
"$program" qmicli -d "$folder/alone" --get-service-version-info >"$folder/said"
status=$?
awk '$1 == "Service:" { name = $3 } $1 == "Major:" { major = $2 } $1 == "Minor:" { print name, major "." $2 }' "$folder/said" | tr -d '()' >"$folder/ours"
sed -n 's/^\t\(.*\) (\(.*\))$/\1 \2/p' "$folder/theirs.real.1.out" >"$folder/theirs"
line "modemkit qmicli --get-service-version-info" "$status" 0 "$folder/ours" "$folder/theirs"
exit "$failed"
