#!/bin/sh
# libmbim's real mbimcli, command by command: at a stand-in modem itself, through libmbim's real mbim-proxy and through
# ours, over the same stand-in, while 32 other connections of the proxy ask all the time; and our own mbimcli in the
# same ways. A line for each command: its exit status, and whether that and all that was printed on both streams is
# the same all three ways. Fails where anything differs, or where a command doesn't end as it should.
# libmbim's proxy listens at the abstract socket `@mbim-proxy`, to which the real mbimcli goes: a relay leads from there
# to our proxy, and from a path to libmbim's. The modem has one path for all: our programs find a Unix socket there, and
# libmbim's a terminal or a device node, in a mount namespace of their own.
# MODEMKIT names a program that is built already. SHOW=1 shows what was printed. MODEM=sim has the program's own
# simulated modem in place of the stand-in.
top=$(CDPATH= cd -- "$(dirname -- "$0")/.." && pwd) || exit 70
peer=${MBIM_PROXY:-/usr/libexec/mbim-proxy}
. "$top/bench/needs.sh"
needs "Debian: gcc, libmbim-utils, libmbim-proxy, socat" cc mbimcli socat mknod timeout unshare mount "$peer"
is_taken() { grep -q ' @mbim-proxy$' /proc/net/unix; }
is_free() { ! is_taken; }
is_taken && { echo "another program has the socket @mbim-proxy; nothing was tried"; exit 0; }
folder=$(mktemp -d) || exit 70
started=
stop() { [ -z "$started" ] || { kill $started; wait $started; } 2>/dev/null; started=; }
trap 'stop; rm -rf "$folder"' EXIT
trap 'exit 130' INT TERM
mknod "$folder/node" c 1 3 2>/dev/null && unshare -m true 2>/dev/null || { echo "a device node or a mount namespace can't be made here (root is wanted); nothing was tried"; exit 0; }
program=${MODEMKIT:-$("$top/bench/build.sh")} || exit 70
kind=mbim
. "$top/bench/offer.sh"
cc -O2 -o "$folder/answering" "$top/bench/answering_mbim.c" && cc -O2 -o "$folder/load" "$top/bench/mbim_load.c" || exit 70

# The status that each command ends with, and its words.
cat >"$folder/commands" <<'C'
0 --query-device-caps
0 --query-subscriber-ready-status
0 --query-radio-state
0 --set-radio-state=on
0 --query-pin-state
0 --query-home-provider
0 --query-visible-providers
0 --query-registration-state
0 --query-signal-state
0 --query-packet-service-state
0 --attach-packet-service
0 --connect=access-string=internet,ip-type=ipv4
0 --query-connection-state=0
0 --query-ip-configuration=0
0 --disconnect=0
0 --query-device-services
0 --query-packet-statistics
0 --phonebook-query-configuration
0 --phonebook-read-all
0 --phonebook-read=1
0 --phonebook-write=Bob,110
0 --phonebook-delete=7
C
# libmbim's mbimcli has no words for these.
cat "$folder/commands" - >"$folder/own" <<'C'
0 --sms-query-configuration
0 --sms-read-all
0 --sms-read=1
0 --sms-delete=1
0 --sms-query-store-status
0 --ussd-initiate=15,AA180C3602
0 --ussd-continue=15,31
0 --ussd-cancel
0 --detach-packet-service
C

# Of the load: three streams, what it waits with, and 32 connections.
all_ask() { [ "$(ls "/proc/$load/fd" | wc -l)" -ge 36 ]; }

# over DEVICE COMMAND..: runs it where the device stands at the modem's path
over() {
    device=$1; shift
    exec unshare -m sh -c 'mount --bind "$1" "$2" && shift 2 && exec "$@"' sh "$device" "$folder/modem" "$@"
}

# ask SIDE TOOL LIST WORD..: runs each command of the list with the real mbimcli, or with ours, with these words
ask() {
    side=$folder/$1 tool=$2 list=$3
    shift 3
    row=0
    while read -r status words; do
        row=$((row + 1))
        case $tool in
        real) (over "$node" timeout 30 mbimcli "$@" -d "$folder/modem" $words) ;;
        own) timeout 30 "$program" mbimcli "$@" -d "$folder/modem" $words ;;
        esac </dev/null >"$side.$tool.$row.out" 2>"$folder/said"
        echo "$?" >"$side.$tool.$row.status"
        sed 's/^\[[^]]* [0-9:]*\] //' "$folder/said" >"$side.$tool.$row.err" # without the time of day
    done <"$list"
}

# ask_all SIDE SOCKET: asks all through the proxy, ours at the socket, while the load asks, and ends all that was started
ask_all() {
    "$folder/load" @mbim-proxy "$folder/modem" 32 1 2000000000 2>>"$folder/log" & load=$!
    started="$started $load"
    wait_until all_ask
    sleep 0.5
    ask "$1" real "$folder/commands" -p
    ask "$1" own "$folder/own" -p --socket "$2"
    kill -0 "$load" 2>/dev/null || { echo "the load failed:" >&2; cat "$folder/log" >&2; exit 1; }
    stop
}

# a new modem at its socket: it keeps what it is set to
offer() { rm -f "$folder/modem"; offer_socket "$folder/modem"; }

# at the modem itself, and through our proxy
node=$folder/node
offer
ask direct own "$folder/own"
stop
offer
"$program" mbim-proxy -d "$folder/modem" --socket "$folder/proxy.sock" >>"$folder/log" 2>&1 & started="$started $!"
wait_until test -S "$folder/proxy.sock"
socat ABSTRACT-LISTEN:mbim-proxy,fork "UNIX-CONNECT:$folder/proxy.sock" 2>>"$folder/log" & started="$started $!"
wait_until is_taken
ask_all ours "$folder/proxy.sock"

# at the modem's terminal, and through libmbim's proxy
wait_until is_free
rm -f "$folder/modem"
: >"$folder/modem"
offer_terminal "$folder/terminal"
node=$(readlink "$folder/terminal")
ask direct real "$folder/commands"
(over "$node" "$peer" --no-exit >>"$folder/log" 2>&1) & started="$started $!"
wait_until is_taken
socat "UNIX-LISTEN:$folder/theirs.sock,fork" ABSTRACT-CONNECT:mbim-proxy 2>>"$folder/log" & started="$started $!"
wait_until test -S "$folder/theirs.sock"
ask_all theirs "$folder/theirs.sock"

failed=0
# compare TOOL LIST NAME: a line for each command of the list
compare() {
    row=0
    while read -r status words; do
        row=$((row + 1))
        found=same
        for side in direct theirs ours; do
            cat "$folder/$side.$1.$row.out" "$folder/$side.$1.$row.err" "$folder/$side.$1.$row.status" >"$folder/$side"
        done
        diff "$folder/direct" "$folder/theirs" >"$folder/diff" || found=differs
        diff "$folder/theirs" "$folder/ours" >>"$folder/diff" || found=differs
        ended=$(cat "$folder/ours.$1.$row.status")
        [ "$found$ended" = "same$status" ] || failed=1
        printf '%-73s %3s  %s\n' "$3 $words" "$ended" "$found"
        [ -z "$SHOW" ] || cat "$folder/ours"
        cat "$folder/diff" >&2
    done <"$2"
}
compare real "$folder/commands" "mbimcli"
compare own "$folder/own" "modemkit mbimcli"
exit "$failed"
