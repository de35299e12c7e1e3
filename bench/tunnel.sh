#!/bin/sh
# QMI inside MBIM: libqmi's real qmicli with --device-open-mbim, command by command, at our simulated MBIM modem behind a
# pseudo terminal, through libmbim's real mbim-proxy and through ours; and our own qmicli in the same ways. Beside them
# both at a simulated QMI modem itself. A line for each command: its exit status, and whether that and all that was
# printed is the same in all four ways. Fails where anything differs, or where a command doesn't end as it should.
# libmbim's proxy listens at the abstract socket `@mbim-proxy`, to which the real qmicli goes: a relay leads from there
# to our proxy, and from a path to libmbim's. The modem has one path for all: our programs find a Unix socket there, and
# libqmi's a terminal or a device node, in a mount namespace of their own.
# MODEMKIT names a program that is built already. SHOW=1 shows what was printed.
top=$(CDPATH= cd -- "$(dirname -- "$0")/.." && pwd) || exit 70
peer=${MBIM_PROXY:-/usr/libexec/mbim-proxy}
. "$top/bench/needs.sh"
needs "Debian: libqmi-utils, libmbim-proxy, socat" qmicli socat mknod timeout unshare mount "$peer"
is_taken() { grep -q ' @mbim-proxy$' /proc/net/unix; }
is_free() { ! is_taken; }
is_free || { echo "another program has the socket @mbim-proxy; nothing was tried"; exit 0; }
folder=$(mktemp -d) || exit 70
started=
stop() { [ -z "$started" ] || { kill $started; wait $started; } 2>/dev/null; started=; }
trap 'stop; rm -rf "$folder"' EXIT
trap 'exit 130' INT TERM
mknod "$folder/node" c 1 3 2>/dev/null && unshare -m true 2>/dev/null || { echo "a device node or a mount namespace can't be made here (root is wanted); nothing was tried"; exit 0; }
program=${MODEMKIT:-$("$top/bench/build.sh")} || exit 70
MODEM=sim
. "$top/bench/offer.sh"

# The status that each command ends with, and its words. N is the client id that was kept last; the last line uses it
# once it was released.
cat >"$folder/commands" <<'C'
0 --get-service-version-info
0 --dms-get-model
0 --dms-get-manufacturer
0 --dms-get-revision
0 --dms-get-ids
0 --dms-get-capabilities
0 --dms-get-operating-mode
0 --dms-get-msisdn
0 --nas-get-signal-strength
0 --nas-get-serving-system
0 --nas-get-home-network
0 --wds-get-packet-service-status
0 --dms-get-model --client-no-release-cid
0 --dms-get-revision --client-cid=N
1 --dms-get-revision --client-cid=N
C

# over DEVICE COMMAND..: runs it where the device stands at the modem's path
over() {
    device=$1; shift
    exec unshare -m sh -c 'mount --bind "$1" "$2" && shift 2 && exec "$@"' sh "$device" "$folder/modem" "$@"
}

# ask SIDE TOOL WORD..: runs each command with the real qmicli, or with ours, with these words
ask() {
    side=$folder/$1 tool=$2 id=
    shift 2
    row=0
    while read -r status words; do
        row=$((row + 1))
        words=$(echo "$words" | sed "s/=N/=$id/")
        case $tool in
        real) (over "$node" timeout 30 qmicli "$@" -d "$folder/modem" $words) ;;
        own) timeout 30 "$program" qmicli "$@" -d "$folder/modem" $words ;;
        esac </dev/null >"$side.$tool.$row.out" 2>"$folder/said"
        echo "$?" >"$side.$tool.$row.status"
        # without the time of day, and what libqmi says of the mode and of a modem that it leaves open
        sed 's/^\[[^]]* [0-9:]*\] //; / mode but unexpected transport type found$/d; / MBIM device wasn.t explicitly closed$/d' "$folder/said" >"$side.$tool.$row.err"
        kept=$(sed -n "s/.*CID: '\([0-9]*\)'.*/\1/p; s/^client id kept: .* id //p" "$side.$tool.$row.out")
        id=${kept:-$id}
    done <"$folder/commands"
}

# offer_at_socket, offer_at_terminal: a new modem of $kind for our tool, and for libqmi's
offer_at_socket() { rm -f "$folder/modem"; offer_socket "$folder/modem"; }
offer_at_terminal() {
    rm -f "$folder/modem" "$folder/terminal" "$folder/terminal.sock"
    : >"$folder/modem"
    offer_terminal "$folder/terminal"
    node=$(readlink "$folder/terminal")
}

# a QMI modem itself, and an MBIM modem that carries one
kind=qmi
offer_at_socket; ask itself own; stop
offer_at_terminal; ask itself real --device-open-qmi; stop
kind=mbim
offer_at_socket; ask inside own --device-open-mbim; stop
offer_at_terminal; ask inside real --device-open-mbim; stop

# through our proxy
offer_at_socket
"$program" mbim-proxy -d "$folder/modem" --socket "$folder/proxy.sock" >>"$folder/log" 2>&1 & started="$started $!"
wait_until test -S "$folder/proxy.sock"
ask ours own --device-open-mbim -p --socket "$folder/proxy.sock"
stop
rm -f "$folder/proxy.sock"
offer_at_socket
"$program" mbim-proxy -d "$folder/modem" --socket "$folder/proxy.sock" >>"$folder/log" 2>&1 & started="$started $!"
wait_until test -S "$folder/proxy.sock"
socat ABSTRACT-LISTEN:mbim-proxy,fork "UNIX-CONNECT:$folder/proxy.sock" 2>>"$folder/log" & started="$started $!"
wait_until is_taken
node=$folder/node
ask ours real --device-open-mbim -p
stop
wait_until is_free

# through libmbim's
for tool in real own; do
    offer_at_terminal
    (over "$node" "$peer" --no-exit >>"$folder/log" 2>&1) & started="$started $!"
    wait_until is_taken
    case $tool in
    real) ask theirs real --device-open-mbim -p ;;
    own)
        socat "UNIX-LISTEN:$folder/theirs.sock,fork" ABSTRACT-CONNECT:mbim-proxy 2>>"$folder/log" & started="$started $!"
        wait_until test -S "$folder/theirs.sock"
        ask theirs own --device-open-mbim -p --socket "$folder/theirs.sock" ;;
    esac
    stop
    wait_until is_free
done

failed=0
# compare TOOL NAME: a line for each command
compare() {
    row=0
    while read -r status words; do
        row=$((row + 1))
        found=same
        for side in itself inside ours theirs; do
            cat "$folder/$side.$1.$row.out" "$folder/$side.$1.$row.err" "$folder/$side.$1.$row.status" >"$folder/$side"
            diff "$folder/itself" "$folder/$side" >>"$folder/diff" || found=differs
        done
        ended=$(cat "$folder/inside.$1.$row.status")
        [ "$found$ended" = "same$status" ] || failed=1
        printf '%-73s %3s  %s\n' "$2 $words" "$ended" "$found"
        [ -z "$SHOW" ] || cat "$folder/inside"
        cat "$folder/diff" >&2
        : >"$folder/diff"
    done <"$folder/commands"
}
compare real "qmicli --device-open-mbim"
compare own "modemkit qmicli --device-open-mbim"
exit "$failed"
