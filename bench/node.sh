#!/bin/sh
# Device nodes: a raw pseudo terminal with a modem behind it, which our tools ask directly and through a proxy that they
# start, also two at once, and libqmi's qmicli through a proxy of ours. A line for each command, with what it printed first. Fails where one
# fails, or where a process of ours is left behind. The sockets of a proxy that was stopped stay; the next one replaces them.
# Then what goes wrong at nodes, over one that takes writes as the kernel's driver does (`node.py`, a line for each point):
# many programs at once, a second reader, a node that is lost, tools that start their proxies at one moment.
# MODEMKIT names a program that is built already. MODEM=sim has the program's own simulated modem in place of the
# stand-in in C. ROUNDS says how often 16 tools start at one moment: 20 without it.
top=$(CDPATH= cd -- "$(dirname -- "$0")/.." && pwd) || exit 70
. "$top/bench/needs.sh"
needs "Debian: gcc, socat, python3" cc socat timeout python3
program=${MODEMKIT:-$("$top/bench/build.sh")} || exit 70
folder=$(mktemp -d) || exit 70
started=
stop() { [ -z "$started" ] || { kill $started; wait $started; } 2>/dev/null; started=; }
trap 'stop; rm -rf "$folder"' EXIT
trap 'exit 130' INT TERM
: >"$folder/log"
. "$top/bench/offer.sh"
# Under a name of its own, by which its processes are found.
cp "$program" "$folder/modemkit" || exit 70
failed=0

# The processes of our program, but for the simulated modem.
ours() {
    for exe in /proc/[0-9]*/exe; do
        [ "$(readlink "$exe" 2>/dev/null)" = "$folder/modemkit" ] && tr '\0' ' ' <"${exe%/exe}/cmdline" && echo
    done
}
none_left() { [ -z "$(ours)" ]; }
# left WORDS: says what is left, a second after a command
left() {
    tries=0
    until none_left || [ "$tries" -ge 20 ]; do tries=$((tries + 1)); sleep 0.05; done
    none_left || { failed=1; echo "left behind $1:"; ours; } >&2
}

# try WANTED COMMAND..: its status has to be this one
try() {
    wanted=$1; shift
    timeout 30 "$@" </dev/null >"$folder/said" 2>&1
    status=$?
    [ "$status" -eq "$wanted" ] || failed=1
    echo "$status $(echo "$*" | sed "s|$folder/||g"): $(head -n 1 "$folder/said")"
}
tool() { try 0 "$folder/modemkit" "$@" --socket "$folder/proxy.sock" --bridge "$folder/bridge.sock"; left "$*"; }

# Two tools that start their proxies at one moment: each gets its answer, or ends with a status that docs/DEVICES.md has.
at_once() {
    for which in one other; do
        {
            timeout 30 "$folder/modemkit" "$@" --socket "$folder/proxy.sock" --bridge "$folder/bridge.sock" </dev/null >"$folder/$which" 2>&1
            echo $? >"$folder/$which.status"
        } &
        eval "$which=$!"
    done
    wait "$one" "$other"
    for which in one other; do
        status=$(cat "$folder/$which.status")
        case $status in 0 | 3 | 4 | 12) ;; *) failed=1 ;; esac
        echo "$status of two at once: $(tail -n 1 "$folder/$which")"
    done
    left "by two at once"
}

# What a tool does that is killed while it waits: the modem says nothing.
killed() {
    socat "PTY,link=$folder/silent,raw,echo=0" "EXEC:sleep 60" 2>>"$folder/log" & started="$started $!"
    wait_until test -e "$folder/silent"
    "$folder/modemkit" "$@" -d "$(readlink "$folder/silent")" --socket "$folder/proxy.sock" --bridge "$folder/bridge.sock" 2>>"$folder/log" & tool=$!
    sleep 0.5
    kill -9 "$tool"
    wait "$tool" 2>/dev/null
    # it could take its socket away no more
    rm -f "$folder/bridge.sock"
    left "by a $1 that was killed"
    rm -f "$folder/silent"
}

for kind in qmi mbim; do
    case $kind in
    qmi) source=answering_modem command=--dms-get-model ;;
    mbim) source=answering_mbim command=--query-radio-state ;;
    esac
    cc -O2 -o "$folder/answering" "$top/bench/$source.c" || exit 70
    offer_terminal "$folder/terminal"
    node=$(readlink "$folder/terminal")
    tool "${kind}cli" -d "$node" "$command"
    tool "${kind}cli" -p -d "$node" "$command"
    at_once "${kind}cli" -p -d "$node" "$command"
    killed "${kind}cli" "$command"
    if [ "$kind" = qmi ] && command -v qmicli >/dev/null 2>&1 && ! grep -q ' @qmi-proxy$' /proc/net/unix; then
        "$folder/modemkit" qmi-proxy -d "$node" --socket "$folder/proxy.sock" --bridge "$folder/bridge.sock" 2>>"$folder/log" & proxy=$!
        wait_until test -S "$folder/proxy.sock"
        socat ABSTRACT-LISTEN:qmi-proxy,fork "UNIX-CONNECT:$folder/proxy.sock" 2>>"$folder/log" & started="$started $!"
        wait_until grep -q ' @qmi-proxy$' /proc/net/unix
        try 0 qmicli -p -d "$node" --device-open-qmi "$command"
        kill "$proxy"
        wait "$proxy" 2>/dev/null
        rm -f "$folder/proxy.sock" "$folder/bridge.sock"
        left "by a proxy that was killed"
    fi
    stop
    rm -f "$folder/terminal" "$folder/answering"
done
mkdir "$folder/rough"
cc -O2 -shared -fPIC -o "$folder/wdm.so" "$top/bench/wdm.c" -ldl || exit 70
python3 -B "$top/bench/node.py" "$folder/rough" "$folder/modemkit" "$folder/wdm.so" "${ROUNDS:-20}" || failed=1
exit "$failed"
