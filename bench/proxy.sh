#!/bin/sh
# Our proxies beside libqmi's and libmbim's and beside a bare forwarder in C, all over the same stand-in modem, in one run: requests a
# second, processor time and system calls a request, peak memory, and our user instructions a request. The real proxies open
# a character device, so their modem is behind a raw pseudo terminal; ours is behind a Unix socket.
# With --node ours is at the pseudo terminal too, behind its two pumps. With --one-core all of it runs on one core, as on a
# small router.
# proxy.sh [--node] [--one-core] [KIND..]: qmi and mbim, where none is named. MODEMKIT names a program that is built already.
top=$(CDPATH= cd -- "$(dirname -- "$0")/.." && pwd) || exit 70
qmi_peer=${QMI_PROXY:-/usr/libexec/qmi-proxy}
mbim_peer=${MBIM_PROXY:-/usr/libexec/mbim-proxy}
. "$top/bench/needs.sh"
needs "Debian: gcc, python3, strace, valgrind, util-linux, libqmi-proxy, libmbim-proxy" cc python3 strace valgrind taskset "$qmi_peer" "$mbim_peer"
program=${MODEMKIT:-$("$top/bench/build.sh")} || exit 70
folder=$(mktemp -d) || exit 70
trap 'rm -rf "$folder"' EXIT
trap 'exit 130' INT TERM
cc -O2 -o "$folder/qmi_load" "$top/bench/load.c" && cc -O2 -o "$folder/qmi_modem" "$top/bench/answering_modem.c" || exit 70
cc -O2 -o "$folder/mbim_load" "$top/bench/mbim_load.c" && cc -O2 -o "$folder/mbim_modem" "$top/bench/answering_mbim.c" || exit 70
cc -O2 -o "$folder/qmi_forwarder" "$top/bench/forwarder.c" && cc -O2 -o "$folder/mbim_forwarder" "$top/bench/mbim_forwarder.c" || exit 70
node= core=
while :; do
    case $1 in
    --node) node=--node ;;
    --one-core) core="taskset -c 0" ;;
    *) break ;;
    esac
    shift
done
for kind in ${*:-qmi mbim}; do
    case $kind in
    qmi) peer=$qmi_peer ;;
    mbim) peer=$mbim_peer ;;
    *) echo "no kind of proxy: $kind" >&2; exit 2 ;;
    esac
    echo "$kind-proxy:"
    $core python3 "$top/bench/proxy.py" "$folder" "$program" "$peer" "${REQUESTS:-100000}" "$kind" $node || exit
done
