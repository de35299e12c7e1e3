#!/bin/sh
# Tries the Debian package in a minimal Debian of its own, which it enters by chroot: an installation over an older package with a
# proxy running, man pages, units, the rule, who may reach a proxy, a removal, a purge, and a full disk. A line for each point, `ok`
# or `FAILED`; fails where one did. What wants a booted systemd or udev isn't tried: starting a unit, and a node that comes or goes.
#   packaging/try.sh FOLDER       FOLDER: a Debian that debootstrap made, or where it is to make one (300 MB, from the network)
# MODEMKIT names a program that is built already. Root's rights are needed.
top=$(CDPATH= cd -- "$(dirname -- "$0")/.." && pwd) || exit 70
. "$top/bench/needs.sh"
needs "Debian: debootstrap lintian mandoc systemd" debootstrap chroot lintian mandoc systemd-analyze
[ $# -eq 1 ] || { echo "usage: $0 FOLDER" >&2; exit 2; }
[ "$(id -u)" = 0 ] || { echo "$0: root's rights are needed; nothing was done" >&2; exit 2; }
debian=$1
[ -e "$debian/etc/debian_version" ] || debootstrap --variant=minbase stable "$debian" >/dev/null || exit 70
debian=$(CDPATH= cd -- "$debian" && pwd) || exit 70

export LC_ALL=C
work=$(mktemp -d) || exit 70
running=
clean() {
    [ -z "$running" ] || kill $running 2>/dev/null
    umount "$debian/proc" "$work/small" 2>/dev/null
    rm -rf "$work"
}
trap clean EXIT
trap 'exit 130' INT TERM
failed=0
point() { if [ "$1" = 0 ]; then echo "ok      $2"; else echo "FAILED  $2"; failed=1; fi; }
# check WHAT COMMAND..: the command succeeds, quietly
check() { what=$1; shift; "$@" >"$work/said" 2>&1; point $? "$what"; }
# check_not WHAT COMMAND..: it doesn't
check_not() { what=$1; shift; ! "$@" >"$work/said" 2>&1; point $? "$what"; }
in_debian() { chroot "$debian" /usr/bin/env -i ${ASAN_OPTIONS:+ASAN_OPTIONS=$ASAN_OPTIONS} PATH=/usr/sbin:/usr/bin:/sbin:/bin DEBIAN_FRONTEND=noninteractive MANPAGER=cat MANWIDTH=80 "$@"; }
wait_for() {
    tries=0
    until [ -S "$debian$1" ]; do
        tries=$((tries + 1))
        [ "$tries" -le 100 ] || return 1
        sleep 0.05
    done
}
files() { (cd "$debian" && find etc usr run var/lib -xdev ! -path 'var/lib/dpkg/*' ! -path 'var/lib/apt/*' | sort); }

old=$(VERSION=0~git20260101.older "$top/packaging/deb.sh" "$work") || exit 70
new=$("$top/packaging/deb.sh" "$work") || exit 70
[ -e "$old" ] && [ -e "$new" ] || { echo "$old"; exit 70; }

# the package and its parts, from outside
lintian "$new" 2>/dev/null | grep '^E:' >"$work/lint"
check_not "lintian has no errors" test -s "$work/lint"
dpkg-deb -x "$new" "$work/x"
for page in "$work"/x/usr/share/man/man*/*; do gzip -dc "$page" >"$work/page" && mandoc -Tlint "$work/page"; done >"$work/lint" 2>&1
check_not "mandoc has nothing to say of the man pages" test -s "$work/lint"
mkdir "$work/units"
for unit in "$work"/x/usr/lib/systemd/system/*; do
    # (the program and its manual stand where the package will put them)
    sed "s|/usr/bin/modemkit|$work/x/usr/bin/modemkit|; s|file:/usr|file:$work/x/usr|" "$unit" >"$work/units/$(basename "$unit")"
    named=$(basename "$unit" .service)cdc-wdm0.service
    cp "$work/units/$(basename "$unit")" "$work/units/$named"
done
systemd-analyze verify "$work"/units/*cdc-wdm0.service >"$work/lint" 2>&1
check_not "systemd-analyze has nothing to say of the units" test -s "$work/lint"

# inside
[ -e "$debian/proc/self" ] || mount -t proc proc "$debian/proc" || exit 70
cp /etc/resolv.conf "$debian/etc/resolv.conf"
in_debian sh -c 'command -v man && command -v udevadm' >/dev/null 2>&1 ||
    in_debian sh -c 'apt-get update && apt-get install -y --no-install-recommends man-db udev' >"$work/said" 2>&1 || { tail -3 "$work/said"; exit 70; }
in_debian apt-get purge -y modemkit >/dev/null 2>&1
in_debian mandb -q >/dev/null 2>&1
mkdir -p "$debian/etc/systemd/system"
files >"$work/before"
cp "$old" "$new" "$debian/root/"
old=/root/$(basename "$old") new=/root/$(basename "$new")

check "apt installs the older package" in_debian apt-get install -y "$old"
check "the group is there" in_debian getent group modemkit
in_debian modemkit modem-sim --socket /run/modem.sock & running="$running $!"
wait_for /run/modem.sock
# as the unit does: a proxy whose group is modemkit, and a socket that gets the group's rights once it is there
in_debian setpriv --regid modemkit --clear-groups sh -c 'umask 077; exec modemkit qmi-proxy -d /run/modem.sock --socket /run/proxy.sock --no-exit' & running="$running $!"
wait_for /run/proxy.sock
asks="modemkit qmicli -p --socket /run/proxy.sock -d /run/modem.sock --dms-get-model"
check "the proxy's owner is answered" in_debian $asks
check_not "before the socket has the group's rights a member isn't let in" in_debian setpriv --reuid 65534 --regid 65534 --groups modemkit $asks
check "the unit's chmod" in_debian setpriv --regid modemkit --clear-groups --bounding-set=-all --inh-caps=-all sh -c 'chmod 0660 /run/proxy.sock'
check "then a member of the group is answered" in_debian setpriv --reuid 65534 --regid 65534 --groups modemkit $asks
check_not "another user isn't" in_debian setpriv --reuid 65534 --regid 65534 --clear-groups $asks

check "apt installs the newer one over it, with both running" in_debian apt-get install -y "$new"
check "its version is there" sh -c "chroot '$debian' dpkg-query -W modemkit | grep -q \"\$(dpkg-deb -f '$debian$new' Version)\""
check "the proxy goes on" in_debian $asks
check "man modemkit-qmicli" sh -c "chroot '$debian' env MANPAGER=cat MANWIDTH=80 man modemkit-qmicli | grep -q dms-get-model"
check "man modemkit" in_debian man modemkit
check "the units are there" test -e "$debian/usr/lib/systemd/system/modemkit-qmi-proxy@.service" -a -e "$debian/usr/lib/systemd/system/modemkit-mbim-proxy@.service" -a -e "$debian/usr/lib/systemd/system/modemkit-qmi-proxies.service"
if in_debian udevadm verify --help >/dev/null 2>&1; then
    check "udevadm takes the rule" in_debian udevadm verify /usr/lib/udev/rules.d/70-modemkit.rules
else
    echo "not tried: udevadm verify (an older systemd)"
fi
check "systemctl enable: the node's device unit wants the proxy" sh -c "systemctl --root='$debian' enable modemkit-qmi-proxy@cdc-wdm0 &&
    test -L '$debian/etc/systemd/system/dev-cdc-wdm0.device.wants/modemkit-qmi-proxy@cdc-wdm0.service'"
check "systemctl enable: one proxy for the nodes of a file" sh -c "mkdir -p '$debian/etc/default' && echo 'DEVICES=\"/run/a.sock /run/b.sock\"' >'$debian/etc/default/modemkit-qmi-proxies' &&
    systemctl --root='$debian' enable modemkit-qmi-proxies && test -L '$debian/etc/systemd/system/multi-user.target.wants/modemkit-qmi-proxies.service'"
check "what its command does with two simulated modems in the nodes' place" in_debian sh -c '. /etc/default/modemkit-qmi-proxies
    modemkit modem-sim --socket /run/a.sock & modems=$!; modemkit modem-sim --socket /run/b.sock & modems="$modems $!"
    until [ -S /run/a.sock ] && [ -S /run/b.sock ]; do sleep 0.05; done
    modemkit qmi-proxies --socket /run/proxies.sock --no-exit $DEVICES & modems="$modems $!"
    until [ -S /run/proxies.sock ]; do sleep 0.05; done
    for device in $DEVICES; do modemkit qmicli -p --socket /run/proxies.sock -d $device --dms-get-model || exit; done
    kill $modems; rm -f /run/a.sock /run/b.sock /run/proxies.sock'
check "a tool and a simulated modem of MBIM" in_debian sh -c 'modemkit modem-sim --kind mbim --socket /run/mbim.sock & modem=$!
    until [ -S /run/mbim.sock ]; do sleep 0.05; done; modemkit mbimcli -d /run/mbim.sock --query-device-caps; status=$?; kill $modem; rm -f /run/mbim.sock; exit $status'

check "apt removes it, with both running" in_debian apt-get remove -y modemkit
check "the proxy goes on until it is stopped" test -S "$debian/run/proxy.sock"
check_not "the program is gone" test -e "$debian/usr/bin/modemkit"
kill $running 2>/dev/null; wait $running 2>/dev/null; running=
rm -f "$debian/run/modem.sock" "$debian/run/proxy.sock"
check "apt purges it" in_debian apt-get purge -y modemkit
check_not "the group is gone" in_debian getent group modemkit
in_debian mandb -q >/dev/null 2>&1
files | grep -v '^etc/\(group\|gshadow\|passwd\|shadow\)-\{0,1\}$' >"$work/after"
grep -v '^etc/\(group\|gshadow\|passwd\|shadow\)-\{0,1\}$' "$work/before" | diff - "$work/after" >"$work/left"
check_not "nothing is left" test -s "$work/left"
[ ! -s "$work/left" ] || cat "$work/left"

# a disk that has no room for it
mkdir -p "$work/small"
if mount -t tmpfs -o size=400k none "$work/small"; then
    mkdir -p "$work/small/var/lib/dpkg/info" "$work/small/var/lib/dpkg/updates" "$work/small/usr"
    : >"$work/small/var/lib/dpkg/status"
    check_not "a full disk: dpkg says so" dpkg --root="$work/small" --force-depends --no-triggers --unpack "$debian$new"
    cp "$work/said" "$work/full"
    check "for want of room" grep -q "No space left" "$work/full"
    check_not "and leaves no file of it" sh -c "find '$work/small/usr' -type f | grep ."
    rm -rf "$work/small"/*
    check_not "a full disk: ./install says so" env DESTDIR="$work/small" MODEMKIT="$work/x/usr/bin/modemkit" "$top/install" /usr
    cp "$work/said" "$work/full"
    check "for want of room" grep -q "No space left" "$work/full"
    check_not "and leaves no half file" sh -c "find '$work/small' -name '*.new' | grep ."
else
    echo "not tried: a full disk (no tmpfs can be mounted)"
fi
rm -f "$debian$old" "$debian$new"
exit $failed
