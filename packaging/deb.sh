#!/bin/sh
# Makes a Debian package of the program: stripped, with its man pages, manuals, units and udev rule, and a group `modemkit` whose
# members reach modems and proxies. It prints the package's path.
#   packaging/deb.sh [FOLDER]       FOLDER: where the package is put, packaging/out where none is named
# MODEMKIT names a program that is built already, VERSION another version than the program's with the last commit's date, MAINTAINER who makes the
# package, as `Name <address>`.
top=$(CDPATH= cd -- "$(dirname -- "$0")/.." && pwd) || exit 70
. "$top/bench/needs.sh"
needs "Debian: binutils dpkg python3" strip objdump dpkg-deb python3
program=${MODEMKIT:-$("$top/bench/build.sh")} || exit 70
to=${1:-$top/packaging/out}
mkdir -p "$to" || exit 1
to=$(CDPATH= cd -- "$to" && pwd) || exit 1

commit() { git -C "$top" log -1 --date=format-local:"$2" --format="$1"; }
release=$(sed -n 's/^pub const VERSION: &str = "\(.*\)";$/\1/p' "$top/crates/version/src/line.rt")
version=${VERSION:-$release~git$(TZ=UTC commit %cd.%h %Y%m%d%H%M)}
case $version in
*[!A-Za-z0-9.+~-]* | [!0-9]* | '') echo "$0: no version: $version" >&2; exit 2 ;;
esac
maintainer=${MAINTAINER:-modemkit maintainers <maintainers@modemkit.example>}
SOURCE_DATE_EPOCH=$(git -C "$top" log -1 --format=%ct 2>/dev/null || date +%s)
export SOURCE_DATE_EPOCH
day=$(date -u -d "@$SOURCE_DATE_EPOCH" +%Y-%m-%d)

stage=$(mktemp -d) || exit 70
trap 'rm -rf "$stage"' EXIT
trap 'exit 130' INT TERM
set -e
umask 022
chmod 755 "$stage"
strip --strip-all -o "$stage/program" "$program"
mkdir "$stage/root"
MODEMKIT=$stage/program DESTDIR=$stage/root "$top/install" --group modemkit /usr >/dev/null
root=$stage/root
doc=$root/usr/share/doc/modemkit

# man pages
mkdir -p "$root/usr/share/man"
python3 "$top/packaging/man.py" "$top" "$root/usr/share/man" "$day"
find "$root/usr/share/man" -type f -exec gzip -9n {} +

# what a package has of its rights and of its changes
mkdir -p "$doc/examples"
cp "$top"/profiles/*.json "$doc/examples/"
{
    cat "$top/LICENSE" "$top/LICENSE-MIT"
    printf '\nThe Apache License, Version 2.0, stands in /usr/share/common-licenses/Apache-2.0.\n\n'
    sed 's|LICENSE-APACHE beside this file|/usr/share/common-licenses/Apache-2.0|' "$top/THIRD-PARTY"
} >"$doc/copyright"
gzip -9nc "$top/CHANGELOG.md" >"$doc/CHANGELOG.md.gz"
{
    echo "modemkit ($version) unstable; urgency=medium"
    echo
    echo "  * As CHANGELOG.md says, up to this commit."
    echo
    echo " -- $maintainer  $(date -u -R -d "@$SOURCE_DATE_EPOCH")"
} | gzip -9nc >"$doc/changelog.gz"

# the libraries that it needs; of the C library the newest version that its symbols name
needs=
for library in $(objdump -p "$root/usr/bin/modemkit" | sed -n 's/^ *NEEDED *//p'); do
    case $library in
    libc.so.6 | libm.so.6 | ld-linux-x86-64.so.2) ;;
    libgcc_s.so.1) needs="$needs, libgcc-s1" ;;
    *) echo "$0: no package is known for $library" >&2; exit 1 ;;
    esac
done
libc=$(objdump -T "$root/usr/bin/modemkit" | sed -n 's/.*(\{0,1\}GLIBC_\([0-9.]*\).*/\1/p' | sort -V | tail -1)
mkdir "$root/DEBIAN"
cat >"$root/DEBIAN/control" <<C
Package: modemkit
Version: $version
Architecture: amd64
Maintainer: $maintainer
Installed-Size: $(du -sk --apparent-size "$root/usr" | cut -f1)
Depends: libc6 (>= $libc)$needs, passwd
Section: net
Priority: optional
Description: tools and proxies for QMI and MBIM modems
 One program asks cellular modems for what they are, what they hear and what
 short messages they hold, and starts and stops connections, over QMI and over
 MBIM. Its proxies let up to 64 programs share one modem, and its simulated
 modems let programs be tried where there is none.
 .
 It is written in Rust with contracts that are proved, and needs nothing but the
 C library.
C
for script in postinst prerm postrm; do cp "$top/packaging/deb/$script" "$root/DEBIAN/"; done
chmod 755 "$root"/DEBIAN/p*
(cd "$root" && find usr -type f -exec md5sum {} + | sort -k 2 >DEBIAN/md5sums)
find "$root" -newermt "@$SOURCE_DATE_EPOCH" -exec touch -h -d "@$SOURCE_DATE_EPOCH" {} +

# put there at once and whole
file=modemkit_${version}_amd64.deb
dpkg-deb --root-owner-group -Zxz --build "$root" "$stage/$file" >/dev/null
cp "$stage/$file" "$to/$file.new"
mv -f "$to/$file.new" "$to/$file"
echo "$to/$file"
