#!/usr/bin/env bash
# Packs the built program as a Debian package. Usage: packaging/deb.sh PROGRAM FOLDER, which gets
# bactool_VERSION_ARCH.deb. All times are the day that CHANGELOG.md gives to the version, so the same files give the
# same octets. MAINTAINER, like `Name <address>`, is the maker of the package.
set -euo pipefail
program=$(realpath "$1")
folder=$(realpath "$2")
cd "$(dirname "$0")/.."
version=$("$program" --help | sed -n '1s/^bactool \([0-9.]*[0-9]\).*/\1/p')
date=$(sed -n "s/^## $version (\\(.*\\))\$/\\1/p" CHANGELOG.md)
[ -n "$date" ] || { echo "packaging/deb.sh: CHANGELOG.md has no date of the version $version" >&2; exit 1; }
SOURCE_DATE_EPOCH=$(date -u -d "$date" +%s)
export SOURCE_DATE_EPOCH
maintainer=${MAINTAINER:-bactool authors <bactool@bactool.invalid>}
architecture=$(dpkg --print-architecture)
room=$(mktemp -d)
trap 'rm -r "$room"' EXIT
root=$room/root
doc=$root/usr/share/doc/bactool
umask 022

DESTDIR="$root" PREFIX=/usr ZSH_COMPLETIONS=/usr/share/zsh/vendor-completions packaging/install.py "$program"
rm -r "$root/usr/share/bactool"
strip --strip-unneeded --remove-section=.comment --remove-section=.note "$root/usr/bin/bactool"
gzip -9n "$root"/usr/share/man/man[17]/*.[17]

install -d "$root/DEBIAN"
printf 'bactool (%s) unstable; urgency=medium\n\n  * CHANGELOG.md, beside this file, says what has changed.\n
 -- %s  %s\n' "$version" "$maintainer" "$(date -uRd "$date")" | gzip -9n >"$doc/changelog.gz"
sed 's/^$/./; s/^/ /' LICENSE | cat packaging/copyright - >"$doc/copyright"

# The C library of the least version that has what the program calls.
libc=$(objdump -T "$root/usr/bin/bactool" | sed -n 's/.*GLIBC_\([0-9.]*\).*/\1/p' | sort -V | tail -n 1)
size=$(find "$root/usr" -printf '%y %s\n' |
    awk '{ size += $1 == "f" ? int(($2 + 1023) / 1024) : 1 } END { print size }')
sed "s/@version@/$version/; s/@architecture@/$architecture/; s|@maintainer@|$maintainer|; s/@size@/$size/
    s/@libc@/$libc/" packaging/control >"$root/DEBIAN/control"
(cd "$root" && find usr -type f -print0 | LC_ALL=C sort -z | xargs -0 md5sum) >"$root/DEBIAN/md5sums"
dpkg-deb --build --root-owner-group -Zgzip "$root" "$folder/bactool_${version}_$architecture.deb"
