#!/bin/sh
# Makes a Debian package of the proved program, and prints its name and its SHA-256.
#
#     tools/dev/package.sh [the aggregator program [the folder to write to]]
#
# The program is crates/aggregator/out/aggregator unless another is named. It is packed only where ./build or ./test left a
# stamp beside it, by which it was proved from the sources of the present commit, with the kit that is installed. The
# version is what the program says of itself (`--version`) where the commit has the tag v<version>. Else it sorts before
# that version and behind those of earlier commits, and names the commit: 0.4.0~git20261130.061355.6275ef16 is of
# 2026-11-30, 06:13:55 UTC. Two runs over one program and one commit make the same file: all times are the last commit's,
# or SOURCE_DATE_EPOCH, and what git doesn't track isn't packed. It wants dpkg-deb, gzip, git and python3.
set -eu
case ${1:-} in -h | --help) sed -n '2,/^set -eu/s/^# \{0,1\}//p' "$0"; exit 0 ;; esac
umask 022
export LC_ALL=C
here=$PWD
cd "$(dirname "$0")/../.."
program=${1:-crates/aggregator/out/aggregator}
to=${2:-.}
case $program in /*) ;; *) [ $# -eq 0 ] || program=$here/$program ;; esac
case $to in /*) ;; *) to=$here/$to ;; esac
missing=
for need in dpkg-deb gzip git python3; do
    command -v "$need" > /dev/null || missing="$missing $need"
done
[ -z "$missing" ] || { echo "missing:$missing (apt-get install dpkg gzip git python3)" >&2; exit 2; }
[ -x "$program" ] || { echo "$program isn't built: ./build proves and links it" >&2; exit 2; }
why=$(PYTHONPATH=tools python3 -c '
import pathlib, sys
from lib import stamp
print(stamp.why_not(pathlib.Path(sys.argv[1]).resolve()))' "$program")
[ -z "$why" ] || { echo "$program isn't packed: $why. ./build proves and links it" >&2; exit 1; }
proved() { sed -n "s/^$1: //p" "$program.stamp"; } # a field of the stamp

version=$("$program" --version | awk 'NR == 1 { print $NF }')
case $version in
    [0-9]*) ;;
    *) echo "$program tells no version: '$version'" >&2; exit 1 ;;
esac
if [ "$(git describe --exact-match --tags --match "v$version" 2> /dev/null)" != "v$version" ]; then
    when=$(TZ=UTC git log -1 --format=%cd --date=format-local:%Y%m%d.%H%M%S)
    version=$version~git$when.$(git rev-parse --short=8 HEAD)
fi
SOURCE_DATE_EPOCH=${SOURCE_DATE_EPOCH:-$(git log -1 --format=%ct)}
export SOURCE_DATE_EPOCH
# The newest version of the C library of which the program names a symbol.
libc=$(grep -ao 'GLIBC_2\.[0-9.]*' "$program" | sort -uV | tail -n 1 | sed 's/GLIBC_//')

tree=$(mktemp -d)
trap 'rm -rf "$tree"' EXIT
chmod 755 "$tree"
put() { # mode, file, its place in the package
    mkdir -p "$tree/$(dirname "$3")"
    install -m "$1" "$2" "$tree/$3"
}
put_zipped() { # file, its place in the package
    mkdir -p "$tree/$(dirname "$2")"
    gzip -9n < "$1" > "$tree/$2.gz"
}
# The program stands beside its stamp, in which it finds its commit.
put 755 "$program" usr/lib/sesamejoist/aggregator
put 644 "$program.stamp" usr/lib/sesamejoist/aggregator.stamp
mkdir -p "$tree/usr/bin"
ln -s ../lib/sesamejoist/aggregator "$tree/usr/bin/aggregator"
put 644 packaging/sesamejoist.service usr/lib/systemd/system/sesamejoist.service
put 644 packaging/sesamejoist.default etc/default/sesamejoist
put 644 packaging/fleet.conf etc/sesamejoist/fleet.conf
put 644 packaging/aggregator.bash usr/share/bash-completion/completions/aggregator
put_zipped packaging/aggregator.8 usr/share/man/man8/aggregator.8
# The script that asks, in the folders in which it finds what it imports, and a name for it on the path.
for file in tools/try/ask.py tools/lib/__init__.py tools/lib/asking.py; do
    put 644 "$file" "usr/lib/sesamejoist/${file#tools/}"
done
chmod 755 "$tree/usr/lib/sesamejoist/try/ask.py"
ln -s ../lib/sesamejoist/try/ask.py "$tree/usr/bin/sesamejoist-ask"
doc=usr/share/doc/sesamejoist
put_zipped CHANGELOG.md $doc/changelog
put 644 README.md $doc/README.md
for file in $(git ls-files docs examples); do
    put 644 "$file" "$doc/$file"
done

size=$(find "$tree" -type f -printf '%s\n' | awk '{ sum += int(($1 + 1023) / 1024) } END { print sum }')
mkdir "$tree/DEBIAN"
for script in postinst prerm postrm; do
    install -m 755 packaging/$script "$tree/DEBIAN/$script"
done
printf '/etc/default/sesamejoist\n/etc/sesamejoist/fleet.conf\n' > "$tree/DEBIAN/conffiles"
(cd "$tree" && find usr -type f | sort | xargs -d '\n' md5sum) > "$tree/DEBIAN/md5sums"
cat > "$tree/DEBIAN/control" << CONTROL
Package: sesamejoist
Version: $version
Section: net
Priority: optional
Architecture: amd64
Maintainer: ${MAINTAINER:-$(git log -1 --format='%an <%ae>')}
Depends: libc6${libc:+ (>= $libc)}
Recommends: python3
Suggests: haproxy, netcat-openbsd
Installed-Size: $size
Description: collector for the stick tables of a fleet of HAProxy proxies
 Proxies name it as a peer and push their stick tables to it. It sums them per
 key, and tells which keys exceed a limit over the whole fleet, who leads, and
 when the clock alone changes that.
 .
 Every function of it is proved: commit $(proved commit | cut -c 1-12),
 $(proved kit), $(proved verdict).
CONTROL
find "$tree" -depth -exec touch -h -d "@$SOURCE_DATE_EPOCH" {} +

package="$to/sesamejoist_${version}_amd64.deb"
dpkg-deb --build --root-owner-group --threads-max=1 -Zxz "$tree" "$package" > /dev/null
(cd "$to" && sha256sum "$(basename "$package")")
