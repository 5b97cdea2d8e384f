#!/bin/sh
# Makes a Debian package of the program evpnd and its tools:
#
#     tools/package.sh FOLDER [--unproved | --evpnd PROGRAM] [--log FILE]
#
# FOLDER gets evpnd_VERSION_ARCHITECTURE.deb, which installs on a Debian 12 without kit or compiler. The program is the proved
# one that the gate or `rt run` left in crates/evpnd/out, if no source is newer; else `rt run` proves and builds it first, which
# takes about an hour. --unproved packs the program that tools/try builds in some minutes, --evpnd PROGRAM any program.
# The second line that PROGRAM's `version` prints is `proved` or `unproved`; a program without this line counts as proved only if
# it is the one in crates/evpnd/out. Of an unproved one the version ends with ~unproved, and the description states it.
# FILE is the output of the `rt check` that proved the program; without it the package states that it has no log.
#
# In the package: evpnd, evpndctl, evpnd-run, evpnd-attach, evpnd-audit, evpnd-bgp and evpnd-records with their completion and man pages, units
# of systemd that aren't enabled, the docs, the examples, and the SHA-256 of the program and of each source that it was built from.
# The version is the first of CHANGELOG.md, then the commit's time and hash, so that a later commit's package is newer. An
# uncommitted change adds `.changed`. DEBFULLNAME and DEBEMAIL name the maintainer; else it is the commit's author.
# Needs dpkg-deb and binutils; tests/outside/package.sh tries the package in a folder with nothing but Debian.
set -eu
top=$(cd "$(dirname "$0")/.." && pwd)
program=
is_unproved=
log=
folder=
fail() { echo "package: $*" >&2; exit 2; }
usage() { echo "usage: tools/package.sh FOLDER [--unproved | --evpnd PROGRAM] [--log FILE]"; }
while [ $# -gt 0 ]; do
  case $1 in
    --evpnd) [ $# -gt 1 ] || fail "--evpnd needs a program"; program=$2; shift ;;
    --unproved) is_unproved=yes ;;
    --log) [ $# -gt 1 ] || fail "--log needs a file"; log=$2; shift ;;
    --help) usage; exit ;;
    -*) usage >&2; exit 2 ;;
    *) folder=$1 ;;
  esac
  shift
done
[ -n "$folder" ] || { usage >&2; exit 2; }
for tool in dpkg-deb strip; do
  command -v $tool > /dev/null || fail "$tool isn't there: apt-get install dpkg binutils"
done
[ -z "$log" ] || [ -r "$log" ] || fail "$log: can't be read"

# ---- the program, whether it is proved, and its sources
if [ -n "$is_unproved" ]; then
  program=$("$top/tools/try" --fast --build evpnd)
elif [ -z "$program" ] && ! program=$("$top/tools/try" --proved evpnd); then
  echo "package: there is no proved program of these sources: proving it, for about an hour (--unproved doesn't)" >&2
  (cd "$top/crates/evpnd" && rt run -- version) >&2 || fail "evpnd isn't proved: see the lines above"
  program=$top/crates/evpnd/out/evpnd
fi
[ -x "$program" ] || fail "$program: no program; 'rt run' in crates/evpnd builds it"
proof=$("$program" version | sed -n 2p) || fail "$program: its 'version' failed"
is_current=
[ "$("$top/tools/try" --proved evpnd || true)" != "$(realpath "$program")" ] || is_current=yes
case $proof in
  proved | unproved) ;;
  *) proof=${is_current:+proved}; proof=${proof:-unproved} ;; # a program that doesn't say
esac
work=$(mktemp -d)
trap 'rm -rf "$work"' EXIT
if [ -r "$program.sources" ]; then
  cp "$program.sources" "$work/sources"
elif [ -n "$is_current" ]; then
  "$top/tools/try" --sources evpnd > "$work/sources"
fi

# ---- the version
commit=$(git -C "$top" rev-parse --short=10 HEAD)
seconds=$(git -C "$top" log -1 --format=%ct)
time=$(date -u -d "@$seconds" +%Y%m%d%H%M%S)
SOURCE_DATE_EPOCH=$seconds
export SOURCE_DATE_EPOCH
changed=$(git -C "$top" status --porcelain --untracked-files=no | head -c 1)
numbered=$(sed -n 's/^## \([0-9][0-9.]*\).*/\1/p' "$top/CHANGELOG.md" | head -n 1)
[ -n "$numbered" ] || fail "CHANGELOG.md: no version stands there"
version=$numbered+$time.g$commit${changed:+.changed}
[ "$proof" = proved ] || version=$version~unproved
architecture=$(dpkg --print-architecture)
maintainer="${DEBFULLNAME:-$(git -C "$top" log -1 --format=%an)} <${DEBEMAIL:-$(git -C "$top" log -1 --format=%ae)}>"

root=$work/root
share=$root/usr/share/evpnd
doc=$root/usr/share/doc/evpnd
man=$root/usr/share/man/man1
completions=$root/usr/share/bash-completion/completions
units=$root/lib/systemd/system
umask 022
mkdir -p "$root/DEBIAN" "$root/usr/bin" "$share" "$doc/crates" "$man" "$completions" "$units"

# ---- the program and the tools
install -m 755 "$program" "$root/usr/bin/evpnd"
if [ "$(head -c 4 "$program" | tail -c 3)" = ELF ]; then
  strip --strip-all --remove-section=.comment --remove-section=.note "$root/usr/bin/evpnd"
fi
install -m 755 "$top/tools/evpndctl" "$top/tools/evpnd-attach" "$top/examples/run/evpnd-run" "$root/usr/bin/"
sed -i '1s|^#!/usr/bin/env python3$|#!/usr/bin/python3|' "$root/usr/bin/evpndctl" "$root/usr/bin/evpnd-attach"
for tool in "$top"/tools/audit_*.py "$top"/tools/evpnd_*.py; do
  install -m 644 "$tool" "$share/"
done
for name in bgp_routes bgp_service frr_routes gobgp update_records; do
  install -m 644 "$top/tools/$name.py" "$share/"
done
# The classes of GoBGP's messages, so that the gateway needs no protoc; without them it makes them at each start.
if ! python3 -B "$top/tools/gobgp.py" "$share/gobgp_api" 2> "$work/gobgp"; then
  rm -rf "$share/gobgp_api"
  echo "package: without the classes of GoBGP's messages, so evpnd-bgp will need more packages ($(tail -n 1 "$work/gobgp"))" >&2
fi
sed -i '1{/^#!/d}' "$share"/*.py
for name in audit bgp records; do
  printf '#!/bin/sh\nexec /usr/bin/python3 -B /usr/share/evpnd/evpnd_%s.py "$@"\n' "$name" > "$root/usr/bin/evpnd-$name"
  chmod 755 "$root/usr/bin/evpnd-$name"
done
install -m 644 "$top/tools/evpndctl.bash" "$completions/evpndctl"
install -m 644 "$top/tools/evpnd.bash" "$completions/evpnd"
for name in run attach audit bgp records; do
  ln -s evpnd "$completions/evpnd-$name"
done
for unit in "$top"/examples/run/*.service "$top"/examples/fabric/*.service "$top"/examples/monitoring/*.service "$top"/examples/monitoring/*.timer; do
  sed -e 's|/usr/local/bin/|/usr/bin/|g' -e '/^# Put .*\/etc\/systemd\/system/d' "$unit" > "$units/${unit##*/}"
done

# ---- docs, examples, the proof's log, sums
install -m 644 "$top/README.md" "$top"/docs/*.md "$doc/"
install -m 644 "$top"/docs/crates/*.md "$doc/crates/"
cp -r "$top/examples" "$doc/examples"
find "$doc/examples" -type f -exec chmod 644 {} +
find "$doc/examples" -type f -name '[!.]*' -exec sed -i '1s|^#!/usr/bin/env python3$|#!/usr/bin/python3|' {} +
gzip -9n < "$top/CHANGELOG.md" > "$doc/CHANGELOG.md.gz"
if [ -n "$log" ]; then
  gzip -9n < "$log" > "$doc/proof.log.gz"
else
  echo "The log of the proof wasn't given when this package was made." > "$doc/proof.log.missing"
fi
{
  echo "# SHA-256 of the program in this package, which is $proof, and of the sources that it was built from"
  sha256sum < "$root/usr/bin/evpnd" | sed 's|-|/usr/bin/evpnd|'
  if [ -s "$work/sources" ]; then cat "$work/sources"; else echo "# the sources of this program aren't known: it was given by --evpnd"; fi
} | gzip -9n > "$doc/sums.gz"
{
  echo "evpnd ($version) unstable; urgency=medium"
  echo
  echo "  * Commit $commit${changed:+ with uncommitted changes}; evpnd is $proof."
  echo "  * CHANGELOG.md.gz beside this file says what has changed for users."
  echo
  echo " -- $maintainer  $(LC_ALL=C date -u -R -d "@$seconds")"
} | gzip -9n > "$doc/changelog.gz"
{
  cat "$top/NOTICE"
  echo
  echo "Where a licence above is Apache-2.0, Debian has its text in /usr/share/common-licenses/Apache-2.0."
} > "$doc/copyright"

# ---- man pages, from the programs' own help
page() { # NAME LINE COMMAND ..: a page of a command's help
  name=$1 line=$2
  shift 2
  {
    printf '.TH %s 1 "%s" "evpnd %s"\n.SH NAME\n%s \\- %s\n' "$(echo "$name" | tr a-z A-Z)" "$(date -u -d "@$seconds" +%F)" "$version" "$name" "$line"
    printf '.SH DESCRIPTION\n.nf\n'
    "$@" 2>&1 | sed -e 's/\\/\\e/g' -e "s/^\\([.']\\)/\\\\\\&\\1/" -e 's/-/\\-/g'
    printf '.fi\n.SH SEE ALSO\n/usr/share/doc/evpnd\n'
  } | gzip -9n > "$man/$name.1.gz"
}
evpnd_help() {
  "$program" --help
  for word in report migrate check simulate play run serve version; do
    printf '\n\nevpnd %s\n\n' "$word"
    "$program" "$word" --help
  done
}
page evpnd 'tables, owners and edges of Ethernet VPN' evpnd_help
page evpndctl 'asks edges that run (evpnd serve) over their control socket' python3 -B "$top/tools/evpndctl" --help
page evpnd-run 'runs edges until a signal, and prints their reports' sed -n '2,/^set/{/^set/d;s/^# \{0,1\}//;p}' "$top/examples/run/evpnd-run"
page evpnd-attach 'opens tap devices and runs edges with them' python3 -B "$top/tools/evpnd-attach" --help
page evpnd-audit 'compares where a fabric forwards MACs with what its routes say' python3 -B "$top/tools/evpnd_audit.py" --help
page evpnd-bgp 'a gateway between update records and a BGP EVPN fabric, by GoBGP' python3 -B "$top/tools/evpnd_bgp.py" --help
page evpnd-records 'update records from readable lines and from the routes of FRR, and back' python3 -B "$top/tools/evpnd_records.py" --help

# ---- what dpkg has to know
libc=$(grep -ao 'GLIBC_2\.[0-9]*' "$program" | sort -t. -k2n | tail -n 1 | cut -d_ -f2)
if [ "$proof" = proved ]; then
  claim="A checker has proved the program against its contracts before it was built."
  short="audit of Ethernet VPN fabrics, with a proved report of owners"
else
  claim="No checker has proved the program in this package: it is an unproved build."
  short="audit of Ethernet VPN fabrics, with a report of owners (unproved)"
fi
{
  echo "Package: evpnd"
  echo "Version: $version"
  echo "Architecture: $architecture"
  echo "Maintainer: $maintainer"
  echo "Section: net"
  echo "Priority: optional"
  echo "Depends: python3 (>= 3.9)${libc:+, libc6 (>= $libc)}"
  echo "Recommends: iproute2"
  echo "Suggests: frr, prometheus-node-exporter, gobgpd, golang-github-osrg-gobgp-dev, protobuf-compiler," \
    "python3-grpcio, python3-protobuf"
  echo "Installed-Size: $(du -sk "$root/usr" | cut -f1)"
  echo "Description: $short"
  echo " evpnd report reads update records and prints each MAC's owner by RFC 7432."
  echo " evpnd-audit compares it with what FRR and the kernel do, for operators and"
  echo " for monitoring. evpnd run and serve are edge bridges over VXLAN."
  echo " ."
  echo " $claim"
} > "$root/DEBIAN/control"
(cd "$root" && find usr lib -type f -print0 | sort -z | xargs -0 md5sum) > "$root/DEBIAN/md5sums"
mkdir -p "$folder"
find "$root" -newermt "@$SOURCE_DATE_EPOCH" -exec touch -h -d "@$SOURCE_DATE_EPOCH" {} +
dpkg-deb --root-owner-group --build "$root" "$folder/evpnd_${version}_$architecture.deb" > "$work/said" || { cat "$work/said" >&2; exit 1; }
echo "$folder/evpnd_${version}_$architecture.deb"
