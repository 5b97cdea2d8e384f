#!/usr/bin/env bash
# The audit where this machine's kernel has no VRF, no bridge with VLANs and no single VXLAN device: under Debian's user-mode-linux,
# whose kernel has them. As root or not, with user-mode-linux, kmod, frr 8.4.4, iproute2 and python3:
#
#     tests/outside/frr/uml.sh PROGRAM [ROOT]
#
# PROGRAM is evpnd or evpnd_report, proved or of `tools/try --fast`: a checked program doesn't run in the guest. ROOT is a folder with
# a Debian that has FRR 10 (see leaves.py), for the single VXLAN device, which FRR 8.4.4 doesn't run. The guest's root is this host's,
# over hostfs; its writes go to memory of its own. The guest ends by itself. With EVPND_UML_ROOT=FOLDER and as root, FOLDER is the
# guest's root, and this host needs none of the packages:
#
#     packages=frr,iproute2,kmod,procps,python3,systemd-sysv,user-mode-linux
#     debootstrap --variant=minbase --include=$packages bookworm FOLDER
#
# The last line is 'N passed, M failed'. Not part of the gate.
set -eu
here=$(cd "$(dirname "$0")" && pwd)
program=$(realpath "$1")
root=${2:--}
[ "$root" = - ] || root=$(realpath "$root")
if [ "$$" != 1 ] && [ -n "${EVPND_UML_ROOT:-}" ]; then
  folder=$(realpath "$EVPND_UML_ROOT")
  # In a chroot, hostfs shows this folder as the root. The mounts are in a namespace of their own, and end with it.
  exec env -u EVPND_UML_ROOT "folder=$folder" "top=$(realpath "$here/../../..")" "program=$program" "root=$root" \
    PATH=/usr/sbin:/usr/bin:/sbin:/bin unshare --mount sh -euc '
      mount -t tmpfs tmpfs "$folder/opt"
      mkdir "$folder/opt/evpnd" "$folder/opt/root"
      touch "$folder/opt/program"
      mount --bind "$top" "$folder/opt/evpnd"
      mount --bind "$program" "$folder/opt/program"
      [ "$root" = - ] || mount --bind "$root" "$folder/opt/root"
      mount --rbind /dev "$folder/dev"
      mount -t proc proc "$folder/proc"
      mount -t tmpfs tmpfs "$folder/tmp"
      [ "$root" = - ] || root=/opt/root
      exec chroot "$folder" /opt/evpnd/tests/outside/frr/uml.sh /opt/program "$root"'
fi
if [ "$$" != 1 ] && [ -z "${EVPND_GUEST:-}" ]; then
  said=$(mktemp)
  trap 'rm -f "$said"' EXIT
  timeout 900 linux.uml mem=512M root=/dev/root rootfstype=hostfs rootflags=/ rw init="$here/uml.sh" EVPND_GUEST=1 \
    "EVPND_PYTHON=$(command -v python3)" con=null con0=fd:0,fd:1 ssl=null quiet -- "$program" "$root" < /dev/null \
    | tr -d '\r' | sed -u '/^reboot: /d' | tee "$said"
  grep -q '^[0-9]* passed, 0 failed$' "$said"
  exit
fi
export PATH=/usr/local/sbin:/usr/local/bin:/usr/sbin:/usr/bin:/sbin:/bin HOME=/root EVPND=$program
mount -t proc proc /proc
mount -t sysfs sys /sys
if [ "$root" = - ]; then  # the kernel adds words of its own after ours, so an absent ROOT needs a word
  root=
else
  mount --bind "$root" /srv
  for folder in /srv/run /srv/var/tmp; do mount -t tmpfs tmpfs "$folder"; done
  root=/srv
fi
for folder in /run /tmp /var/tmp /mnt; do mount -t tmpfs tmpfs "$folder"; done
mkdir -p /mnt/lib /run/frr
ln -s /usr/lib/uml/modules /mnt/lib/modules
for module in vrf vxlan bridge 8021q veth; do modprobe -d /mnt "$module"; done
ip link set lo up
"${EVPND_PYTHON:-python3}" -B "$here/uml_cases.py" $root || true
halt -f > /dev/null 2>&1
