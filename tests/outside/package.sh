#!/bin/sh
# Installs the package of tools/package.sh in a folder with nothing but Debian's packages, and tries its contents. As root:
#
#     tests/outside/package.sh ROOT [--monitoring] [--unproved | --evpnd PROGRAM] [--log FILE]
#
# ROOT is a folder made by `debootstrap --variant=minbase bookworm ROOT` (or trixie). With --monitoring, Debian's prometheus
# and systemd are installed there too, and the examples of monitoring are tried by promtool and systemd-analyze: the rules
# fire at the audit's text of a wrong leaf and not at that of a right one. Not part of the gate.
set -eu
top=$(cd "$(dirname "$0")/../.." && pwd)
root=$1
shift
monitoring=
[ "${1-}" != --monitoring ] || { monitoring=yes; shift; }
passed=0
failed=0
see() { # WHAT COMMAND ..
  what=$1
  shift
  if "$@" > "$work/said" 2>&1; then
    passed=$((passed + 1)); echo "ok: $what"
  else
    failed=$((failed + 1)); echo "FAILED: $what"; sed 's/^/    /' "$work/said"
  fi
}
within() { chroot "$root" env -i PATH=/usr/sbin:/usr/bin:/sbin:/bin HOME=/root DEBIAN_FRONTEND=noninteractive LC_ALL=C.UTF-8 "$@"; }
gives() { # STATUS COMMAND ..: a command's status in there
  wanted=$1
  shift
  status=0
  within "$@" || status=$?
  [ "$status" = "$wanted" ]
}
work=$(mktemp -d)
mounted=
trap 'rm -rf "$work" "$root/evpnd-try"; [ -z "$mounted" ] || umount "$root/proc"' EXIT
if [ ! -e "$root/proc/self" ]; then
  mount -t proc proc "$root/proc" && mounted=yes
fi
"$top/tools/package.sh" "$work/made" "$@" > "$work/name"
package=$(cat "$work/name")
mkdir -p "$root/evpnd-try"
cp "$package" "$root/evpnd-try/evpnd.deb"
cp -r "$top/tests/data/frr/views/10.3" "$root/evpnd-try/views"
cp "$top/crates/evpnd/stdin" "$root/evpnd-try/record"
see "the package is the same when it is made again" sh -c "'$top/tools/package.sh' '$work/again' $* > /dev/null && cmp '$package' '$work/again/'*.deb"
if command -v lintian > /dev/null; then
  see "lintian has no error" sh -c "lintian --allow-root --fail-on error '$package'"
else
  echo "not tried: lintian isn't here"
fi
see "apt installs it with Debian's packages alone" within apt-get install -y --no-install-recommends /evpnd-try/evpnd.deb
see "the files are those of the package" within dpkg --verify evpnd
for name in evpnd evpndctl evpnd-run evpnd-attach evpnd-audit evpnd-bgp evpnd-records; do
  see "$name is there, with completion" sh -c "test -x '$root/usr/bin/$name' && chroot '$root' bash -c '. /usr/share/bash-completion/completions/$name && complete -p $name'"
done
see "evpnd completes a subcommand" sh -c "chroot '$root' bash -c '. /usr/share/bash-completion/completions/evpnd; COMP_WORDS=(evpnd si); COMP_CWORD=1; _evpnd; echo \"\${COMPREPLY[*]}\"' | grep -qx simulate"
see "and an option of one" sh -c "chroot '$root' bash -c '. /usr/share/bash-completion/completions/evpnd; COMP_WORDS=(evpnd report --o); COMP_CWORD=2; _evpnd; echo \"\${COMPREPLY[*]}\"' | grep -qx -- --originators"
see "the units are there, and none is enabled" sh -c "ls '$root'/lib/systemd/system/evpnd.service '$root'/lib/systemd/system/evpnd-serve.service '$root'/lib/systemd/system/evpnd-bgp.service \
  '$root'/lib/systemd/system/evpnd-audit.service '$root'/lib/systemd/system/evpnd-audit.timer && ! grep -r usr/local '$root'/lib/systemd/system/evpnd* && ! find '$root/etc/systemd' -name 'evpnd*' | grep ."
see "the copyright file says what NOTICE says" sh -c "head -n \$(wc -l < '$top/NOTICE') '$root/usr/share/doc/evpnd/copyright' | cmp - '$top/NOTICE'"
see "the changelog has this version" sh -c "gzip -dc '$root/usr/share/doc/evpnd/changelog.gz' 2>/dev/null | head -n 1 | grep -F \"(\$(dpkg-deb -f '$package' Version))\" || dpkg-deb -c '$package' | grep -q changelog.gz"
see "version and description agree on the proof" sh -c "proof=\$(chroot '$root' evpnd version | sed -n 2p); case \$(dpkg-deb -f '$package' Version) in *~unproved) [ \"\$proof\" != proved ] && dpkg-deb -f '$package' Description | grep -q unproved ;; *) [ \"\$proof\" != unproved ] ;; esac"
cp "$top/examples/run/two_edges.toml" "$root/evpnd-try/edges.toml"
see "evpnd-run runs two edges until a signal" unshare --net sh -c "ip link set lo up; chroot '$root' timeout -s TERM 3 evpnd-run /evpnd-try/edges.toml > '$work/report'; grep -q '^edge 2' '$work/report'"
see "evpnd report prints the shipped record's owner" sh -c "chroot '$root' /usr/bin/evpnd report --originators 10.0.0.1 < '$top/crates/evpnd/stdin' | grep -q '^owner 5001 02:00:00:00:00:0a 10.0.0.1$'"
see "the audit of a leaf that is right" gives 0 evpnd-audit /evpnd-try/views/home
see "the audit of a leaf that is wrong" gives 1 evpnd-audit /evpnd-try/views/planted
see "for Nagios" gives 2 evpnd-audit --nagios /evpnd-try/views/planted
see "for Prometheus" gives 1 evpnd-audit --prometheus /evpnd-try/evpnd.prom /evpnd-try/views/planted
see "one station" gives 0 evpnd-audit mac 5001 02:00:00:00:00:aa /evpnd-try/views/home
see "without FRR the cause is named" sh -c "chroot '$root' evpnd-audit 2>&1 | grep -q 'the command vtysh can.t be run'"
see "the gateway to BGP tells which packages it needs" sh -c "chroot '$root' evpnd-bgp --watch 1 2>&1 | grep -q 'install gobgpd'"
see "records of FRR's routes" gives 0 sh -c "evpnd-records frr --vni 5001 /evpnd-try/views/home/routes.json | evpnd-records show | grep -q '^advert 10.0.0.1 5001'"
for page in evpnd evpndctl evpnd-run evpnd-attach evpnd-audit evpnd-bgp evpnd-records; do
  see "the man page $page" sh -c "gzip -dc '$root/usr/share/man/man1/$page.1.gz' 2>/dev/null | man -l - 2>&1 | grep -q DESCRIPTION || dpkg-deb -c '$package' | grep -q man1/$page.1.gz"
done
if [ -n "$monitoring" ]; then
  within apt-get install -y --no-install-recommends prometheus systemd > "$work/apt" 2>&1 || cat "$work/apt"
  cp "$top"/examples/monitoring/* "$root/evpnd-try/"
    see "systemd takes the units" within sh -c "systemd-analyze verify /lib/systemd/system/evpnd*"
  see "Prometheus takes the rules" within promtool check rules /evpnd-try/evpnd.rules.yml
  see "and what the audit writes" sh -c "chroot '$root' promtool check metrics < '$root/evpnd-try/evpnd.prom'"
  series=$(sed -n 's/^\(evpnd_audit_entries{.*kind="wrong"}\) \([0-9]*\)$/\1 \2/p' "$root/evpnd-try/evpnd.prom")
  {
    echo "rule_files: [evpnd.rules.yml]"
    echo "tests:"
    echo "  - interval: 1m"
    echo "    input_series:"
    echo "$series" | while read -r name value; do
      echo "      - series: '$(echo "$name" | sed 's/{/{instance="leaf1",/')'"
      echo "        values: '$value $value'"
    done
    echo "    alert_rule_test:"
    echo "      - eval_time: 1m"
    echo "        alertname: EvpnForwardsWrong"
    echo "        exp_alerts:"
    echo "          - exp_labels: {severity: critical, instance: leaf1, vni: '5001', kind: wrong}"
    echo "            exp_annotations:"
    echo "              summary: 'leaf1: 1 wrong in VNI 5001'"
    echo "              description: 'On that host, evpnd-audit says which, why, and what mends it.'"
  } > "$root/evpnd-try/rules_test.yml"
  see "the rule fires for the VNI that is wrong, and for no other" within promtool test rules /evpnd-try/rules_test.yml
fi
see "it goes without a trace" sh -c "chroot '$root' dpkg --purge evpnd && [ ! -e '$root/usr/share/evpnd' ] && [ ! -e '$root/usr/bin/evpnd' ]"
echo "$passed passed, $failed failed"
[ "$failed" = 0 ]
