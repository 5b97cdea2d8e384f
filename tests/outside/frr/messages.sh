#!/usr/bin/env bash
# The audit's messages if it can't look: bgpd down, zebra down, no daemon, not root (beside running FRR, and with what its
# vtysh answered), and a binary file where text is meant; and how often it runs each command, and its two looks, on a host of
# stubs. As root, with frr and iproute2:
#
#     tests/outside/frr/messages.sh [TOOLS [ROOT ..]]
#
# TOOLS is a folder of tools, this commit's without it. Those before the audit was made to be left running fail here:
#
#     git worktree add /tmp/before 04daf64 && tests/outside/frr/messages.sh /tmp/before/tools
#
# ROOT: see messages.py. The last line is 'N passed, M failed'. Not part of the gate, which runs the second half itself.
set -u
here=$(cd "$(dirname "$0")" && pwd)
TOOLS=$(cd "${1:-$here/../../../tools}" && pwd) || exit 2
export TOOLS
shift
said=$(mktemp)
trap 'rm -f "$said"' EXIT
python3 "$here/messages.py" --tools "$TOOLS" "$@" | tee "$said"
[[ $(tail -n 1 "$said") =~ ^([0-9]+)\ passed,\ ([0-9]+)\ failed$ ]] || exit 2
passed=${BASH_REMATCH[1]}
failed=${BASH_REMATCH[2]}
cd "$here/../../tools" || exit 2
for name in test_audit_messages.OfFrr test_audit_messages.BinaryFiles test_audit_host.OnAHost; do
  for test in $(sed -n "/^class ${name#*.}/,/^class /s/^    def \(test_[a-z_]*\).*/\1/p" "${name%.*}.py"); do
    if python3 -m unittest "$name.$test" > "$said" 2>&1; then
      passed=$((passed + 1)); echo "ok: $name.$test"
    else
      failed=$((failed + 1)); echo "FAILED: $name.$test"; grep '^AssertionError' "$said"
    fi
  done
done
echo "$passed passed, $failed failed"
[ "$failed" = 0 ]
