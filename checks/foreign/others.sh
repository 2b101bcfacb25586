#!/bin/sh
# Runs an end by plans in turns beside the ring code of others than Linux: others.sh [--dpdk TREE] [--qemu TREE], with source trees of DPDK (a guest's driver that polls) and of QEMU (a host's
# end). Their calls fall between any two accesses of ours, and every packet is compared. Without a tree it says that there is nothing to run beside. It needs cc, and the static library: run
# `rt lib` in crates/ring_call_plan_c first.
top=$(cd "$(dirname "$0")/../.." && pwd) || exit 70
dpdk= qemu=
while [ $# -gt 1 ]; do
    case $1 in
    --dpdk) dpdk=$2 ;;
    --qemu) qemu=$2 ;;
    *) break ;;
    esac
    shift 2
done
[ $# -eq 0 ] || { echo "usage: others.sh [--dpdk TREE] [--qemu TREE]" >&2; exit 64; }
[ -n "$dpdk$qemu" ] || { echo "checks/foreign/others.sh: no source tree was named, so nothing was run beside it"; exit 0; }
[ -r "$top/crates/ring_call_plan_c/out/libring_call_plan_c.a" ] || { echo "checks/foreign/others.sh: there is no library: run rt lib in crates/ring_call_plan_c first" >&2; exit 70; }
. "$top/checks/foreign/build.sh"
room=$(mktemp -d) || exit 70
trap 'rm -rf "$room"' EXIT
if [ -n "$dpdk" ]; then
    build_dpdk "$dpdk" "$room/dpdk" && build_turns dpdk "$room/dpdk" "$room/dpdk/bufring.o" || exit 70
    "$room/dpdk/dpdk" || exit 1
fi
if [ -n "$qemu" ]; then
    build_qemu "$qemu" "$room/qemu" && build_turns qemu "$room/qemu" || exit 70
    "$room/qemu/qemu" || exit 1
fi
