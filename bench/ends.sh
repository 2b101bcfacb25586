#!/bin/sh
# Builds bench/ends.c into the directory that the first word names, with the ring code of Linux and of DPDK where the next words name their source trees, each "" where there is none. It needs cc, and the
# static libraries: `rt lib` in crates/ring_call_plan_c and in crates/vmbus_ring_c leaves them.
top=$(cd "$(dirname "$0")/.." && pwd) || exit 70
[ $# -eq 3 ] || { echo "bench/ends.sh: name a directory and two source trees" >&2; exit 70; }
. "$top/checks/foreign/build.sh"
into=$1 linux=$2 dpdk=$3
mkdir -p "$into" || exit 70
set --
if [ -n "$linux" ]; then
    build_linux "$linux" "$into" || exit 1
    set -- "$@" -DWITH_LINUX "$into/ring_buffer.o"
fi
if [ -n "$dpdk" ]; then
    build_dpdk "$dpdk" "$into" || exit 1
    set -- "$@" -DWITH_DPDK "$into/bufring.o"
fi
cc -O2 -Wall -Wextra -pthread -I "$into" -I "$top/checks/foreign" -I "$top/examples/c" -o "$into/ends" "$top/bench/ends.c" "$@" "$top/crates/ring_call_plan_c/out/libring_call_plan_c.a" \
    "$top/crates/vmbus_ring_c/out/libvmbus_ring_c.a"
