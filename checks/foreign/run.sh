#!/bin/sh
# Runs an end by plans by itself, on ends of any numbers, and beside the ring code of Linux, out of the source tree that the first word names: in turns, with
# its calls between our single accesses, and on two threads that sleep, so many seconds for each size of ring as the second word says. Every packet is compared,
# and a wake-up that is lost is told. Then once more with the full fences left out of our end, where one has to be lost. Without a word it says that there is
# nothing to run beside. It needs cc, and the static library: run `rt lib` in crates/ring_call_plan_c first.
top=$(cd "$(dirname "$0")/../.." && pwd) || exit 70
[ $# -gt 0 ] || { echo "checks/foreign/run.sh: no Linux source tree was named, so nothing was run beside it"; exit 0; }
[ -r "$top/crates/ring_call_plan_c/out/libring_call_plan_c.a" ] || { echo "checks/foreign/run.sh: there is no library: run rt lib in crates/ring_call_plan_c first" >&2; exit 70; }
. "$top/checks/foreign/build.sh"
room=$(mktemp -d) || exit 70
trap 'rm -rf "$room"' EXIT
mkdir "$room/fenced" "$room/unfenced" || exit 70
build_rings "$1" "$room/fenced" || exit 70
"$room/fenced/rings" all "${2-4}" || exit 1
build_rings "$1" "$room/unfenced" -DVMBUS_WITHOUT_FENCES || exit 70
for _ in 1 2 3 4 5; do
    if "$room/unfenced/rings" threads "${2-4}" >"$room/output"; then
        echo "without fences: no wake-up was lost in this run"
    elif grep -q 'lost wake-up' "$room/output"; then
        echo "without fences: $(tail -n 1 "$room/output")"
        exit 0
    else
        cat "$room/output"
        exit 1
    fi
done
echo "checks/foreign/run.sh: without fences no wake-up was lost in five runs, so this machine shows nothing by it" >&2
exit 1
