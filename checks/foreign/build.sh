# Compiles ring code of others out of source trees, into a directory, behind headers of ours. None of a tree's lines is kept. Read by run.sh and by bench/ends.sh, with the
# repository in `top`.

# The functions and structures of file $1 that begin with a line that matches $2, each up to its closing bracket.
cut_out() {
    awk -v begins="$2" '
        $0 ~ begins { on = 1; if (before != "") print before }
        on { print }
        on && /^}/ { on = 0 }
        { before = /^static / && !/[;{(]/ ? $0 : "" }
    ' "$1"
}

# The ring code of the Linux source tree $1, into the directory $2: ring_structs.h and ring_buffer.o.
build_linux() {
    ring=$1/drivers/hv/ring_buffer.c structures=$1/include/linux/hyperv.h
    [ -r "$ring" ] && [ -r "$structures" ] || { echo "no ring code of Linux in $1" >&2; return 1; }
    mkdir -p "$2/linux" "$2/asm" || return 1
    # The ring's structures and inline functions, and a header for each name that the code includes.
    awk '
        /^struct hv_ring_buffer \{/ { on = 1 }
        /^static inline u32 hv_get_avail_to_write_percent/ { on = 0 }
        /^struct vmpacket_descriptor \{/ { one = 1 }
        /^hv_get_ring_buffer\(/ { print "static inline void *"; one = 1 }
        /^static inline void hv_begin_read\(/ || /^static inline u32 hv_end_read\(/ { one = 1 }
        on || one { print }
        one && /^}/ { one = 0 }
    ' "$structures" >"$2/ring_structs.h" || return 1
    for name in $(sed -n 's/^#include [<"]\(.*\)[>"]$/\1/p' "$ring"); do
        echo '#include "shim.h"' >"$2/$name" || return 1
    done
    cp "$ring" "$2/ring_buffer.c" || return 1
    cc -O2 -I "$2" -I "$top/checks/foreign" -include "$top/checks/foreign/shim.h" -c -o "$2/ring_buffer.o" "$2/ring_buffer.c"
}

# The ring code of the DPDK source tree $1, into the directory $2: dpdk_structs.h and bufring.o.
build_dpdk() {
    ring=$1/drivers/bus/vmbus/vmbus_bufring.c private=$1/drivers/bus/vmbus/private.h
    structures=$(find "$1/drivers/bus/vmbus" -name '*vmbus_reg.h' | head -n 1)
    [ -r "$ring" ] && [ -r "$private" ] && [ -r "$structures" ] || { echo "no ring code of DPDK in $1" >&2; return 1; }
    mkdir -p "$2" || return 1
    {
        cut_out "$structures" '^struct vmbus_bufring [{]'
        cut_out "$private" '^struct vmbus_br [{]'
        cut_out "$private" '^vmbus_br_avail'
    } >"$2/dpdk_structs.h" || return 1
    sed '/^#include [<"]\(rte_\|private\)/d' "$ring" >"$2/bufring.c" || return 1
    cc -O2 -Wno-address-of-packed-member -I "$2" -include "$top/checks/foreign/shim_dpdk.h" -c -o "$2/bufring.o" "$2/bufring.c"
}

# The ring code of the QEMU source tree $1, into the directory $2: qemu_structs.h, and qemu_ring.h with its functions.
build_qemu() {
    code=$1/hw/hyperv/vmbus.c include=$1/include/hw/hyperv
    [ -r "$code" ] && [ -r "$include/vmbus.h" ] && [ -r "$include/vmbus-proto.h" ] || { echo "no ring code of QEMU in $1" >&2; return 1; }
    mkdir -p "$2" || return 1
    {
        cat "$include/vmbus-proto.h"
        cut_out "$include/vmbus.h" '^typedef struct VMBusChanReq [{]'
        cut_out "$code" '^(typedef struct (GpadlIter|VMBusRingBufCommon|VMBusSendRingBuf|VMBusRecvRingBuf)|struct (VMBusGpadl|VMBusChannel)) [{]'
        sed -n '/^#define VMBUS_PKT_TRAILER/p' "$code"
    } >"$2/qemu_structs.h" || return 1
    cut_out "$code" '^[a-zA-Z].*[ *](gpadl_iter_[a-z_]*|rb_idx_[a-z]*|ringbufs?_[a-z_]*|vmbus_pkt_hdr_set_offsets|vmbus_alloc_req|vmbus_free_req|vmbus_channel_(reserve|send|recv_[a-z]*))[(]' >"$2/qemu_ring.h"
}

# The program $1 over what was taken out of a tree into the directory $2, with more files.
build_turns() {
    program=$1 into=$2
    shift 2
    cc -O2 -Wno-address-of-packed-member -pthread -I "$into" -I "$top/checks/foreign" -I "$top/examples/c" -o "$into/$program" "$top/checks/foreign/$program.c" "$@" \
        "$top/crates/ring_call_plan_c/out/libring_call_plan_c.a"
}

# The check over the ring code of the Linux source tree $1 into the directory $2, with more words for cc.
build_rings() {
    tree=$1 into=$2
    shift 2
    build_linux "$tree" "$into" || return 1
    cc -O2 -Wall -Wextra -pthread -I "$into" -I "$top/checks/foreign" -I "$top/examples/c" "$@" -o "$into/rings" "$top/checks/foreign/rings.c" "$into/ring_buffer.o" \
        "$top/crates/ring_call_plan_c/out/libring_call_plan_c.a"
}
