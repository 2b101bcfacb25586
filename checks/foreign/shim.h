/* What Linux's ring code (drivers/hv/ring_buffer.c) asks of a kernel, in a program. The script makes each header that it includes say no more than this, and takes the ring's own structures
   and inline functions from include/linux/hyperv.h. */
#ifndef SHIM_H
#define SHIM_H
#include <errno.h>
#include <stdbool.h>
#include <stddef.h>
#include <stdint.h>
#include <stdlib.h>
#include <string.h>

typedef uint8_t u8;
typedef uint16_t u16;
typedef uint32_t u32;
typedef uint64_t u64;
typedef int spinlock_t;

#define PAGE_SIZE 4096
#define PAGE_SHIFT 12
#define PFN_DOWN(x) ((x) >> PAGE_SHIFT)
#define __packed __attribute__((packed))
#define U64_MAX UINT64_MAX
#define unlikely(x) (x)
#define likely(x) (x)
#define min(a, b) ((a) < (b) ? (a) : (b))
#define BUILD_BUG_ON(x) _Static_assert(!(x), #x)
#define EXPORT_SYMBOL_GPL(x) _Static_assert(1, "")
#define READ_ONCE(x) (*(const volatile __typeof__(x) *)&(x))
#define WRITE_ONCE(x, v) (*(volatile __typeof__(x) *)&(x) = (v))
#define virt_mb() __atomic_thread_fence(__ATOMIC_SEQ_CST)
#define virt_rmb() __atomic_thread_fence(__ATOMIC_ACQUIRE)
#define virt_wmb() __atomic_thread_fence(__ATOMIC_RELEASE)
#define virt_load_acquire(p) __atomic_load_n(p, __ATOMIC_ACQUIRE)
#define hv_debug_delay_test(channel, type) ((void)0)

/* One thread has each end. A lock costs what one costs. */
#define spin_lock_init(l) (*(l) = 0)
#define spin_is_locked(l) (*(l) != 0)
#define spin_lock_irqsave(l, flags) do { (flags) = 0; while (__atomic_exchange_n(l, 1, __ATOMIC_ACQUIRE)) { } } while (0)
#define spin_unlock_irqrestore(l, flags) do { (void)(flags); __atomic_store_n(l, 0, __ATOMIC_RELEASE); } while (0)

struct mutex { int unused; };
#define mutex_init(m) ((void)(m))
#define mutex_lock(m) ((void)(m))
#define mutex_unlock(m) ((void)(m))

/* The rings are mapped by the check itself, so nothing of this is called. */
struct page { int unused; };
struct reciprocal_value { u32 m; u8 sh1, sh2; };
static inline struct reciprocal_value reciprocal_value(u32 d) { (void)d; abort(); }
#define GFP_KERNEL 0
#define VM_MAP 0
#define PAGE_KERNEL 0
#define kcalloc(n, size, flags) calloc(n, size)
#define kzalloc(size, flags) calloc(1, size)
#define kfree(p) free(p)
static inline void *vmap(struct page **pages, u32 count, int flags, int prot) { (void)pages; (void)count; (void)flags; (void)prot; abort(); }
static inline void *vmap_pfn(unsigned long *pfns, u32 count, int prot) { (void)pfns; (void)count; (void)prot; abort(); }
static inline void vunmap(const void *p) { (void)p; abort(); }
static inline u64 page_to_pfn(const struct page *p) { (void)p; abort(); }
static const struct { u64 shared_gpa_boundary; } ms_hyperv = {0};
#define hv_isolation_type_snp() false
#define hv_isolation_type_tdx() false

struct kvec { void *iov_base; size_t iov_len; };
#define VMBUS_DATA_PACKET_FLAG_COMPLETION_REQUESTED 1
#define VMBUS_NO_RQSTOR U64_MAX
#define VMBUS_RQST_ERROR (U64_MAX - 1)
struct hv_ring_buffer_debug_info {
    u32 current_interrupt_mask, current_read_index, current_write_index, bytes_avail_toread, bytes_avail_towrite;
};

#include "ring_structs.h"

struct vmbus_channel {
    struct hv_ring_buffer_info inbound, outbound;
    bool rescind, out_full_flag;
    u64 out_full_total, out_full_first, intr_out_empty, intr_in_full;
    u64 (*next_request_id_callback)(struct vmbus_channel *, u64);
    u64 (*request_addr_callback)(struct vmbus_channel *, u64);
    void *raised;
};

/* The one thing that the ring code asks of the rest: raise the peer. The check gives it. */
void vmbus_setevent(struct vmbus_channel *channel);

int hv_ringbuffer_write(struct vmbus_channel *channel, const struct kvec *kv_list, u32 kv_count, u64 requestid, u64 *trans_id);
struct vmpacket_descriptor *hv_pkt_iter_first(struct vmbus_channel *channel);
struct vmpacket_descriptor *__hv_pkt_iter_next(struct vmbus_channel *channel, const struct vmpacket_descriptor *desc);
void hv_pkt_iter_close(struct vmbus_channel *channel);
#endif
