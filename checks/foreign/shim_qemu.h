/* What the ring code of QEMU's VMBus (hw/hyperv/vmbus.c, a host's end) asks of the rest of QEMU, in a program: its guest's memory is the check's, where a page frame number is a page's
   address. The script takes the code and its structures out of the tree. */
#ifndef SHIM_QEMU_H
#define SHIM_QEMU_H
#include <assert.h>
#include <errno.h>
#include <inttypes.h>
#include <stdbool.h>
#include <stddef.h>
#include <stdint.h>
#include <stdio.h>
#include <stdlib.h>
#include <string.h>
#include <sys/types.h>

typedef uint64_t dma_addr_t, hwaddr;
typedef int DMADirection, AddressSpace, EventNotifier, HvSintRoute;
enum { DMA_DIRECTION_TO_DEVICE, DMA_DIRECTION_FROM_DEVICE };
typedef struct { void *dev; } QEMUSGList;
typedef struct VMBus VMBus;
typedef struct VMBusGpadl VMBusGpadl;
typedef struct VMBusChannel VMBusChannel;
typedef struct { AddressSpace *dma_as; } VMBusDevice;
typedef void (*VMBusChannelNotifyCb)(VMBusChannel *chan);

#define QTAILQ_ENTRY(type) struct type *
#define TARGET_PAGE_SIZE 4096u
#define TARGET_PAGE_BITS 12
#define TARGET_PAGE_MASK (~(uintptr_t)4095)
#define MEMTXATTRS_UNSPECIFIED 0
#define MIN(a, b) ((a) < (b) ? (a) : (b))
#define DIV_ROUND_UP(n, d) (((n) + (d) - 1) / (d))
#define QEMU_ALIGN_UP(n, m) (((n) + (m) - 1) / (m) * (m))
#define likely(x) (x)
#define smp_mb() __atomic_thread_fence(__ATOMIC_SEQ_CST)
#define smp_rmb() __atomic_thread_fence(__ATOMIC_ACQUIRE)
#define smp_wmb() __atomic_thread_fence(__ATOMIC_RELEASE)
#define QEMU_PACKED __attribute__((packed))
#define g_malloc0(n) calloc(1, n)
#define g_free(p) free(p)
#define error_report(...) (fprintf(stderr, __VA_ARGS__), fputc('\n', stderr), exit(1))

/* Pages don't move, so a map is the address itself. */
#define dma_memory_map(as, at, len, dir, attributes) ((void)(len), (void *)(uintptr_t)(at))
#define dma_memory_unmap(as, at, len, dir, used) ((void)(used))

/* A packet that names pages isn't sent here. */
#define sgl_from_gpa_ranges(sgl, dev, ring, len) ((void)(len), -EIO)
#define qemu_sglist_destroy(sgl) ((void)0)
#define vmbus_channel_is_open(chan) true

/* What the check gives: the signal to the guest, and the host's own. */
int vmbus_channel_notify_guest(VMBusChannel *chan);
void vmbus_channel_notify_host(VMBusChannel *chan);
void vmbus_free_req(void *req);

#include "qemu_structs.h"
#endif
