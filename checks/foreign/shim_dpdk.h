/* What DPDK's ring code (drivers/bus/vmbus/vmbus_bufring.c) asks of its library, in a program. The script takes the ring's own structures and inline functions out of the headers beside it. */
#ifndef SHIM_DPDK_H
#define SHIM_DPDK_H
#include <assert.h>
#include <errno.h>
#include <stdbool.h>
#include <stddef.h>
#include <stdint.h>
#include <string.h>
#include <sys/uio.h>

#define __rte_packed __attribute__((packed))
#define RTE_VERIFY(x) assert(x)
#define RTE_ASSERT(x) ((void)0)
#define rte_mem_page_size() ((size_t)4096)
#define rte_compiler_barrier() __atomic_signal_fence(__ATOMIC_SEQ_CST)
#define rte_smp_mb() __atomic_thread_fence(__ATOMIC_SEQ_CST)
#define rte_smp_rmb() __atomic_thread_fence(__ATOMIC_ACQUIRE)
#define rte_smp_wmb() __atomic_thread_fence(__ATOMIC_RELEASE)
#define rte_pause() ((void)0)

static inline int rte_atomic32_cmpset(volatile uint32_t *at, uint32_t from, uint32_t to)
{
    return __atomic_compare_exchange_n(at, &from, to, false, __ATOMIC_ACQUIRE, __ATOMIC_ACQUIRE);
}

#include "dpdk_structs.h"

void vmbus_br_setup(struct vmbus_br *br, void *buf, unsigned int blen);
int vmbus_txbr_write(struct vmbus_br *tbr, const struct iovec iov[], int iovlen, bool *need_sig);
int vmbus_rxbr_read(struct vmbus_br *rbr, void *data, size_t dlen, size_t skip);
int vmbus_rxbr_peek(const struct vmbus_br *rbr, void *data, size_t dlen);
#endif
