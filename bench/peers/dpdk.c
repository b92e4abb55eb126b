#include <stdint.h>
#include <stddef.h>
#include <string.h>
#define RTE_PTR_ADD(p, x) ((void *)((uintptr_t)(p) + (x)))
#define RTE_ALIGN_FLOOR(v, a) ((v) & ~((size_t)(a)-1))
#define unlikely(x) __builtin_expect(!!(x), 0)
#include "dpdk_cksum.h" /* rte_raw_cksum and what it calls, cut from rte_ip.h by bench/run */
uint64_t dpdk(const void *p, size_t n) { return rte_raw_cksum(p, n); }
