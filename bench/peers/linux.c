#include "arch/x86/lib/csum-partial_64.c"
uint64_t linux_csum(const void *p, int n) { return (u16)~ip_compute_csum(p, n); }
