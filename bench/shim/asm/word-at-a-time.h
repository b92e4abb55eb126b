static inline unsigned long load_unaligned_zeropad(const void *p) { unsigned long v; memcpy(&v, p, 8); return v; }
