/* what the kernel's csum files need of the kernel's headers */
#include <stdint.h>
#include <string.h>
typedef uint64_t u64;
typedef uint32_t u32;
typedef uint16_t u16;
typedef u32 __wsum, __be32, __u32;
typedef u16 __sum16;
typedef unsigned char __u8;
#define __force
#define likely(x) __builtin_expect(!!(x), 1)
#define unlikely(x) __builtin_expect(!!(x), 0)
static inline u32 ror32(u32 w, unsigned s) { return (w >> (s & 31)) | (w << ((-s) & 31)); }
