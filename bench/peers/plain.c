#include <stdint.h>
#include <stddef.h>
#include <string.h>
/* the plain loop: two bytes at a time, high byte first */
uint64_t plain(const uint8_t *p, size_t n) {
    uint32_t s = 0;
    size_t i = 0;
    for (; i + 1 < n; i += 2) s += (uint32_t)p[i] << 8 | p[i + 1];
    if (i < n) s += (uint32_t)p[i] << 8;
    while (s >> 16) s = (s & 0xffff) + (s >> 16);
    return s;
}
/* RFC 1071, section 4.1, as printed there: words of memory order */
uint64_t rfc1071(const void *addr, size_t count) {
    uint32_t sum = 0;
    const unsigned char *a = addr;
    while (count > 1) { uint16_t v; memcpy(&v, a, 2); sum += v; a += 2; count -= 2; }
    if (count > 0) sum += *a;
    while (sum >> 16) sum = (sum & 0xffff) + (sum >> 16);
    return sum;
}
