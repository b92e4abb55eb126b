/* The verdict at the lengths at which a piece of the sum ends (docs/RULES.md S12), on bytes ff, 00 and by chance: the field that validates is worked
   out another way, a byte at a time and modulo 65,535, and the next one must not validate. */
#include "check.h"

enum { LONG = 131073 };

static uint64_t words(const uint8_t *p, size_t n) {
    uint64_t sum = 0;
    for (size_t i = 0; i < n; i++) sum += i % 2 ? p[i] : 256u * p[i];
    return sum;
}

/* The checksum of a packet whose field is 0. The words of the length are the length modulo 65,535, and with the 58 no sum is 0. */
static uint32_t by_remainder(const uint8_t *packet, size_t n) {
    uint32_t rest = (uint32_t)((words(router, 16) + words(all_routers, 16) + n + 58 + words(packet, n)) % 65535);
    return rest == 0 ? 0 : 65535 - rest;
}

static uint32_t verdict(uint8_t *packet, size_t n, uint32_t field) {
    packet[2] = (uint8_t)(field / 256);
    packet[3] = (uint8_t)field;
    return brothladder_verify(packet, n, router, all_routers).answer;
}

void lengths(void) {
    static const size_t length[] = {65534, 65535, 65536, 65537, 131071, 131072, 131073};
    static uint8_t packet[LONG];
    for (size_t k = 0; k < sizeof length / sizeof *length; k++)
        for (int fill = 0; fill < 3; fill++) {
            for (size_t i = 0; i < LONG; i++) packet[i] = fill == 0 ? 0xff : fill == 1 ? 0 : (uint8_t)below(256);
            packet[2] = packet[3] = 0;
            uint32_t field = by_remainder(packet, length[k]);
            same("the checksum at a long length", verdict(packet, length[k], field), BROTHLADDER_VALID);
            same("the next one at a long length", verdict(packet, length[k], field + 1), BROTHLADDER_INVALID);
        }
}
