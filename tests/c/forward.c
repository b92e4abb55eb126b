/* A packet that came in, passed on by the four lines of README.md as they stand there (tests/c/run takes them out of it), and sent as one's own. */
#include "check.h"
#include "plain.h"
#include <stdio.h>
#include <string.h>

static size_t drop(uint32_t refusal, uint64_t value) {
    (void)refusal, (void)value;
    return 0;
}

static size_t forward(const uint8_t *packet, size_t length, const uint8_t *source, const uint8_t *destination, uint8_t *out, size_t room, uint32_t edition) {
#include "forward.inc"
    return w.length;
}

/* H8: the reserved bits of bytes 4 to 7. */
static uint32_t reserved(const struct brothladder_head *h) {
    if (h->answer != BROTHLADDER_KNOWN) return 0;
    switch (h->type) {
    case 1: case 3: case 133: case 135: case 137: return 0xffffffff;
    case 134: return 0x003f0000;
    case 136: return 0x1fffffff;
    default: return 0;
    }
}

static unsigned long kept[256]; /* packets that were passed on with a reserved bit set, by type */

/* Sent as one's own, it has no reserved bit and else every bit that it had, and is received as before. */
static void clears(const uint8_t *packet, size_t n, const uint8_t *source, const uint8_t *destination, uint32_t edition) {
    uint8_t out[LONGEST];
    struct brothladder_head came = brothladder_decode(packet, n);
    struct brothladder_written w = brothladder_write_clearing((uint8_t)came.type, (uint8_t)came.code, came.bytes5to8, packet + 8, n - 8, source, destination, out, sizeof out, edition);
    same("sent as one's own", w.length, n);
    struct brothladder_head went = brothladder_decode(out, n);
    for (int bit = 0; bit < 32; bit++)
        same("a bit of bytes 4 to 7", went.bytes5to8 >> bit & 1, reserved(&came) >> bit & 1 ? 0 : came.bytes5to8 >> bit & 1);
    check(memcmp(out + 8, packet + 8, n - 8) == 0, "sent as one's own", "the payload as it came");
    same("sent as one's own, received", brothladder_receive(out, n, 255, source, destination, edition).answer, BROTHLADDER_RECEIVED);
}

/* Passed on in the edition in which it was received, a packet is itself with the computed checksum in its field; passed on again it stays. */
void pass_on(const uint8_t *packet, size_t n, const uint8_t *source, const uint8_t *destination, uint32_t edition) {
    uint8_t wanted[LONGEST], out[LONGEST], again[LONGEST];
    unsigned sum = plain_checksum(packet, n, source, destination);
    memcpy(wanted, packet, n);
    wanted[2] = (uint8_t)(sum >> 8);
    wanted[3] = (uint8_t)sum;
    same("passed on", forward(packet, n, source, destination, out, sizeof out, edition), n);
    check(memcmp(out, wanted, n) == 0, "passed on", "as it came, with the computed checksum");
    same("passed on, received", brothladder_receive(out, n, 255, source, destination, edition).answer, BROTHLADDER_RECEIVED);
    same("passed on again", forward(out, n, source, destination, again, sizeof again, edition), n);
    check(memcmp(again, out, n) == 0, "passed on again", "the same bytes");
    struct brothladder_head h = brothladder_decode(packet, n);
    if (h.bytes5to8 & reserved(&h)) kept[h.type]++;
    clears(packet, n, source, destination, edition);
}

/* After a run: often enough, for each type of Neighbor Discovery, that there was something to keep. */
void passed_on(void) {
    for (unsigned type = 133; type <= 137; type++) {
        char detail[60];
        snprintf(detail, sizeof detail, "of type %u %lu times", type, kept[type]);
        check(kept[type] >= 1000, "passed on with a reserved bit", detail);
    }
}

/* P13: ff ff stood for a computed 0, and 00 00 comes out. A packet whose checksum was wrong gets a right one. */
void forwards(void) {
    uint8_t b[8], out[8];
    size_t n = hex("80 00 ff ff 7f bd 00 00", b);
    same("P13, passed on", forward(b, n, none, none, out, sizeof out, BROTHLADDER_EDITION_FIRST), n);
    hex("80 00 00 00 7f bd 00 00", b);
    check(memcmp(out, b, n) == 0, "P13, passed on", "00 00 for ff ff");
    b[3] = 1;
    same("a wrong checksum", brothladder_verify(b, n, none, none).answer, BROTHLADDER_INVALID);
    same("a wrong checksum, passed on", forward(b, n, none, none, out, sizeof out, BROTHLADDER_EDITION_SECOND), n);
    same("comes out right", brothladder_verify(out, n, none, none).answer, BROTHLADDER_VALID);
}
