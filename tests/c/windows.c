/* What the checksum catches and what it does not (docs/RULES.md, area S), on the packets of real captures: changes within 15 bits and within 16 at every
   place, and changes that keep the sum. */
#include "check.h"
#include <stdio.h>
#include <string.h>

enum { HEAD = 37, LONGEST_PACKET = 200, MOST = 64, CHANGES = 100 };

/* A packet of a capture, and room to change it in. */
static struct real {
    uint8_t source[16], destination[16], packet[LONGEST_PACKET];
    size_t n;
} reals[MOST];
static size_t count;

/* The packets that crates/checksum_vectors is run on, one of each type and length, up to a length. */
static void read_capture(void) {
    static uint8_t bytes[65536];
    FILE *f = fopen("crates/checksum_vectors/stdin", "rb");
    check(f != NULL, "the capture of crates/checksum_vectors", "");
    if (f == NULL) return;
    size_t length = fread(bytes, 1, sizeof bytes, f);
    fclose(f);
    for (size_t at = 0, n; at + HEAD <= length; at += HEAD + n) {
        n = 256u * bytes[at + 35] + bytes[at + 36];
        if (n > LONGEST_PACKET) continue;
        size_t k = 0;
        while (k < count && (reals[k].n != n || reals[k].packet[0] != bytes[at + HEAD])) k++;
        if (k < count) continue;
        memcpy(reals[k].source, bytes + at + 3, 16);
        memcpy(reals[k].destination, bytes + at + 19, 16);
        memcpy(reals[k].packet, bytes + at + HEAD, reals[k].n = n);
        count++;
    }
    same("packets of the capture, one of each type and length", count, 44);
}

static uint32_t verdict(const struct real *r) { return brothladder_verify(r->packet, r->n, r->source, r->destination).answer; }

static uint32_t word(const struct real *r, size_t at) { return 256u * r->packet[at] + r->packet[at + 1]; }

static void put_word(struct real *r, size_t at, uint32_t number) {
    r->packet[at] = (uint8_t)(number / 256);
    r->packet[at + 1] = (uint8_t)number;
}

/* Turns over those of the bits from `at` on that are 1 in a number of `width` bits, the first of them its highest. Behind the last byte there are none. */
static void turn(struct real *r, size_t at, unsigned width, uint32_t bits) {
    for (unsigned i = 0; i < width; i++)
        if (bits >> (width - 1 - i) & 1 && (at + i) / 8 < r->n) r->packet[(at + i) / 8] ^= (uint8_t)(128 >> (at + i) % 8);
}

static uint32_t bits_at(const struct real *r, size_t at, unsigned width) {
    uint32_t number = 0;
    for (unsigned i = 0; i < width; i++) number = 2 * number + (r->packet[(at + i) / 8] >> (7 - (at + i) % 8) & 1);
    return number;
}

/* S15: how many of these changes within 15 bits validate, those by chance or all of them. The window may reach beyond the last byte. */
static unsigned slipped(struct real *r, size_t at, int all) {
    unsigned width = 8 * r->n - at < 15 ? (unsigned)(8 * r->n - at) : 15, valid = 0;
    uint32_t last = ((uint32_t)1 << width) - 1;
    for (uint32_t k = 1; k <= (all ? last : CHANGES); k++) {
        uint32_t bits = all ? k : 1 + below(last);
        turn(r, at, width, bits);
        valid += verdict(r) != BROTHLADDER_INVALID;
        turn(r, at, width, bits);
    }
    return valid;
}

/* Puts a word at a place that makes the packet validate: all is added up a byte at a time, modulo 65,535. */
static void repair(struct real *r, size_t at) {
    put_word(r, at, 0);
    uint64_t sum = r->n + 58;
    for (size_t i = 0; i < 16; i++) sum += (i % 2 ? 1u : 256u) * ((uint64_t)r->source[i] + r->destination[i]);
    for (size_t i = 0; i < r->n; i++) sum += (i % 2 ? 1u : 256u) * r->packet[i];
    put_word(r, at, (uint32_t)(65535 - sum % 65535) % 65535);
}

/* S17: 16 bits of a packet that validates: just where they are all 0 or all 1, and all are turned over, it validates again. */
static unsigned wrong_of_sixteen(struct real *r, size_t at) {
    unsigned wrong = 0;
    uint32_t before = bits_at(r, at, 16);
    for (int k = 0; k <= CHANGES; k++) {
        uint32_t bits = k == 0 ? 65535 : 1 + below(65535);
        turn(r, at, 16, bits);
        wrong += verdict(r) != (bits == 65535 && before % 65535 == 0 ? BROTHLADDER_VALID : BROTHLADDER_INVALID);
        turn(r, at, 16, bits);
    }
    return wrong;
}

static void sixteen(const struct real *real) {
    for (size_t at = 0; at + 16 <= 8 * real->n; at++) {
        struct real r = *real;
        same("16 bits as they are", wrong_of_sixteen(&r, at), 0);
        /* the field is out of the window, or bytes 6 and 7 are */
        for (uint32_t ones = 0; ones < 2; ones++) {
            turn(&r, at, 16, bits_at(&r, at, 16) ^ 65535 * ones);
            repair(&r, at + 16 <= 16 || at >= 32 ? 2 : 6);
            same("a packet with 16 zeros or ones", verdict(&r), BROTHLADDER_VALID);
            same("16 zeros or ones", wrong_of_sixteen(&r, at), 0);
        }
    }
}

static void exchange(struct real *r, size_t i, size_t j) {
    uint8_t b = r->packet[i];
    r->packet[i] = r->packet[j];
    r->packet[j] = b;
}

/* How many of the changes that keep the sum made another packet. */
static unsigned long changed;

static void unseen(const char *what, const struct real *r, const struct real *before) {
    same(what, verdict(r), BROTHLADDER_VALID);
    changed += memcmp(r->packet, before->packet, r->n) != 0;
}

/* S20: two words exchanged, an even number of bytes apart; two bytes an odd number apart are seen unless they are alike. */
static void exchanges(const struct real *real) {
    struct real r = *real;
    uint32_t n = (uint32_t)r.n;
    size_t i = below(n - 1), j = i % 2 + 2 * below((n - i % 2) / 2);
    exchange(&r, i, j);
    exchange(&r, i + 1, j + 1);
    unseen("two words exchanged", &r, real);

    r = *real;
    i = below(n);
    j = (i + 1) % 2 + 2 * below((n - (i + 1) % 2 + 1) / 2);
    exchange(&r, i, j);
    same("two bytes exchanged at an odd distance", verdict(&r), real->packet[i] == real->packet[j] ? BROTHLADDER_VALID : BROTHLADDER_INVALID);
}

/* S21: a word that gains what another loses. */
static void carries(const struct real *real) {
    struct real r = *real;
    uint32_t words = (uint32_t)r.n / 2;
    size_t i = 2 * below(words), j = (i + 2 + 2 * below(words - 1)) % (2 * words);
    uint32_t room = 65535 - word(&r, i), most = room < word(&r, j) ? room : word(&r, j), by = below(most + 1);
    put_word(&r, i, word(&r, i) + by);
    put_word(&r, j, word(&r, j) - by);
    unseen("a word that gains what another loses", &r, real);
}

/* S22: behind the head some bytes, and behind these zero words, which then stand before them. */
static void moves(const struct real *real) {
    if (real->n < 12) return;
    struct real before = *real;
    size_t zeros = 2 + 2 * below((uint32_t)(real->n - 8) / 2 - 1), bytes = below((uint32_t)(real->n - 8 - zeros) + 1);
    memset(before.packet + 8 + bytes, 0, zeros);
    repair(&before, 2);
    same("a packet with zero words", verdict(&before), BROTHLADDER_VALID);
    struct real r = before;
    memset(r.packet + 8, 0, zeros);
    memcpy(r.packet + 8 + zeros, before.packet + 8, bytes);
    unseen("zero words moved", &r, &before);
}

/* The cases of crates/checksum_catches/specs/Table.antt: from which byte on the packet is another, and the bytes there. */
static void table(void) {
    static const char advertisement[] = "88 00 56 6b 20 00 00 00 fe 80 00 00 00 00 00 00 00 00 00 ff fe 00 01 11 02 01 02 00 00 00 01 11",
                      request[] = "80 00 06 44 17 8a 00 01 00 01 02 03 04";
    static const struct {
        const char *packet;
        size_t from;
        const char *bytes;
        uint32_t answer;
    } cases[] = {
        {advertisement, 0, "88", BROTHLADDER_VALID},
        {advertisement, 0, "89", BROTHLADDER_INVALID},
        {advertisement, 2, "29 94", BROTHLADDER_INVALID},
        {advertisement, 1, "7f a9", BROTHLADDER_INVALID},
        {advertisement, 3, "14 df", BROTHLADDER_INVALID},
        {advertisement, 19, "80 01", BROTHLADDER_INVALID},
        {advertisement, 30, "7e ee", BROTHLADDER_INVALID},
        {request, 12, "04", BROTHLADDER_VALID},
        {request, 11, "7c fb", BROTHLADDER_INVALID},
        {request, 12, "05", BROTHLADDER_INVALID},
        {advertisement, 6, "ff ff", BROTHLADDER_VALID},
        {advertisement, 6, "ff fe", BROTHLADDER_INVALID},
        {advertisement, 12, "07 ff f8", BROTHLADDER_VALID},
        {advertisement, 8, "02 01 00 00 00 00 00 00 00 00 00 ff fe 00 01 11 fe 80", BROTHLADDER_VALID},
        {advertisement, 19, "11 02 00 01 ff fe", BROTHLADDER_VALID},
        {advertisement, 23, "12 02 01 02 00 00 00 01 10", BROTHLADDER_VALID},
        {advertisement, 8, "00 00 00 00 00 00 00 00 fe 80", BROTHLADDER_VALID},
    };
    for (size_t k = 0; k < sizeof cases / sizeof *cases; k++) {
        int echo = cases[k].packet == request;
        struct real r;
        hex(echo ? "20 01 0d b8 00 0f 00 00 00 00 00 00 00 00 00 11" : "fe 80 00 00 00 00 00 00 00 00 00 ff fe 00 01 11", r.source);
        hex(echo ? "20 01 0d b8 00 0f 00 00 00 00 00 00 00 00 00 44" : "ff 02 00 00 00 00 00 00 00 00 00 00 00 00 00 01", r.destination);
        r.n = hex(cases[k].packet, r.packet);
        hex(cases[k].bytes, r.packet + cases[k].from);
        same(cases[k].bytes, verdict(&r), cases[k].answer);
    }
}

void windows(void) {
    table();
    read_capture();
    for (size_t k = 0; k < count; k++) {
        struct real *r = &reals[k];
        same("a packet of the capture", verdict(r), BROTHLADDER_VALID);
        for (size_t at = 0; at < 8 * r->n; at++) same("changes within 15 bits that validate", slipped(r, at, r->n == 8), 0);
        sixteen(r);
        for (int i = 0; i < CHANGES; i++) exchanges(r), carries(r), moves(r);
    }
    check(changed > 2 * CHANGES * count, "changes that keep the sum", "too few");
}
