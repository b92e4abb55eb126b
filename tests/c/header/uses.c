/* Every macro and every function that stands in the header, and a call of each kind, in words that C89 and C++20 and all between know. It is compiled and
   linked, never run: tests/c/words.c and the others run. */
#ifdef TYPES_FIRST
#include "types.h"
#endif
#include "brothladder.h"
#include "brothladder.h" /* a second time: the guard */

#if BROTHLADDER_VERSION < 6
#error "the version is a number for #if"
#endif

const char *uses_refusal(struct brothladder_answer a);
uint32_t uses_words(uint32_t word);
size_t uses_calls(const uint8_t *packet, size_t length, const uint8_t *source, const uint8_t *destination, uint8_t *out, size_t room);

const char *uses_refusal(struct brothladder_answer a) {
    if (a.refusal == BROTHLADDER_REFUSAL_NOT_RECEIVED) return brothladder_reason_text((uint32_t)a.value[0]);
    return brothladder_refusal_text(a.refusal);
}

uint32_t uses_words(uint32_t word) {
    return brothladder_too_big_word(brothladder_too_big_mtu(word)) ^ brothladder_problem_word(brothladder_problem_pointer(word)) ^
           brothladder_echo_word(brothladder_echo_identifier(word), brothladder_echo_sequence(word)) ^
           brothladder_ra_word(brothladder_ra_hop_limit(word), brothladder_ra_flags(word), brothladder_ra_lifetime(word)) ^
           brothladder_na_word(brothladder_na_flags(word)) ^
           brothladder_ra_word(64, BROTHLADDER_RA_MANAGED | BROTHLADDER_RA_OTHER | BROTHLADDER_RA_PREFERENCE(BROTHLADDER_PREFERENCE_LOW), 1800) ^
           brothladder_na_word(BROTHLADDER_NA_ROUTER | BROTHLADDER_NA_SOLICITED | BROTHLADDER_NA_OVERRIDE);
}

size_t uses_calls(const uint8_t *packet, size_t length, const uint8_t *source, const uint8_t *destination, uint8_t *out, size_t room) {
    const uint32_t edition = BROTHLADDER_EDITION_SECOND;
    struct brothladder_head h = brothladder_decode(packet, length);
    struct brothladder_received r = brothladder_receive(packet, length, 255, source, destination, edition);
    struct brothladder_stepped s = brothladder_step(packet, length, 0, 0, edition);
    struct brothladder_summed sum = brothladder_sum(packet, length);
    struct brothladder_written w;
    if (uses_refusal(BROTHLADDER_ANSWER_OF(h))[0] == 0 || uses_refusal(BROTHLADDER_ANSWER_OF(r))[0] == 0 || uses_refusal(BROTHLADDER_ANSWER_OF(s))[0] == 0) return 0;
    if (BROTHLADDER_VERSION_CALL() != BROTHLADDER_VERSION || sum.answer != BROTHLADDER_SUM) return 0;
    w = brothladder_write(h.type, h.code, uses_words(h.bytes5to8), packet + 8, length - 8, source, destination, out,
                          room, edition);
    return w.length;
}
