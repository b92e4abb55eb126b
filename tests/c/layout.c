/* Where each number of each answer stands, written down by hand: two members that were exchanged in the source and in the header
   together would show nowhere else. And where each field of a head stands, by packets in which that field alone is set. */
#include "check.h"

#define AT(name, member, place, bytes)                                                                                        \
    __extension__ _Static_assert(offsetof(struct brothladder_##name, member) == place                                         \
                                     && sizeof(((struct brothladder_##name *)0)->member) == bytes,                            \
                                 #name "." #member)
#define BEGINS(name) AT(name, answer, 0, 4); AT(name, refusal, 4, 4); AT(name, value, 8, 40)
#define ENDS(name, bytes) __extension__ _Static_assert(sizeof(struct brothladder_##name) == bytes, #name)

BEGINS(head);
AT(head, type, 48, 1);
AT(head, code, 49, 1);
AT(head, checksum, 50, 2);
AT(head, bytes5to8, 52, 4);
AT(head, field, 56, 16);
ENDS(head, 72);

BEGINS(verified);
ENDS(verified, 48);

BEGINS(stepped);
AT(stepped, kind, 48, 4);
AT(stepped, type, 52, 4);
AT(stepped, at, 56, 8);
AT(stepped, length, 64, 8);
AT(stepped, next, 72, 8);
AT(stepped, place, 80, 8);
ENDS(stepped, 88);

BEGINS(received);
AT(received, options_at, 48, 8);
AT(received, options_length, 56, 8);
ENDS(received, 64);

BEGINS(written);
AT(written, length, 48, 8);
ENDS(written, 56);

BEGINS(prefix);
AT(prefix, prefix_length, 48, 4);
AT(prefix, on_link, 52, 2);
AT(prefix, autonomous, 54, 2);
AT(prefix, valid_lifetime, 56, 4);
AT(prefix, preferred_lifetime, 60, 4);
AT(prefix, prefix, 64, 16);
AT(prefix, place, 80, 8);
ENDS(prefix, 88);

BEGINS(route);
AT(route, prefix_length, 48, 2);
AT(route, preference, 50, 2);
AT(route, lifetime, 52, 4);
AT(route, prefix, 56, 16);
AT(route, place, 72, 8);
ENDS(route, 80);

BEGINS(servers);
AT(servers, lifetime, 48, 8);
AT(servers, count, 56, 8);
AT(servers, place, 64, 8);
ENDS(servers, 72);

BEGINS(preferred);
AT(preferred, preference, 48, 8);
ENDS(preferred, 56);

BEGINS(checked);
ENDS(checked, 48);

BEGINS(planned);
AT(planned, messages, 48, 8);
ENDS(planned, 56);

BEGINS(part);
AT(part, at, 48, 8);
AT(part, length, 56, 8);
ENDS(part, 64);

BEGINS(chain);
AT(chain, kind, 48, 4);
AT(chain, levels, 52, 4);
AT(chain, quote, 56, 32);
AT(chain, next_header, 88, 8);
AT(chain, level_kind, 96, 8);
ENDS(chain, 104);

BEGINS(updated);
AT(updated, field, 48, 8);
ENDS(updated, 56);

AT(summed, answer, 0, 4);
AT(summed, sum, 4, 2);
AT(summed, odd, 6, 2);
ENDS(summed, 8);

BEGINS(indexed);
AT(indexed, length, 48, 8);
AT(indexed, entries, 56, 8);
ENDS(indexed, 64);

BEGINS(found);
AT(found, at, 48, 8);
ENDS(found, 56);

BEGINS(mtu);
AT(mtu, kind, 48, 4);
AT(mtu, mtu, 52, 4);
AT(mtu, place, 56, 8);
ENDS(mtu, 64);

BEGINS(bytes);
AT(bytes, at, 48, 8);
AT(bytes, length, 56, 8);
AT(bytes, place, 64, 8);
ENDS(bytes, 72);

BEGINS(message);
AT(message, kind, 48, 4);
AT(message, fixed_length, 52, 4);
AT(message, reachable_time, 56, 4);
AT(message, retrans_timer, 60, 4);
AT(message, target_at, 64, 8);
AT(message, destination_at, 72, 8);
AT(message, options_at, 80, 8);
AT(message, options_length, 88, 8);
ENDS(message, 96);

/* of this head the field at `index` is `value`, and the others are 0 */
static void alone(const char *bytes, size_t index, uint32_t value) {
    uint8_t b[8];
    struct brothladder_head h = brothladder_decode(b, hex(bytes, b));
    for (size_t i = 0; i < 4; i++) same(bytes, h.field[i], i == index ? value : 0);
}

/* RFC 4443, sections 3.2, 3.4 and 4; RFC 4861, sections 4.2 (M, O are the high bits of byte 5) and 4.4 (R, S, O of byte 4) */
void fields(void) {
    alone("c8 00 00 00 12 34 56 78", BROTHLADDER_FIELD_BYTES, 0x12345678);
    alone("02 00 00 00 12 34 56 78", BROTHLADDER_FIELD_MTU, 0x12345678);
    alone("04 00 00 00 12 34 56 78", BROTHLADDER_FIELD_POINTER, 0x12345678);
    alone("80 00 00 00 12 34 00 00", BROTHLADDER_FIELD_IDENTIFIER, 0x1234);
    alone("80 00 00 00 00 00 56 78", BROTHLADDER_FIELD_SEQUENCE, 0x5678);
    alone("81 00 00 00 12 34 00 00", BROTHLADDER_FIELD_IDENTIFIER, 0x1234);
    alone("81 00 00 00 00 00 56 78", BROTHLADDER_FIELD_SEQUENCE, 0x5678);
    alone("86 00 00 00 40 00 00 00", BROTHLADDER_FIELD_HOP_LIMIT, 64);
    alone("86 00 00 00 00 80 00 00", BROTHLADDER_FIELD_MANAGED, 1);
    alone("86 00 00 00 00 40 00 00", BROTHLADDER_FIELD_OTHER, 1);
    alone("86 00 00 00 00 00 07 08", BROTHLADDER_FIELD_LIFETIME, 1800);
    alone("88 00 00 00 80 00 00 00", BROTHLADDER_FIELD_ROUTER, 1);
    alone("88 00 00 00 40 00 00 00", BROTHLADDER_FIELD_SOLICITED, 1);
    alone("88 00 00 00 20 00 00 00", BROTHLADDER_FIELD_OVERRIDE, 1);
}
