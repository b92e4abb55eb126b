/* SPDX-License-Identifier: Apache-2.0 */
/* brothladder.h: reads, checks and writes ICMPv6 and Neighbor Discovery packets. docs/RULES.md has
 * every rule, area X these calls. docs/HEADER.md compares this header with others.
 *
 * Each call takes numbers, buffers of bytes or of numbers, and sums, and returns one struct by
 * value (only brothladder_version_6 returns a number). You may pass any bytes of any length. A call
 * allocates nothing, keeps nothing from one call to the next, and uses no C library.
 *
 * The first member of each struct, `answer`, says what was found. `answer` is never 0: compare it
 * with the constants below, do not test it as a boolean; a zeroed struct is not a valid answer.
 * Only BROTHLADDER_END says that a list of options was read to its end. After BROTHLADDER_REFUSED
 * or BROTHLADDER_STOPPED the options that you got are only a part of the list.
 *
 * To use a message that came in, do the receive check first, then walk its options until END, both
 * in the same edition:
 *
 *     const uint32_t edition = BROTHLADDER_EDITION_SECOND;    // once, for receive and step alike
 *     struct brothladder_received r =
 *         brothladder_receive(packet, length, hop_limit, source, destination, edition);
 *     if (r.answer != BROTHLADDER_RECEIVED)
 *         return drop(brothladder_refusal_text(r.refusal), r.value[0]);
 *
 *     const uint8_t *options = packet + r.options_at;
 *     size_t at = 0;
 *     for (;;) {
 *         struct brothladder_stepped s =
 *             brothladder_step(options, r.options_length, r.options_at, at, edition);
 *         switch (s.answer) {
 *         case BROTHLADDER_OPTION:
 *             note(s.kind, options + s.at, s.length);     // note it: act only at END
 *             at = s.next;
 *             continue;
 *         case BROTHLADDER_END:
 *             return act();
 *         default:                            // REFUSED or STOPPED: this is not the whole list
 *             return forget();
 *         }
 *     }
 *
 * What a packet is: `packet` points to the ICMPv6 type byte. It does not point to the IPv6 header;
 * step over that and over the extension headers first. `length` counts the bytes from there to the
 * end of the IPv6 payload. Padding that the link put behind it is no part of the packet: take the
 * length from the IPv6 header, not from the frame. `source`, `destination` and `hop_limit` are
 * those of the IPv6 header as it came in. Where a routing header has segments left, `destination`
 * is the final one, the last address of the route, and not that of the IPv6 header (RFC 8200,
 * section 8.1). No call sees a fragment header: a Neighbor Discovery message that came with one,
 * even in a single piece, is yours to drop (RFC 6980, section 5).
 *
 * Places: `at` and `next` of a step count from the first of the option bytes that you pass. A
 * `place` counts from the first byte of the packet, as a trace does. Only you know where in the
 * packet your bytes begin: pass it as `offset`, or 0 to count from your own first byte.
 *
 * Editions: every call that walks options takes, as its last argument, the edition of the rules
 * that they are walked by. The first knows the options of RFC 4861 and hands out all others as
 * unknown, of any length. The second also knows routes (type 24, RFC 4191) and DNS servers (type
 * 25, RFC 8106), and refuses malformed ones as it does a malformed prefix. Whatever the second
 * reads to END, the first does too, option by option at the same places; not the other way round.
 * So name the edition once, and pass it to all calls over a packet: one that was received in the
 * first edition may be refused in the midst of a walk in the second; one that was received in the
 * second and is walked in the first has its routes and servers handed out as unknown; and the END
 * of steps made now in one edition and now in the other says nothing about the second. A call
 * without this argument does not walk.
 *
 * What you must ensure: each pointer can be read (`out`, and `plan` of brothladder_plan: written;
 * the packet of brothladder_change_word and of brothladder_write_in_place.., and `list` and `index`
 * of brothladder_index_build and .._append: both) for the length that goes with it, which counts
 * numbers where it points to uint32_t, and an address or a prefix for its 16 bytes, a link-layer
 * address for its 6. A pointer may be NULL only if its length is 0. Nobody else writes to a buffer
 * during the call. A buffer that is written does not overlap another buffer of the same call: where
 * the payload stands behind the head's place already, call brothladder_write_in_place.
 *
 * What a call changes: nothing, except the packet's own bytes in `out`, or its first eight in
 * place, when a brothladder_write.. returns BROTHLADDER_WRITTEN, the option's own bytes in `out`
 * when a brothladder_put.. does, a word and the checksum field of `packet` when
 * brothladder_change_word returns BROTHLADDER_UPDATED, the new entries in `index` and the new bytes
 * in `list` when brothladder_index_build or .._append returns BROTHLADDER_INDEXED, and the counts
 * in `plan` when brothladder_plan returns BROTHLADDER_PLANNED. A call that refuses changes no
 * buffer.
 *
 * What a kernel asks of the code (tests/c/facts reads it off the archive, tests/c/placed.c and
 * tests/c/linear.c off its runs):
 * - It is reentrant: there is no writable data, no thread-local data and no lock. Any number of
 *   threads and interrupts may be in it at once.
 * - Bytes may stand at any address. Numbers (`index`, `plan`) stand where a uint32_t may stand.
 * - Its time is linear in the lengths that you pass. It waits for nothing.
 * - Its stack is less than 512 bytes, of brothladder_chain less than 2,048: the address to return
 *   to is counted, your arguments are not.
 * - It uses the registers xmm0 to xmm15, and no wider or older ones. These use none: sum_join,
 *   sum_pseudo.
 * - These use the red zone of the System V ABI, the 128 bytes below the stack pointer:
 *   read_route.
 *   Where your kernel has no xmm registers or no red zone in use, link libbrothladder_kernel.a in
 *   place of libbrothladder.a: the same calls, compiled once more without both and without
 *   indirect jumps (docs/C.md). Or make the calls where both may be used: on Linux between
 *   kernel_fpu_begin and kernel_fpu_end, and with interrupts on a stack of their own.
 * - It calls nothing through a pointer. Indirect jumps, through tables in .rodata, are in chain,
 *   check_plan, decode, index_append, index_build, plan, plan_message, read_message, receive,
 *   write, write_clearing, write_in_place, write_in_place_clearing, write_keeping.
 *   There are no endbr64, no notrack and no retpolines: where a kernel enforces
 *   indirect branch tracking these jumps fault, and where it bars indirect jumps outside
 *   retpolines these calls are not for it. With tracking enforced, none is to be called through a
 *   pointer.
 * - There is no .eh_frame: nobody can unwind through it, and none of it throws.
 * - Its relocations are R_X86_64_PC32 and R_X86_64_PLT32 alone: code and constants must come to
 *   stand within 2 GiB of each other, at any address, that of -mcmodel=kernel too. It asks for no
 *   symbol.
 *
 * What a call costs: bytes of stack, and instructions, as an older compiler made them
 * (docs/BENCHMARKS.md). bench/calls measures both and that page says of which packets;
 * tools/costs writes this table. Of step it has a walk to END, the loop counted: 4 steps in a
 * packet of 64 bytes and 18 in one of 464.
 *
 *     call                    stack  instructions
 *     decode                     56  84
 *     verify                      8  151 of 64 bytes, 376 of 464, 835 of 1,240
 *     verify_by_fours             8  76 of 64 bytes, 169 of 464, 331 of 1,240
 *     receive                   128  344 of 64 bytes, 863 of 464
 *     step                       16  290 of 64 bytes, 1,280 of 464
 *     read_message               40  78 of an advertisement, 71 of a redirect
 *     preference                  8  36
 *     read_prefix                 8  43
 *     read_mtu                    8  30
 *     read_link_layer_address    32  35
 *     read_redirected_header      8  35
 *     read_route                132  161
 *     read_dns                    8  44
 *     chain                   1,808  269 at one level, 948 at eight, 370 of a redirect
 *     write                      73  428 of 64 bytes, 976 of 464, 1,964 of 1,240
 *     write_clearing             72  421 of 64 bytes, 969 of 464, 1,957 of 1,240
 *     write_keeping              73  428 of 64 bytes, 976 of 464, 1,964 of 1,240
 *     write_in_place            104  391 of 64 bytes, 868 of 464, 1,673 of 1,240
 *     write_in_place_clearing    96  386 of 64 bytes, 863 of 464, 1,668 of 1,240
 *     put_prefix                 40  61
 *     put_mtu                    16  29
 *     put_link_layer_address      8  26
 *     updated_checksum            8  46
 *     change_word                 8  55
 *     sum                         8  767 of 1,280 bytes
 *     sum_pseudo                  8  71
 *     sum_push                   16  786 of 1,280 bytes
 *     sum_join                    8  27
 *     index_build               192  574 for 3, 2,640 for 17, 9,531 for 64
 *     index_append              240  633 to 3, 1,771 to 17
 *     index_first                 8  36 to the 3rd, 402 to the 64th
 *     index_next                  8  49 to the 3rd, 720 to the 64th
 *     plan                      136  2,093
 *     check_plan                280  1,545
 *     plan_message              280  1,548
 *
 * Which members each answer sets, beside `answer`. All others are 0, so two answers may be compared
 * byte by byte: no struct has padding. A member that is set may be 0 too. tests/c/members.c holds
 * this table to what the calls answer.
 *
 *     call                answer          members
 *     any                 REFUSED         refusal value
 *     decode              KNOWN           type code checksum bytes5to8 field
 *     decode              UNKNOWN         type code checksum bytes5to8 field
 *     verify              VALID
 *     verify              INVALID
 *     verify_by_fours     VALID
 *     verify_by_fours     INVALID
 *     receive             RECEIVED        options_at options_length
 *     step                OPTION          kind type at length next place
 *     step                END             next
 *     step                REFUSED         refusal value next
 *     step                STOPPED         next
 *     read_prefix         PREFIX          prefix_length on_link autonomous valid_lifetime
 *                                         preferred_lifetime prefix place
 *     read_route          ROUTE           prefix_length preference lifetime prefix place
 *     read_route          IGNORED         place
 *     read_dns            SERVERS         lifetime count place
 *     preference          PREFERENCE      preference
 *     read_mtu            MTU             kind mtu place
 *     read_link_layer_address BYTES       at length place
 *     read_redirected_header  BYTES       at length place
 *     read_message        MESSAGE         kind fixed_length reachable_time retrans_timer target_at
 *                                         destination_at options_at options_length
 *     write               WRITTEN         length
 *     write_clearing      WRITTEN         length
 *     write_keeping       WRITTEN         length
 *     write_in_place      WRITTEN         length
 *     write_in_place_clearing WRITTEN     length
 *     put_prefix          WRITTEN         length
 *     put_mtu             WRITTEN         length
 *     put_link_layer_address  WRITTEN     length
 *     chain               CHAIN           kind levels quote next_header level_kind
 *     updated_checksum    UPDATED         field
 *     change_word         UPDATED         field
 *     sum                 SUM             sum odd
 *     sum_pseudo          SUM             sum
 *     sum_push            SUM             sum odd
 *     sum_join            SUM             sum odd
 *     index_build         INDEXED         length entries
 *     index_append        INDEXED         length entries
 *     index_first         FOUND           at
 *     index_first         NONE
 *     index_next          FOUND           at
 *     index_next          NONE
 *     check_plan          ACCEPTED
 *     check_plan          NOT_ACCEPTED
 *     plan                PLANNED         messages
 *     plan_message        ACCEPTED        at length
 *     plan_message        NOT_ACCEPTED
 *
 * `next` of a step: behind an OPTION it is at + length, the first byte behind it. At END it is the
 * `at` that you passed, which is the length. After REFUSED it is length + 1, beyond the bytes. At
 * STOPPED it is the `at` that you passed. So a walk that is over stays over: a step at the `next`
 * of END is END, and a step at the `next` of REFUSED or STOPPED is STOPPED. A step knows nothing of
 * the steps before it: STOPPED says that the place you passed is beyond the bytes, as the `next` of
 * a refusal is.
 *
 * Versions: this is version 6. A decoded head has `type`, `code` and `checksum` in the width that
 * they have on the wire, which brothladder_write takes. Version 5 gave the calls that walk the
 * edition: to go on as before, pass BROTHLADDER_EDITION_FIRST. Version 4 gave brothladder_write
 * another meaning: it had cleared the reserved bits of `bytes5to8`, and now it writes them; whoever
 * relied on it to clear them calls brothladder_write_clearing instead. Version 3 brought
 * `bytes5to8` and wider members of the head, version 2 the offset and the place; version 1 is the
 * header without BROTHLADDER_VERSION. Under GCC and clang each object that includes this header
 * refers to the call brothladder_version_6, so an object that was compiled with the header of
 * another version does not link with this library, nor one of this version with another library.
 * Objects of version 1 have no such reference: they would link, and go wrong. So compile all of
 * them anew once. Each later change of a struct, an argument or a meaning takes the next number. A
 * call that is added takes none: whoever makes it does not link with a library that lacks it.
 *
 * To define before this header is included, where you need it:
 * - BROTHLADDER_TYPES_H, the name of a header of yours, as "types.h" or <linux/types.h>: it is
 *   included in place of <stddef.h> and <stdint.h>, and has to define uint8_t, uint16_t, uint32_t,
 *   uint64_t and size_t.
 * - BROTHLADDER_TYPES: these five types are defined already. Nothing is included.
 * - BROTHLADDER_HEADER_ONLY: no call will be linked. The header is then accepted on every machine,
 *   for its constants, texts and words, or for a look at the syntax.
 */
#ifndef BROTHLADDER_H
#define BROTHLADDER_H

#if !defined(BROTHLADDER_HEADER_ONLY)
#if !defined(__x86_64__) || defined(__ILP32__) || defined(_WIN32) || defined(__CYGWIN__)
#error "brothladder.h: the library is for x86-64 and its System V ABI, with 64-bit pointers, alone"
#endif
#endif

#if defined(BROTHLADDER_TYPES_H)
#include BROTHLADDER_TYPES_H
#elif !defined(BROTHLADDER_TYPES)
#include <stddef.h>
#include <stdint.h>
#endif

#ifdef __cplusplus
extern "C" {
#endif

/* Compilers that can do so warn if a returned struct is ignored or an address is NULL. */
#if defined(__GNUC__)
#define BROTHLADDER_ANSWER __attribute__((warn_unused_result))
#define BROTHLADDER_ADDRESSES(a, b) __attribute__((nonnull(a, b)))
#define BROTHLADDER_ADDRESS(a) __attribute__((nonnull(a)))
#else
#define BROTHLADDER_ANSWER
#define BROTHLADDER_ADDRESSES(a, b)
#define BROTHLADDER_ADDRESS(a)
#endif

/* A function that stands in this header: nothing of it is in an object that does not use it. */
#if defined(__cplusplus) || (defined(__STDC_VERSION__) && __STDC_VERSION__ >= 199901L)
#define BROTHLADDER_INLINE static inline
#elif defined(__GNUC__)
#define BROTHLADDER_INLINE static __inline__
#else
#define BROTHLADDER_INLINE static
#endif

/* The version of this header, for #if and for a look at run time: BROTHLADDER_VERSION_CALL() is the
 * version of the library that is linked, and the two never differ where the link was made. See the
 * top of the file, and brothladder_version_6 at its end. */
#define BROTHLADDER_VERSION 6u
#define BROTHLADDER_VERSION_CALL brothladder_version_6

/* The editions of the option walk. 2 is the second, and every other number the first. */
#define BROTHLADDER_EDITION_FIRST 1u
#define BROTHLADDER_EDITION_SECOND 2u

/* Values of `answer`. They all differ, and none is 0. Two calls share one only where it says the
 * same of both. */
#define BROTHLADDER_REFUSED 1u       /* any call: bad input; `refusal` and `value` say why */
#define BROTHLADDER_KNOWN 2u         /* decode: a head whose type and code are known */
#define BROTHLADDER_UNKNOWN 3u       /* decode: any other head */
#define BROTHLADDER_VALID 4u         /* verify: the checksum is right */
#define BROTHLADDER_INVALID 5u       /* verify: the checksum is wrong */
#define BROTHLADDER_OPTION 6u        /* step: an option */
#define BROTHLADDER_END 7u           /* step: the end of the list; you got all options */
#define BROTHLADDER_STOPPED 8u       /* step: the place is beyond the bytes, as after a refusal */
#define BROTHLADDER_RECEIVED 9u      /* receive: the packet passed every test */
#define BROTHLADDER_WRITTEN 10u      /* write: the packet is there; put: the option is */
#define BROTHLADDER_PREFIX 11u       /* prefix: a prefix information option */
#define BROTHLADDER_CHAIN 12u        /* chain: all the quotes of the packet */
#define BROTHLADDER_ROUTE 13u        /* route: a route information option */
#define BROTHLADDER_IGNORED 14u      /* route: one with the reserved preference: do not use it */
#define BROTHLADDER_SERVERS 15u      /* dns: a recursive DNS server option */
#define BROTHLADDER_PREFERENCE 16u   /* preference: how far the router is preferred */
#define BROTHLADDER_SUM 17u          /* sum, sum_pseudo, sum_push, sum_join: a sum of bytes */
#define BROTHLADDER_UPDATED 18u      /* updated_checksum, change_word: the field after a change */
#define BROTHLADDER_INDEXED 19u      /* index build, append: the index is that of the list */
#define BROTHLADDER_FOUND 20u        /* index first, next: the place of an option */
#define BROTHLADDER_NONE 21u         /* index first, next: there is no such entry */
#define BROTHLADDER_ACCEPTED 22u     /* check plan, plan message: accepted, and has this message */
#define BROTHLADDER_NOT_ACCEPTED 23u /* they: not accepted, or no such message: do not send */
#define BROTHLADDER_PLANNED 24u      /* plan: the counts are in `plan` */
#define BROTHLADDER_MTU 25u          /* mtu: an MTU option */
#define BROTHLADDER_BYTES 26u        /* link-layer address, redirected header: where it is */
#define BROTHLADDER_MESSAGE 27u      /* message: the fixed part of a message */

/* Values of `refusal`, which says why a call refused; 0 if it did not. Behind each stands what
 * `value` holds, from value[0] on; it is 0 past the last. The last number of 5 to 8 and the one of
 * 18 is the place of the refused option in the packet: `offset` + `at` of a step, `offset` of an
 * option that is read by itself; of the chain and of the writers it counts from the packet's first
 * byte, as the place of a quote does, and of an index and a plan from the list's. */
#define BROTHLADDER_REFUSAL_SHORT_PACKET 1u            /* 8, length */
#define BROTHLADDER_REFUSAL_LONG_PACKET 2u             /* 4294967295, length */
#define BROTHLADDER_REFUSAL_LONG_PAYLOAD 3u            /* 65527, length */
#define BROTHLADDER_REFUSAL_SHORT_FIXED_PART 4u        /* bytes needed, bytes there */
#define BROTHLADDER_REFUSAL_UNEXPECTED_SIZE 5u         /* type, bytes asked, bytes there, place */
#define BROTHLADDER_REFUSAL_ZERO_LENGTH 6u             /* type, place */
#define BROTHLADDER_REFUSAL_UNEXPECTED_END_OF_SLICE 7u /* type, bytes it says, bytes left, place */
#define BROTHLADDER_REFUSAL_UNEXPECTED_HEADER 8u       /* type asked, type there, units asked,
                                                          units there, place */
#define BROTHLADDER_REFUSAL_SHORT_OUTPUT 9u            /* bytes that would be written; an append:
                                                          those of the whole list or index */
#define BROTHLADDER_REFUSAL_KNOWN_PAIR 10u             /* type, code (no call here returns it) */
#define BROTHLADDER_REFUSAL_NOT_RECEIVED 11u           /* BROTHLADDER_REASON_.. */
#define BROTHLADDER_REFUSAL_NO_MARK 12u                /* place (12 to 14: the dump program only) */
#define BROTHLADDER_REFUSAL_LONG_RECORD 13u            /* length */
#define BROTHLADDER_REFUSAL_CAPTURE_ENDS 14u           /* place */
#define BROTHLADDER_REFUSAL_SHORT_QUOTE 15u            /* place (15 to 17: the chain only) */
#define BROTHLADDER_REFUSAL_QUOTE_VERSION 16u          /* place */
#define BROTHLADDER_REFUSAL_DEEP_QUOTE 17u             /* place */
#define BROTHLADDER_REFUSAL_LONG_ROUTE_PREFIX 18u      /* place (second edition only) */
#define BROTHLADDER_REFUSAL_NO_WORD 19u                /* place (updates only) */
#define BROTHLADDER_REFUSAL_MANY_OPTIONS 20u           /* nothing */
#define BROTHLADDER_REFUSAL_NO_PLAN 21u                /* nothing */
#define BROTHLADDER_REFUSAL_FAR_OFFSET 22u             /* nothing */
#define BROTHLADDER_REFUSAL_OTHER_INDEX 23u            /* nothing */

/* value[0] of refusal 11: the first test of the receive check, in this order, that the packet
 * failed. */
#define BROTHLADDER_REASON_HOP_LIMIT 1u
#define BROTHLADDER_REASON_CHECKSUM 2u
#define BROTHLADDER_REASON_CODE 3u
#define BROTHLADDER_REASON_LENGTH 4u
#define BROTHLADDER_REASON_OPTIONS 5u
#define BROTHLADDER_REASON_ADDRESSES 6u
#define BROTHLADDER_REASON_TARGET 7u
#define BROTHLADDER_REASON_SOURCE_OPTION 8u

/* What a refusal and a reason mean, for a log: fixed strings, in small letters and without a full
 * stop. They stand here, so nothing is linked for them. */
/* (tools/texts writes from here) */
BROTHLADDER_INLINE const char *brothladder_refusal_text(uint32_t number) {
    switch (number) {
    case 0: return "no refusal";
    case 1: return "the packet has fewer than 8 bytes";
    case 2: return "the packet has more than 4294967295 bytes";
    case 3: return "the payload is too long for a packet";
    case 4: return "the packet ends inside its fixed part";
    case 5: return "an option has another number of bytes than it must have";
    case 6: return "the length of an option is given as 0";
    case 7: return "an option says it is longer than what is left";
    case 8: return "an option has another type or length than its reader asks for";
    case 9: return "the output has too few bytes";
    case 10: return "an unknown head has the type and code of a known one";
    case 11: return "the packet did not pass the receive check";
    case 12: return "a record begins neither with 49 36 nor with 49 37";
    case 13: return "a record has a length that its mark does not allow";
    case 14: return "the capture ends inside a record";
    case 15: return "a quoted packet has fewer than 40 bytes";
    case 16: return "a quoted packet is not of IP version 6";
    case 17: return "more than eight packets are quoted one in another";
    case 18: return "a route has a prefix length above 128";
    case 19: return "at this place there is no word to change";
    case 20: return "the list has more than 64 options";
    case 21: return "no plan can be accepted for this limit";
    case 22: return "the options would reach beyond the longest packet";
    case 23: return "the index is not the one that the list builds";
    default: return "a refusal of another version";
    }
}

BROTHLADDER_INLINE const char *brothladder_reason_text(uint32_t number) {
    switch (number) {
    case 0: return "no reason";
    case 1: return "the hop limit is not 255";
    case 2: return "the checksum is wrong";
    case 3: return "the code is not 0";
    case 4: return "the packet ends inside its fixed part";
    case 5: return "the options do not read to their end";
    case 6: return "the source or destination address is not allowed for this message";
    case 7: return "the target address is not allowed";
    case 8: return "the packet comes from no address (::) and has a source link-layer option";
    default: return "a reason of another version";
    }
}
/* (to here) */

/* Message types (RFC 4443, RFC 4861). */
#define BROTHLADDER_TYPE_DESTINATION_UNREACHABLE 1u
#define BROTHLADDER_TYPE_PACKET_TOO_BIG 2u
#define BROTHLADDER_TYPE_TIME_EXCEEDED 3u
#define BROTHLADDER_TYPE_PARAMETER_PROBLEM 4u
#define BROTHLADDER_TYPE_ECHO_REQUEST 128u
#define BROTHLADDER_TYPE_ECHO_REPLY 129u
#define BROTHLADDER_TYPE_ROUTER_SOLICITATION 133u
#define BROTHLADDER_TYPE_ROUTER_ADVERTISEMENT 134u
#define BROTHLADDER_TYPE_NEIGHBOR_SOLICITATION 135u
#define BROTHLADDER_TYPE_NEIGHBOR_ADVERTISEMENT 136u
#define BROTHLADDER_TYPE_REDIRECT 137u

/* Kinds of options. The bytes of an option begin with its type and its length in units of 8 bytes
 * (RFC 4861, section 4.6). The last two are kinds of the second edition alone; a route with the
 * reserved preference is UNKNOWN there. */
#define BROTHLADDER_KIND_UNKNOWN 0u
#define BROTHLADDER_KIND_SOURCE_LINK_LAYER_ADDRESS 1u
#define BROTHLADDER_KIND_TARGET_LINK_LAYER_ADDRESS 2u
#define BROTHLADDER_KIND_PREFIX_INFORMATION 3u /* 32 bytes */
#define BROTHLADDER_KIND_REDIRECTED_HEADER 4u
#define BROTHLADDER_KIND_MTU 5u                /* 8 bytes */
#define BROTHLADDER_KIND_ROUTE_INFORMATION 24u /* 8, 16 or 24 bytes */
#define BROTHLADDER_KIND_RECURSIVE_DNS_SERVERS 25u /* 8 bytes, and 16 for each of its servers */

/* What `field` of a decoded head holds: the index of each number. A flag is 0 or 1. */
#define BROTHLADDER_FIELD_BYTES 0      /* of an unknown head: bytes 4 to 7, high byte first */
#define BROTHLADDER_FIELD_MTU 0        /* 2 */
#define BROTHLADDER_FIELD_POINTER 0    /* 4 */
#define BROTHLADDER_FIELD_IDENTIFIER 0 /* 128, 129 */
#define BROTHLADDER_FIELD_SEQUENCE 1
#define BROTHLADDER_FIELD_HOP_LIMIT 0  /* 134 */
#define BROTHLADDER_FIELD_MANAGED 1
#define BROTHLADDER_FIELD_OTHER 2
#define BROTHLADDER_FIELD_LIFETIME 3
#define BROTHLADDER_FIELD_ROUTER 0     /* 136 */
#define BROTHLADDER_FIELD_SOLICITED 1
#define BROTHLADDER_FIELD_OVERRIDE 2

/* How far a router or a route is preferred (RFC 4191, section 2.1). */
#define BROTHLADDER_PREFERENCE_MEDIUM 0u
#define BROTHLADDER_PREFERENCE_HIGH 1u
#define BROTHLADDER_PREFERENCE_LOW 3u

/* Bytes 4 to 7 of a message as one number, high byte first: what brothladder_write takes as
 * `bytes5to8` and a decoded head has in it. Each ..._word puts the number together, and the
 * functions behind it take it apart. All numbers are uint32_t, as those of a decoded head are; of a
 * number that is too large for its place the low bits are taken. Types 1, 3, 133, 135 and 137 have
 * nothing in these bytes: write 0. */

/* The flags of a router advertisement, byte 5 (RFC 4861, section 4.2; RFC 4191, section 2.2: the
 * preference, which brothladder_write_clearing clears). */
#define BROTHLADDER_RA_MANAGED 0x80u
#define BROTHLADDER_RA_OTHER 0x40u
#define BROTHLADDER_RA_PREFERENCE(preference) (((preference) & 3u) << 3)

/* The flags of a neighbor advertisement, byte 4 (RFC 4861, section 4.4). */
#define BROTHLADDER_NA_ROUTER 0x80u
#define BROTHLADDER_NA_SOLICITED 0x40u
#define BROTHLADDER_NA_OVERRIDE 0x20u

/* 2, packet too big (RFC 4443, section 3.2). */
BROTHLADDER_INLINE uint32_t brothladder_too_big_word(uint32_t mtu) { return mtu; }
BROTHLADDER_INLINE uint32_t brothladder_too_big_mtu(uint32_t word) { return word; }

/* 4, parameter problem (RFC 4443, section 3.4). */
BROTHLADDER_INLINE uint32_t brothladder_problem_word(uint32_t pointer) { return pointer; }
BROTHLADDER_INLINE uint32_t brothladder_problem_pointer(uint32_t word) { return word; }

/* 128 and 129, echo request and reply (RFC 4443, section 4). */
BROTHLADDER_INLINE uint32_t brothladder_echo_word(uint32_t identifier, uint32_t sequence) {
    return (identifier & 0xffffu) << 16 | (sequence & 0xffffu);
}
BROTHLADDER_INLINE uint32_t brothladder_echo_identifier(uint32_t word) { return word >> 16; }
BROTHLADDER_INLINE uint32_t brothladder_echo_sequence(uint32_t word) { return word & 0xffffu; }

/* 134, router advertisement: `flags` is all of byte 5. */
BROTHLADDER_INLINE uint32_t brothladder_ra_word(uint32_t hop_limit, uint32_t flags,
                                                uint32_t lifetime) {
    return (hop_limit & 0xffu) << 24 | (flags & 0xffu) << 16 | (lifetime & 0xffffu);
}
BROTHLADDER_INLINE uint32_t brothladder_ra_hop_limit(uint32_t word) { return word >> 24; }
BROTHLADDER_INLINE uint32_t brothladder_ra_flags(uint32_t word) { return word >> 16 & 0xffu; }
BROTHLADDER_INLINE uint32_t brothladder_ra_lifetime(uint32_t word) { return word & 0xffffu; }

/* 136, neighbor advertisement: `flags` is all of byte 4. */
BROTHLADDER_INLINE uint32_t brothladder_na_word(uint32_t flags) { return (flags & 0xffu) << 24; }
BROTHLADDER_INLINE uint32_t brothladder_na_flags(uint32_t word) { return word >> 24; }

/* What every struct begins with, but that of the sums, which no call refuses. Where one function is
 * to take every answer, say to log it, hand it BROTHLADDER_ANSWER_OF(s), a copy; `s` is a variable,
 * and not the call itself:
 *
 *     static void log_refusal(struct brothladder_answer a) {
 *         if (a.answer == BROTHLADDER_REFUSED)
 *             warn("%s (%lu)", brothladder_refusal_text(a.refusal), (unsigned long)a.value[0]);
 *     }
 *
 *     log_refusal(BROTHLADDER_ANSWER_OF(s));
 */
struct brothladder_answer {
    uint32_t answer;
    uint32_t refusal;
    uint64_t value[5];
};

BROTHLADDER_INLINE struct brothladder_answer brothladder_answer_of(
    uint32_t answer, uint32_t refusal, const uint64_t value[5]) {
    struct brothladder_answer a;
    a.answer = answer;
    a.refusal = refusal;
    a.value[0] = value[0];
    a.value[1] = value[1];
    a.value[2] = value[2];
    a.value[3] = value[3];
    a.value[4] = value[4];
    return a;
}
#define BROTHLADDER_ANSWER_OF(s) brothladder_answer_of((s).answer, (s).refusal, (s).value)

/* What the calls return. None has padding, so every byte is set. */

struct brothladder_head {
    uint32_t answer; /* KNOWN, UNKNOWN or REFUSED */
    uint32_t refusal;
    uint64_t value[5];
    uint8_t type;       /* type, code and bytes5to8 are what brothladder_write takes */
    uint8_t code;
    uint16_t checksum;  /* the field as it stands in the packet */
    uint32_t bytes5to8; /* bytes 4 to 7 as they stand, as one number, high byte first */
    uint32_t field[4];  /* by BROTHLADDER_FIELD_.. */
};

struct brothladder_verified {
    uint32_t answer; /* VALID, INVALID or REFUSED */
    uint32_t refusal;
    uint64_t value[5];
};

struct brothladder_stepped {
    uint32_t answer; /* OPTION, END, STOPPED or REFUSED */
    uint32_t refusal;
    uint64_t value[5];
    uint32_t kind; /* BROTHLADDER_KIND_.. */
    uint32_t type; /* the option's type byte */
    size_t at;    /* the option is options[at] to options[at + length - 1] */
    size_t length;
    size_t next;  /* what to pass as `at` to the next step */
    size_t place; /* where the option begins in the packet: offset + at */
};

struct brothladder_received {
    uint32_t answer; /* RECEIVED or REFUSED */
    uint32_t refusal;
    uint64_t value[5];
    size_t options_at;     /* the options are packet[options_at] to the packet's end */
    size_t options_length; /* 0 if there are none; types other than 133 to 137 never have any */
};

struct brothladder_written {
    uint32_t answer; /* WRITTEN or REFUSED */
    uint32_t refusal;
    uint64_t value[5];
    size_t length; /* the packet is out[0] to out[length - 1]; of a put, the place behind the
                      option, which the next put takes as `at` */
};

struct brothladder_prefix {
    uint32_t answer; /* PREFIX or REFUSED */
    uint32_t refusal;
    uint64_t value[5];
    uint32_t prefix_length; /* in bits; not checked, may be above 128 */
    uint16_t on_link;       /* 0 or 1 */
    uint16_t autonomous;    /* 0 or 1 */
    uint32_t valid_lifetime; /* in seconds; 4294967295 means forever */
    uint32_t preferred_lifetime;
    uint8_t prefix[16];
    size_t place; /* where the option begins in the packet: offset */
};

struct brothladder_route {
    uint32_t answer; /* ROUTE, IGNORED or REFUSED. Of IGNORED all but the place is 0 */
    uint32_t refusal;
    uint64_t value[5];
    uint16_t prefix_length; /* in bits, 0 to 128. Bits of the prefix behind them are not checked */
    uint16_t preference;    /* BROTHLADDER_PREFERENCE_.. */
    uint32_t lifetime;      /* in seconds; 4294967295 means forever */
    uint8_t prefix[16];     /* 0 where the option has no bytes of it */
    size_t place;           /* where the option begins in the packet: offset */
};

struct brothladder_servers {
    uint32_t answer; /* SERVERS or REFUSED */
    uint32_t refusal;
    uint64_t value[5];
    uint64_t lifetime; /* in seconds; 4294967295 means forever */
    size_t count;      /* one at least; the address of server i is at option + 8 + 16 * i */
    size_t place;      /* where the option begins in the packet: offset */
};

struct brothladder_preferred {
    uint32_t answer; /* PREFERENCE or REFUSED */
    uint32_t refusal;
    uint64_t value[5];
    uint64_t preference; /* BROTHLADDER_PREFERENCE_.. */
};

struct brothladder_chain {
    uint32_t answer; /* CHAIN or REFUSED */
    uint32_t refusal;
    uint64_t value[5];
    uint32_t kind;          /* BROTHLADDER_TYPE_.., 0 if type and code are not a known pair */
    uint32_t levels;        /* how many quotes, one in another: 0 to 8. The rest is 0 */
    uint32_t quote[8];      /* where each begins in the packet; its IPv6 header is all there */
    uint8_t next_header[8]; /* 58: an ICMPv6 message begins at quote[i] + 40 */
    uint8_t level_kind[8];  /* that message's type, as `kind`; 0 if there is no message */
};

/* A sum of bytes, in one register. Pass it on as it is: `odd` belongs to `sum`. */
struct brothladder_summed {
    uint32_t answer; /* SUM */
    uint16_t sum;    /* the folded sum (RFC 1071): not the checksum, which is 65535 - sum */
    uint16_t odd;    /* 1 if an odd number of bytes is in it, else 0 */
};

struct brothladder_updated {
    uint32_t answer; /* UPDATED or REFUSED */
    uint32_t refusal;
    uint64_t value[5];
    uint64_t field; /* the new checksum field, bytes 2 and 3 as one number, high byte first */
};

struct brothladder_indexed {
    uint32_t answer; /* INDEXED or REFUSED */
    uint32_t refusal;
    uint64_t value[5];
    size_t length;  /* the list has so many bytes: what the next append takes as `used` */
    size_t entries; /* and its index so many entries: of option i, index[2 * i] is the type and
                       index[2 * i + 1] the place in the list */
};

struct brothladder_found {
    uint32_t answer; /* FOUND or NONE. A lookup refuses nothing: `refusal` and `value` are 0 */
    uint32_t refusal;
    uint64_t value[5];
    size_t at; /* where the option begins in the list: what brothladder_step takes as `at` */
};

struct brothladder_checked {
    uint32_t answer; /* ACCEPTED, NOT_ACCEPTED or REFUSED */
    uint32_t refusal;
    uint64_t value[5];
};

struct brothladder_planned {
    uint32_t answer; /* PLANNED or REFUSED */
    uint32_t refusal;
    uint64_t value[5];
    size_t messages; /* plan[i] options go into message i, for i from 0 to messages - 1 */
};

struct brothladder_part {
    uint32_t answer; /* ACCEPTED, NOT_ACCEPTED or REFUSED */
    uint32_t refusal;
    uint64_t value[5];
    size_t at; /* the options of the message are options[at] to options[at + length - 1] */
    size_t length; /* 0 for the one message of an empty list */
};

struct brothladder_mtu {
    uint32_t answer; /* MTU or REFUSED */
    uint32_t refusal;
    uint64_t value[5];
    uint32_t kind; /* BROTHLADDER_KIND_MTU */
    uint32_t mtu;  /* not checked: it may be below 1280 */
    size_t place;  /* where the option begins in the packet: offset */
};

struct brothladder_bytes {
    uint32_t answer; /* BYTES or REFUSED */
    uint32_t refusal;
    uint64_t value[5];
    size_t at; /* the bytes are option[at] to option[at + length - 1]: nothing is copied */
    size_t length; /* padding at the end of the option included */
    size_t place;  /* where the option begins in the packet: offset */
};

struct brothladder_message {
    uint32_t answer; /* MESSAGE or REFUSED */
    uint32_t refusal;
    uint64_t value[5];
    uint32_t kind;           /* BROTHLADDER_TYPE_.., 0 if type and code are not a known pair */
    uint32_t fixed_length;   /* the fixed part is so many bytes from packet[8] on */
    uint32_t reachable_time; /* 134, in milliseconds */
    uint32_t retrans_timer;  /* 134, in milliseconds */
    size_t target_at;        /* 135, 136, 137: the 16 bytes of the target; 0: there is none */
    size_t destination_at;   /* 137: the same of the destination field */
    size_t options_at;       /* the options are packet[options_at] to the packet's end */
    size_t options_length;   /* 0 if there are none; only types 133 to 137 have any */
};

/* The library was compiled for these sizes. */
#if !defined(BROTHLADDER_HEADER_ONLY)
#if defined(__cplusplus) && __cplusplus >= 201103L
#define BROTHLADDER_SIZE(name, bytes) \
    static_assert(sizeof(struct brothladder_##name) == bytes, "brothladder_" #name)
#elif defined(__STDC_VERSION__) && __STDC_VERSION__ >= 201112L
#define BROTHLADDER_SIZE(name, bytes) \
    _Static_assert(sizeof(struct brothladder_##name) == bytes, "brothladder_" #name)
#else
#define BROTHLADDER_SIZE(name, bytes) \
    typedef char brothladder_##name##_size[sizeof(struct brothladder_##name) == bytes ? 1 : -1]
#endif
BROTHLADDER_SIZE(answer, 48);
BROTHLADDER_SIZE(head, 72);
BROTHLADDER_SIZE(verified, 48);
BROTHLADDER_SIZE(stepped, 88);
BROTHLADDER_SIZE(received, 64);
BROTHLADDER_SIZE(written, 56);
BROTHLADDER_SIZE(prefix, 88);
BROTHLADDER_SIZE(route, 80);
BROTHLADDER_SIZE(servers, 72);
BROTHLADDER_SIZE(preferred, 56);
BROTHLADDER_SIZE(chain, 104);
BROTHLADDER_SIZE(summed, 8);
BROTHLADDER_SIZE(updated, 56);
BROTHLADDER_SIZE(indexed, 64);
BROTHLADDER_SIZE(found, 56);
BROTHLADDER_SIZE(checked, 48);
BROTHLADDER_SIZE(planned, 56);
BROTHLADDER_SIZE(part, 64);
BROTHLADDER_SIZE(mtu, 64);
BROTHLADDER_SIZE(bytes, 72);
BROTHLADDER_SIZE(message, 96);
#undef BROTHLADDER_SIZE
#endif

/* Decodes the head of a packet. KNOWN: type, code, checksum field and the fields of the type; no
 * field holds reserved bits. UNKNOWN: the type is none of BROTHLADDER_TYPE_.., or it has no such
 * code; field[0] is bytes 4 to 7. `bytes5to8` has them in both cases, reserved bits included. The
 * call does not verify the checksum and does not test the length against the type:
 * brothladder_receive does both.
 * Refusals: 1, 2. */
BROTHLADDER_ANSWER
struct brothladder_head brothladder_decode(const uint8_t *packet, size_t length);

/* Verifies the checksum of a packet under its addresses (RFC 4443, section 2.3).
 * Refusals: 1, 2. */
BROTHLADDER_ANSWER BROTHLADDER_ADDRESSES(3, 4)
struct brothladder_verified brothladder_verify(
    const uint8_t *packet, size_t length, const uint8_t source[16], const uint8_t destination[16]);

/* The same answer, number by number, for boards with registers of 64 bits: gateway boards call this
 * one. It adds up in 64 bits, 64 bytes at a time. brothladder_verify keeps its totals within 32
 * bits: it is for the booster board and every other machine of 32 bits. All other calls that sum
 * bytes, brothladder_receive and brothladder_write.. among them, sum as brothladder_verify does, on
 * every board.
 * Refusals: 1, 2. */
BROTHLADDER_ANSWER BROTHLADDER_ADDRESSES(3, 4)
struct brothladder_verified brothladder_verify_by_fours(
    const uint8_t *packet, size_t length, const uint8_t source[16], const uint8_t destination[16]);

/* Checks whether a packet may be used (RFC 4861, sections 6.1, 7.1 and 8.1). Types 133 to 137 get
 * all eight tests, in the order of BROTHLADDER_REASON_..; other types get the checksum test alone.
 * If the answer is RECEIVED, walking the options in the same edition will reach END. One refused
 * option refuses the whole packet: this is stricter than RFC 4861 on purpose.
 * Refusals: 1, 2, 11 with the reason in value[0]. */
BROTHLADDER_ANSWER BROTHLADDER_ADDRESSES(4, 5)
struct brothladder_received brothladder_receive(
    const uint8_t *packet, size_t length, uint8_t hop_limit, const uint8_t source[16],
    const uint8_t destination[16], uint32_t edition);

/* Reads what stands at place `at` of the option bytes, which begin behind the message's fixed part.
 * `offset` is where they begin in the packet (`options_at` of the receive check). Pass 0 as `at` to
 * the first step, and to each later one the `next` of the step before it; and to all of them the
 * same `edition`.
 * OPTION: an option, within the bytes.
 * END: there are no more.
 * REFUSED: there is no valid option at this place. A step at `next` is STOPPED.
 * STOPPED: the place is beyond the bytes.
 * Refusals: 22 at every place up to the end, END's too; else 5, 6, 7, and in the second edition 18.
 */
BROTHLADDER_ANSWER
struct brothladder_stepped brothladder_step(
    const uint8_t *options, size_t length, size_t offset, size_t at, uint32_t edition);

/* Reads a prefix information option. Pass the bytes that a step returned with
 * BROTHLADDER_KIND_PREFIX_INFORMATION, and its `place` as `offset`.
 * Refusals: 22; 5 if the length is not 32, 8 if the type byte is not 3 or the length byte is not 4.
 */
BROTHLADDER_ANSWER
struct brothladder_prefix brothladder_read_prefix(
    const uint8_t *option, size_t length, size_t offset);

/* Reads a route information option (RFC 4191, section 2.3). Pass the bytes that a step in the
 * second edition returned with BROTHLADDER_KIND_ROUTE_INFORMATION, and its `place` as `offset`. The
 * answer to such bytes is ROUTE. IGNORED is the answer to an option of type 24 that a step returned
 * as unknown, because its preference is the reserved one: nobody may use it, and no number of it is
 * told.
 * Refusals: 22; 5 if there are fewer than 8 bytes, 8 if the type byte is not 24, 6 if the length
 * byte is 0, 5 if it says another length; then those of the second edition: 5 above 24 bytes, 18, 5
 * if the prefix length needs more bytes. */
BROTHLADDER_ANSWER
struct brothladder_route brothladder_read_route(
    const uint8_t *option, size_t length, size_t offset);

/* Reads a recursive DNS server option (RFC 8106, section 5.1). Pass the bytes that a step in the
 * second edition returned with BROTHLADDER_KIND_RECURSIVE_DNS_SERVERS, and its `place` as `offset`.
 * The addresses are not copied: server i, counted from 0 and below `count`, has the 16 bytes from
 * option + 8 + 16 * i on.
 * Refusals: 22; 5 if there are fewer than 8 bytes, 8 if the type byte is not 25, 6 if the length
 * byte is 0, 5 if it says another length; then that of the second edition: 5 if the bytes are not 8
 * and 16 for each of one or more servers. */
BROTHLADDER_ANSWER
struct brothladder_servers brothladder_read_dns(
    const uint8_t *option, size_t length, size_t offset);

/* Tells how far a router advertisement asks that its router be preferred (RFC 4191, section 2.2);
 * MEDIUM for any other message. It looks at type, code and flags alone: do the receive check first,
 * and where the router lifetime is 0 (BROTHLADDER_FIELD_LIFETIME) do not use the preference. The
 * bits are reserved ones for this library: brothladder_write writes them as given, and
 * brothladder_write_clearing writes MEDIUM.
 * Refusals: 1, 2. */
BROTHLADDER_ANSWER
struct brothladder_preferred brothladder_preference(const uint8_t *packet, size_t length);

/* Writes a packet to the start of `out`: the head with the computed checksum, then the payload; 8 +
 * payload_length bytes in all. `bytes5to8` is bytes 4 to 7 of the head as one number, high byte
 * first (brothladder_ra_word and its like, above). All of it is written as given, reserved bits
 * too. A sender of types 133 to 137 that makes its own message calls brothladder_write_clearing:
 * RFC 4861, sections 4.1 to 4.5, asks for 0 in reserved fields. That call writes 0 in every
 * reserved bit of a known type and code, and any other pair as given. brothladder_write_keeping is
 * another name of brothladder_write.
 * To pass a message on, take `type`, `code` and `bytes5to8` from the decoded head and the bytes
 * behind the head as payload: what is written is the packet as it came, with its checksum computed
 * anew. So a packet whose checksum was wrong gets a right one: do the receive check first. And
 * where ff ff stood in the field for a computed 0, 00 00 is written; both are valid. The checksum
 * is that of the bytes that are written: that of brothladder_write is not right for the bytes of
 * brothladder_write_clearing.
 * For types 133 to 137 with code 0 the payload must hold the whole fixed part and then options that
 * walk to END in the edition given; any other payload is written as it is. What is written in the
 * second edition is written in the first, the same bytes.
 * `out` shares no byte with the payload. A message whose payload was built behind the head's place
 * is written by brothladder_write_in_place, below.
 * Refusals, in this order: 3; then, for types 133 to 137 with code 0, 4 and 5, 6, 7 or 18, with the
 * place in the packet that is being written; then 9. A refusal leaves `out` as it was. A packet
 * that is written changes its own bytes of `out` and none behind them. */
BROTHLADDER_ANSWER BROTHLADDER_ADDRESSES(6, 7)
struct brothladder_written brothladder_write(
    uint8_t type, uint8_t code, uint32_t bytes5to8, const uint8_t *payload, size_t payload_length,
    const uint8_t source[16], const uint8_t destination[16], uint8_t *out, size_t out_length,
    uint32_t edition);

BROTHLADDER_ANSWER BROTHLADDER_ADDRESSES(6, 7)
struct brothladder_written brothladder_write_clearing(
    uint8_t type, uint8_t code, uint32_t bytes5to8, const uint8_t *payload, size_t payload_length,
    const uint8_t source[16], const uint8_t destination[16], uint8_t *out, size_t out_length,
    uint32_t edition);

BROTHLADDER_ANSWER BROTHLADDER_ADDRESSES(6, 7)
struct brothladder_written brothladder_write_keeping(
    uint8_t type, uint8_t code, uint32_t bytes5to8, const uint8_t *payload, size_t payload_length,
    const uint8_t source[16], const uint8_t destination[16], uint8_t *out, size_t out_length,
    uint32_t edition);

/* Reads which packet a message quotes, and what the quoted packet quotes in turn, up to eight deep:
 * types 1 to 4 quote behind their head, types 133 to 137 in the first redirected-header option. The
 * answer is the whole chain of quotes or a refusal, never a part of a chain:
 *
 *     struct brothladder_chain c = brothladder_chain(packet, length, edition);
 *     if (c.answer == BROTHLADDER_CHAIN && c.levels > 0) {
 *         const uint8_t *quoted = packet + c.quote[0];    // its IPv6 header: quoted + 8 sent it
 *         if (c.next_header[0] == 58 && c.level_kind[0] == BROTHLADDER_TYPE_ECHO_REQUEST)
 *             return lost_echo(quoted + 40);              // the 8 bytes of its head are there
 *     }
 *
 * A quote is what somebody says that you sent: no checksum of it is verified, nor that of the
 * packet (brothladder_receive does that). A message whose type and code are not a known pair has no
 * quote. An option list on the way must walk to END in the edition given, or nothing is read. A
 * quote that was cut short is refused where the cut shows, and so is an option list that was
 * padded.
 * Refusals: 1, 2; of each message 1, 4 and 5, 6, 7 or 18; of each quote 17, 15, 16, in this order.
 * Inside a quote 1 and 4 count in their own message. */
BROTHLADDER_ANSWER
struct brothladder_chain brothladder_chain(const uint8_t *packet, size_t length, uint32_t edition);

/* What the checksum field of a packet is to be once one 16-bit word of it is another (RFC 1624,
 * equation 3). Pass the packet as it stands, with its field and its old word; `place` is where the
 * word begins, counted from the packet's first byte; `word` is its new value, the high byte first
 * on the wire. No address is needed, and of the packet the field and the word alone are looked at:
 *
 *     // bytes 4 and 5 become 40 00
 *     struct brothladder_updated u = brothladder_change_word(packet, length, 4, 0x4000);
 *     if (u.answer != BROTHLADDER_UPDATED)
 *         return drop(u.refusal, u.value[0]);             // nothing was changed
 *
 * brothladder_change_word puts the word and the new field into the packet;
 * brothladder_updated_checksum only says what the field would be. A packet that was valid stays
 * valid, and one that was not is not mended. Where the field was the computed checksum, the new one
 * is the computed checksum of the changed packet. Where ff ff stood in it for a computed 0, the new
 * field is the computed one too, but where a word ff ff becomes 00 00: there ff ff stays. A word
 * that is changed to itself leaves the field as it is, but makes 00 00 of ff ff. Words at several
 * places may be changed in any order. Place 0, type and code, may be changed.
 * Refusals, in this order: 1, 2; 19 if the place is odd, or 2, which is the field's own, or the
 * word's two bytes are not both in the packet. */
BROTHLADDER_ANSWER
struct brothladder_updated brothladder_updated_checksum(
    const uint8_t *packet, size_t length, size_t place, uint16_t word);

BROTHLADDER_ANSWER
struct brothladder_updated brothladder_change_word(
    uint8_t *packet, size_t length, size_t place, uint16_t word);

/* Sums of bytes that lie in several buffers; docs/SUMS.md says what may be exchanged with what. To
 * verify a packet that lies in two buffers, wherever it is cut:
 *
 *     size_t length = buffer[0].length + buffer[1].length;
 *     if (length < 8 || length > 4294967295u)
 *         return 0;                       // brothladder_verify refuses such a packet (1, 2)
 *     struct brothladder_summed s = brothladder_sum_pseudo(source, destination, (uint32_t)length);
 *     for (int i = 0; i < 2; i++)
 *         s = brothladder_sum_push(s, buffer[i].bytes, buffer[i].length);
 *     return s.sum == 65535;              // where brothladder_verify of the whole packet is VALID
 *
 * To compute a checksum, walk over the same bytes with 0 in the checksum field, and write 65535 -
 * s.sum into it, high byte first. A sum that you did not get from one of these calls counts as it
 * stands, and any odd number in `odd` as 1; `answer` is not looked at.
 * Refusals: none. */

/* The sum of some bytes. */
BROTHLADDER_ANSWER
struct brothladder_summed brothladder_sum(const uint8_t *bytes, size_t length);

/* The sum of the pseudo-header of a packet of `length` bytes (RFC 8200, section 8.1; next header
 * 58). */
BROTHLADDER_ANSWER BROTHLADDER_ADDRESSES(1, 2)
struct brothladder_summed brothladder_sum_pseudo(
    const uint8_t source[16], const uint8_t destination[16], uint32_t length);

/* The sum of the bytes that `before` is the sum of, and `bytes` behind them. */
BROTHLADDER_ANSWER
struct brothladder_summed brothladder_sum_push(
    struct brothladder_summed before, const uint8_t *bytes, size_t length);

/* The sum of the bytes that `first` is the sum of, and those of `second` behind them: for buffers
 * that were summed apart. */
BROTHLADDER_ANSWER
struct brothladder_summed brothladder_sum_join(
    struct brothladder_summed first, struct brothladder_summed second);

/* Builds the index of an option list at the start of `index`: two numbers for each option, its type
 * and its place in the list, in list order. Who looks up several options of a list walks it once,
 * here, and then asks the index:
 *
 *     uint32_t index[128];                    // 64 entries are the most: two numbers each
 *     struct brothladder_indexed x =
 *         brothladder_index_build(options, r.options_length, index, 128, edition);
 *     if (x.answer != BROTHLADDER_INDEXED)    // of a received packet: more than 64 options
 *         return step_through();
 *
 *     struct brothladder_found f =
 *         brothladder_index_first(index, 128, x.entries, BROTHLADDER_KIND_MTU);
 *     if (f.answer == BROTHLADDER_FOUND)
 *         set_mtu(options + f.at);            // the eight bytes of the option are there
 *
 *     const uint8_t type = BROTHLADDER_KIND_PREFIX_INFORMATION;
 *     f = brothladder_index_first(index, 128, x.entries, type);
 *     while (f.answer == BROTHLADDER_FOUND) { // each prefix, in list order
 *         struct brothladder_stepped s =
 *             brothladder_step(options, r.options_length, r.options_at, f.at, edition);
 *         add_prefix(brothladder_read_prefix(options + s.at, s.length, s.place));
 *         f = brothladder_index_next(index, 128, x.entries, type, f.at);
 *     }
 *
 * `length` of the answer is options_length, `entries` the number of options. Numbers behind the
 * entries stay as they were.
 * Refusals: those of the steps over the list at offset 0 (22, 5, 6, 7, and 18 in the second
 * edition); then 20; then 9 with 8 bytes for each option. */
BROTHLADDER_ANSWER
struct brothladder_indexed brothladder_index_build(
    const uint8_t *options, size_t options_length, uint32_t *index, size_t index_length,
    uint32_t edition);

/* Puts option bytes behind a list's, and their entries behind its index's; or neither. The list is
 * the first `used` bytes of `list`, its index the first `entries` entries of `index`: pass what the
 * build or the append before answered as `length` and `entries`, and the same edition. What is then
 * there is what a build of the whole list would leave.
 * Refusals, in this order: those of the steps over the list; 23 if the index is not the one that
 * the list builds, or there is no such list or index in the buffers; those of the steps over
 * `more`, with the places that its options would have in the list; 20; 9 with the bytes of the
 * whole list; 9 with 8 bytes for each entry. No bytes in `more` are appended without a change. */
BROTHLADDER_ANSWER
struct brothladder_indexed brothladder_index_append(
    uint8_t *list, size_t list_length, size_t used, uint32_t *index, size_t index_length,
    size_t entries, const uint8_t *more, size_t more_length, uint32_t edition);

/* Looks up an option of a type in the first `entries` entries of an index (in all that it has, if
 * it has fewer), without a look at the list: the first, or the first that begins behind the place
 * `after`. Ask for the next with the place of the last answer, until NONE, and you got every option
 * of that type once, in list order. An index is answered as it stands: only one that was built from
 * a list and grown by appends alone says anything about it. */
BROTHLADDER_ANSWER
struct brothladder_found brothladder_index_first(
    const uint32_t *index, size_t index_length, size_t entries, uint8_t type);

BROTHLADDER_ANSWER
struct brothladder_found brothladder_index_next(
    const uint32_t *index, size_t index_length, size_t entries, uint8_t type, size_t after);

/* Splits a router advertisement whose options are too many for one message (RFC 4861, section
 * 6.2.3). A plan is how many consecutive options go into each message: plan[0] into the first,
 * plan[1] into the next. It may be yours: brothladder_check_plan says whether it is accepted for
 * these options and this limit, and brothladder_plan makes one of the fewest messages. `limit` is
 * the most bytes of ICMPv6 that a message may have; 16 of them are its head and fixed part. A plan
 * is accepted exactly if every message is within the limit, every message has an option (only the
 * plan of no options at all is one message without), and all options are in it, once and in order.
 *
 *     struct brothladder_checked c =
 *         brothladder_check_plan(options, length, limit, plan, messages, edition);
 *     if (c.answer != BROTHLADDER_ACCEPTED)
 *         return -1;                          // not accepted, or refused: send nothing
 *     for (size_t i = 0; i < messages; i++) {
 *         struct brothladder_part m =
 *             brothladder_plan_message(options, length, limit, plan, messages, i, edition);
 *         if (m.answer != BROTHLADDER_ACCEPTED)
 *             return -1;
 *         memcpy(payload, fixed_part, 8);
 *         memcpy(payload + 8, options + m.at, m.length);  // 16 + m.length is at most the limit
 *         struct brothladder_written w = brothladder_write_clearing(
 *             BROTHLADDER_TYPE_ROUTER_ADVERTISEMENT, 0, bytes5to8, payload, 8 + m.length, source,
 *             destination, out, out_length, edition);
 *         if (w.answer != BROTHLADDER_WRITTEN)
 *             return -1;
 *         send(out, w.length);
 *     }
 *
 * Do not test an answer as a boolean: BROTHLADDER_NOT_ACCEPTED and BROTHLADDER_REFUSED are not 0
 * either.
 * check: refusals as of the steps over the options, at offset 0 (22; 5, 6, 7, and in the second
 * edition 18), whatever plan and limit are. Any numbers will do as counts; an empty plan is never
 * accepted, and no plan under a limit below 16.
 * plan: the same; then 21 if no plan can be accepted, that is if the limit is below 16 or an option
 * is longer than the limit less 16; then 9, with 4 bytes for each message. Numbers behind the plan
 * stay as they were, and all of them on refusal.
 * message: refusals as check. NOT_ACCEPTED also for an i from `plan_length` on. The parts of the
 * messages, one behind the other, are the list, and each walks to END by itself. Each call checks
 * the whole plan anew. */
BROTHLADDER_ANSWER
struct brothladder_checked brothladder_check_plan(
    const uint8_t *options, size_t options_length, size_t limit, const uint32_t *plan,
    size_t plan_length, uint32_t edition);

BROTHLADDER_ANSWER
struct brothladder_planned brothladder_plan(
    const uint8_t *options, size_t options_length, size_t limit, uint32_t *plan,
    size_t plan_length, uint32_t edition);

BROTHLADDER_ANSWER
struct brothladder_part brothladder_plan_message(
    const uint8_t *options, size_t options_length, size_t limit, const uint32_t *plan,
    size_t plan_length, size_t i, uint32_t edition);

/* Reads an MTU option (RFC 4861, section 4.6.4). Pass the bytes that a step returned with
 * BROTHLADDER_KIND_MTU, and its `place` as `offset`.
 * Refusals: 22; 5 if the length is not 8, 8 if the type byte is not 5 or the length byte is not 1.
 */
BROTHLADDER_ANSWER
struct brothladder_mtu brothladder_read_mtu(const uint8_t *option, size_t length, size_t offset);

/* Tells where a link-layer address option has its address (RFC 4861, section 4.6.1). Pass the bytes
 * and the `kind` that a step returned with BROTHLADDER_KIND_SOURCE_LINK_LAYER_ADDRESS or
 * .._TARGET_LINK_LAYER_ADDRESS, and its `place` as `offset`: 2 asks for a target's option, every
 * other number for a source's. On an Ethernet the address is all six bytes of an option of eight;
 * another link may have padding behind its own:
 *
 *     struct brothladder_bytes b =
 *         brothladder_read_link_layer_address(options + s.at, s.length, s.place, s.kind);
 *     if (b.answer == BROTHLADDER_BYTES && b.length == 6)
 *         note_address(options + s.at + b.at);
 *
 * Refusals: 22; 5 if there are fewer than 8 bytes, 8 if the type byte is another one, 6 if the
 * length byte is 0, 5 if it says another length. */
BROTHLADDER_ANSWER
struct brothladder_bytes brothladder_read_link_layer_address(
    const uint8_t *option, size_t length, size_t offset, uint32_t kind);

/* Tells where a redirected-header option has the start of the packet that it quotes (RFC 4861,
 * section 4.6.3). Pass the bytes that a step returned with BROTHLADDER_KIND_REDIRECTED_HEADER, and
 * its `place` as `offset`. brothladder_chain reads what is quoted.
 * Refusals: as those of a link-layer address. */
BROTHLADDER_ANSWER
struct brothladder_bytes brothladder_read_redirected_header(
    const uint8_t *option, size_t length, size_t offset);

/* Reads what a message has before its options: where its addresses are, its timers, and where the
 * options begin. A place of 0 and a timer of 0 are told of a kind that has none; but a timer may be
 * 0 in a router advertisement too, where it says nothing (RFC 4861, section 4.2). The call does not
 * verify the checksum and does not walk the options: brothladder_receive does both.
 *
 *     struct brothladder_message m = brothladder_read_message(packet, length);
 *     if (m.answer == BROTHLADDER_MESSAGE && m.kind == BROTHLADDER_TYPE_NEIGHBOR_SOLICITATION)
 *         return look_up(packet + m.target_at);               // 16 bytes are there
 *
 * Refusals: 1, 2; 4 if the packet ends inside the fixed part. */
BROTHLADDER_ANSWER
struct brothladder_message brothladder_read_message(const uint8_t *packet, size_t length);

/* Put an option at place `at` of `out`, all of it or none, and return the place behind it as
 * `length`. To put several, pass the `length` of the last answer as the next `at`; what is then in
 * `out` up to there is the list:
 *
 *     struct brothladder_written w = brothladder_put_link_layer_address(
 *         BROTHLADDER_KIND_SOURCE_LINK_LAYER_ADDRESS, mine, out, room, 0);
 *     if (w.answer == BROTHLADDER_WRITTEN)
 *         w = brothladder_put_mtu(1500, out, room, w.length);
 *     if (w.answer != BROTHLADDER_WRITTEN)
 *         return -1;                          // a refused put has length 0: do not go on
 *
 * Each writes one option of RFC 4861, section 4.6, with 0 in its reserved bits, which walks to END
 * in each edition and which its own reader reads back. The prefix takes 32 bytes, the others 8. A
 * flag is set by any number but 0. The prefix length is not checked: it is one byte on the wire, so
 * that of a prefix that was read goes into the argument whole. The address is that of an Ethernet;
 * kind 2 writes a target's option, every other number a source's.
 * Refusals: 9 with the bytes of the option if there is no room for it from `at` on: `out` needs
 * `at` more. */
BROTHLADDER_ANSWER BROTHLADDER_ADDRESS(6)
struct brothladder_written brothladder_put_prefix(
    uint8_t prefix_length, uint16_t on_link, uint16_t autonomous, uint32_t valid_lifetime,
    uint32_t preferred_lifetime, const uint8_t prefix[16], uint8_t *out, size_t out_length,
    size_t at);

BROTHLADDER_ANSWER
struct brothladder_written brothladder_put_mtu(
    uint32_t mtu, uint8_t *out, size_t out_length, size_t at);

BROTHLADDER_ANSWER BROTHLADDER_ADDRESS(2)
struct brothladder_written brothladder_put_link_layer_address(
    uint32_t kind, const uint8_t address[6], uint8_t *out, size_t out_length, size_t at);

/* Write a packet whose payload stands in `packet` already, from its ninth byte on: the head with
 * the computed checksum is written to its first eight bytes, and nothing else is touched. What was
 * in these eight bytes is not looked at. The answer, and the packet, are those of brothladder_write
 * and of brothladder_write_clearing with packet + 8 as payload and another buffer as `out`:
 *
 *     uint8_t packet[8 + 24];
 *     memcpy(packet + 8, target, 16);
 *     w = brothladder_put_link_layer_address(BROTHLADDER_KIND_SOURCE_LINK_LAYER_ADDRESS, mine,
 *                                            packet, sizeof packet, 24);
 *     if (w.answer == BROTHLADDER_WRITTEN)
 *         w = brothladder_write_in_place_clearing(BROTHLADDER_TYPE_NEIGHBOR_SOLICITATION, 0, 0,
 *                                                 packet, w.length, source, destination, edition);
 *
 * Refusals, in this order: 3; then, for types 133 to 137 with code 0, 4 and 5, 6, 7 or 18; then 9,
 * with 8, if `packet` has fewer than 8 bytes. A refusal leaves `packet` as it was. */
BROTHLADDER_ANSWER BROTHLADDER_ADDRESSES(6, 7)
struct brothladder_written brothladder_write_in_place(
    uint8_t type, uint8_t code, uint32_t bytes5to8, uint8_t *packet, size_t length,
    const uint8_t source[16], const uint8_t destination[16], uint32_t edition);

BROTHLADDER_ANSWER BROTHLADDER_ADDRESSES(6, 7)
struct brothladder_written brothladder_write_in_place_clearing(
    uint8_t type, uint8_t code, uint32_t bytes5to8, uint8_t *packet, size_t length,
    const uint8_t source[16], const uint8_t destination[16], uint32_t edition);

/* Returns BROTHLADDER_VERSION. You need not call it: it is here to be referred to. `retain` keeps
 * the reference where the linker drops what nobody uses. */
uint32_t brothladder_version_6(void);

#if defined(__GNUC__) && !defined(BROTHLADDER_HEADER_ONLY)
#if defined(__has_attribute)
#if __has_attribute(retain)
#define BROTHLADDER_RETAIN __attribute__((retain))
#endif
#endif
#ifndef BROTHLADDER_RETAIN
#define BROTHLADDER_RETAIN
#endif
__attribute__((used)) BROTHLADDER_RETAIN static uint32_t (*const brothladder_version)(void) =
    brothladder_version_6;
#endif

#ifdef __cplusplus
}
#endif

#endif
