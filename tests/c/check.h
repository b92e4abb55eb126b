/* Counted checks, and memory to lend whose edges are watched. */
#ifndef CHECK_H
#define CHECK_H
#include "brothladder.h"

extern unsigned long passed, failed;

/* Counts, and prints the first failures. */
void check(int holds, const char *what, const char *detail);

/* Numbers that must be the same. */
void same(const char *what, uint64_t got, uint64_t wanted);

/* Answers that must be the same, number by number: the structs have no hole. */
void same_answer(const char *what, const void *got, const void *wanted, size_t size);

/* Room for one lent buffer, between two pages that cannot be touched: a byte read or written behind its end (or before its start,
   for LOW) ends the program. The bytes on its other side are guards. In the middle, at an odd address, at one that 4 divides and 8 does not, or at one that
   8 divides and 16 does not, guards are on both sides. */
enum side { LOW, HIGH, ODD, FOURTH, EIGHTH };
enum room { PACKET, SOURCE, DESTINATION, OUT, RESULT, ROOMS };
enum { ROOM_BYTES = 18 * 4096, GUARD_BYTES = 64 };

/* A copy of the bytes in a room, as something to lend. */
uint8_t *lend(enum room room, enum side side, const uint8_t *bytes, size_t length);

/* The same in memory that can only be read: a byte written anywhere in the room ends the program. */
const uint8_t *lend_to_read(enum room room, enum side side, const uint8_t *bytes, size_t length);

/* The bytes that were lent last in a room. */
const uint8_t *lent_bytes(enum room room);

/* Whether the guards of a room stand, and its lent bytes are these. */
int stands(enum room room, const uint8_t *bytes, size_t length);

/* Numbers by chance, the same at every run. */
uint64_t chance(void);
uint32_t below(uint32_t n);

/* A refusal of any call: the structs begin alike. */
struct refused {
    uint32_t answer, refusal;
    uint64_t value[5];
};

/* Whether an answer is this refusal, and says nothing else. */
void refuses(const char *what, const void *answer, size_t size, uint32_t number, uint64_t v0, uint64_t v1, uint64_t v2, uint64_t v3,
             uint64_t v4);

/* The bytes of a case, written as in docs/RULES.md. */
size_t hex(const char *text, uint8_t *bytes);

/* Option bytes that are refused, with the refusal; behind its values comes the place. The last ones are refused in the second edition alone. */
enum { BAD_OPTIONS = 16, BAD_IN_BOTH = 9 };
extern const struct bad_option {
    const char *bytes;
    uint32_t number;
    uint64_t value[3];
} bad_options[BAD_OPTIONS];

/* Whether an answer is the refusal of these option bytes, at this place of the packet, and says nothing else. */
void refuses_option(const void *answer, size_t size, const struct bad_option *option, uint64_t place);

/* The last place that a packet can have. */
#define LAST_PLACE 4294967295u

extern const uint8_t none[16], router[16], all_routers[16];

/* Counts an answer that chance brought about. */
void note(uint32_t answer, uint32_t refusal, uint64_t value);

/* Whether each of these numbers came often enough that a comparison says something. */
void often(const char *what, const unsigned long *counts, const char *numbers);

/* An edition by chance: the second half of the time, else the first by its number or by another one, which is the first too. */
uint32_t some_edition(void);

/* Walks a list in both editions and sees that they go together (docs/RULES.md E7, E8); and, after a run, whether that was often of each way. */
void both_editions(const uint8_t *options, size_t length, size_t offset);
void editions_compared(void);

/* Whether figures are printed too. */
#ifndef REPORT
#define REPORT 0
#endif

/* How many packets chance brings about. */
#ifndef PACKETS
#define PACKETS 100000
#endif

/* Writes what a packet says into some room, by the library and by plain C. */
enum { LONGEST = 400 };
void write_again(const uint8_t *packet, size_t n, const uint8_t *source, const uint8_t *destination);

/* Passes a packet on that was received in an edition, and sends it as one's own; and whether those that were had reserved bits to keep. */
void pass_on(const uint8_t *packet, size_t n, const uint8_t *source, const uint8_t *destination, uint32_t edition);
void passed_on(void);

/* A type that looks at the size of its options, or has a reader; and an option of a type by chance, mostly of a size that its rule takes: its length, which is
   at most 40. */
uint8_t some_type(void);
size_t some_option(uint8_t type, uint8_t *p);

/* Every option that the second edition looks at, and the types beside them: eleven numbers of units, every prefix length and every flags byte,
   each lent and handed to `whole` with the same bytes; and for each prefix length, with the flags ff, the bytes to `other`, to lend as many as it wants. */
enum { MOST_OPTION = 8 * 255 };
void each_newer(void (*whole)(const uint8_t *lent, const uint8_t *bytes, size_t n), void (*other)(const uint8_t *bytes, size_t n));

/* Up to four options in good order, but for some routes and servers, and bytes that are damaged; the length of what is there. */
size_t some_options(uint8_t *p);
size_t damage(uint8_t *p, size_t n);

/* A message in good order: mostly Neighbor Discovery, with the addresses that its type wants. */
size_t some_message(uint8_t *p, uint8_t *source, uint8_t *destination);

void composed(void); /* bytes 4 to 7 put together and taken apart by the header's functions, beside the library; the texts */
void placed(void);  /* each call at three places of memory, on a small stack, and the table of members */
void every(void);   /* packets through every call, beside plain C; tests/c/fuzz runs more of them */
void linear(void);  /* each call at three lengths, its instructions counted */
void fields(void);  /* where each field of a head stands */
void cases(void);   /* the worked cases P1 to P13, every refusal, edges */
void writes(void);  /* the packet writer */
void forwards(void); /* packets that are passed on */
void lengths(void); /* where a piece of the sum ends */
void windows(void); /* what the checksum catches of real packets that were changed */
void editions(void); /* what the second edition looks at, every number of an edition */
void sums(void);    /* sums of several parts */
void adders(void);  /* each wider sum and the wider verdict beside the plain ones, at every alignment */
void updates(void); /* 1,000,000 words changed, beside a fresh checksum */
void newer(void);   /* routes, servers and the preference, read by themselves */
void joined(void);  /* option lists cut at every place */
void damaged(void); /* 100,000 packets, random and damaged, beside plain.c */
void indexes(void); /* the index beside the options, and lists that are grown */
void splits(void);  /* plans: the worked cases of area Z, all small ones, and 100,000 by chance beside plain_plans.c */
void parts(void);   /* the options that are read and put, the fixed parts, packets written in place */
void quotes(void);  /* packets quoted in packets: the worked cases of area Q, and 100,000 nests beside plain.c */
#endif
