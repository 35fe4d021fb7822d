/* The whole SMP management server of a leased disk shelf, for a C firmware that keeps the shelf in
 * its own memory.
 *
 * It is written in Rattle and proved (crates/host): each function returns exactly what its
 * definition says, and leaves the shelf and the lent buffer exactly as defined, for every argument
 * that keeps what is asked of C below, in refusals too. `.ci/build host` proves them and writes
 * target/staticlib/libhost.a, for x86-64, which holds them (crates/host_c) and refers to memset
 * alone. Nothing is kept between two calls but the shelf, and nothing is allocated. The two parts
 * that need no device (smp_gate.h) are in an archive of their own, libgate.a, which is linked beside
 * this one where they are wanted (shelf_day.c does so).
 *
 * The proof is of the Rattle source. It covers neither the compiler's back end nor this header,
 * which nothing compares with that source: tests/run tries both.
 */
#ifndef KINUBARSIL_H
#define KINUBARSIL_H

#include <stdbool.h>
#include <stddef.h>
#include <stdint.h>

#ifdef __cplusplus
extern "C" {
#define SMP_STATIC_ASSERT static_assert
#else
#define SMP_STATIC_ASSERT _Static_assert
#endif

/* The shelf in C's memory: 678 words of 32 bits and nothing between them, so that the server may
 * read it as such. The definition of the shelf that the words stand for is shelf_of in
 * crates/words/specs/Words.antt.
 *
 * A number that is narrower than 32 bits stands in the low bits of its word; its width is beside
 * it. The bits above are never read, and no call changes them, except a start, which sets them to
 * 0. So there is no content of these words that the server may not be given. On words that no start
 * made, a phy number above 24 counts as 24, and a phy whose group is above 31 is reached by nobody;
 * of the store, `count` % 32 is the place that is written next, `count` entries are kept, 32 at
 * most, and none where `last` is 0000h; after a `count` of 32 or more comes 32 + (count + 1) % 32;
 * and 21h shows `last` as the last index stored, whatever `count` is.
 */
struct smp_monitor {
    uint32_t source;    /* 8 bits: the event source */
    uint32_t value;     /* 32 bits */
    uint32_t threshold; /* 32 bits */
};

struct smp_phy {
    uint32_t group;   /* 32 bits: the zone group */
    uint32_t enabled; /* 1 bit: 1 enabled, 0 not */
    uint32_t errors[4]; /* 32 bits each: invalid dwords, disparity errors, lost synchronization, reset problems */
    struct smp_monitor monitors[4];
    uint32_t change0;   /* 16 bits: Change, reason 0h */
    uint32_t expander1; /* 16 bits: Expander, reason 1h: a peak has reached its threshold */
    uint32_t expander2; /* 16 bits: Expander, reason 2h: peaks have been cleared */
};

/* A stored peak event: a monitor as it stood when it reached its threshold or was cleared. Nothing
 * that is done to the phy later changes it. */
struct smp_entry {
    uint32_t phy; /* 8 bits: the phy that the monitor belongs to */
    struct smp_monitor monitor;
};

/* The last 32 peak events stand in `entries` as in a ring: each is written over the oldest. The
 * newest has the index `last`, the one before it the index before, and FFFFh comes before 0001h.
 * Only function 21h reads them, and only for zone group 1. */
struct smp_shelf {
    uint32_t number;    /* 32 bits: the phy number */
    uint32_t changes;   /* 16 bits: the expander change count */
    uint32_t expander3; /* 16 bits: Expander, reason 3h: reduced functionality, under FFh */
    uint32_t ses0;      /* 16 bits: SES, reason 0h, under FFh */
    uint32_t identifier[8]; /* 8 bits each: the enclosure identifier, byte by byte */
    uint32_t table[32]; /* 32 bits each: bit h of row g says that g reaches h */
    struct smp_phy phys[24];
    uint32_t last;  /* 16 bits: the last index stored, 0000h if none; after FFFFh comes 0001h */
    uint32_t count; /* 32 bits: how many were stored; after 63 comes 32 */
    struct smp_entry entries[32];
};

SMP_STATIC_ASSERT(offsetof(struct smp_monitor, value) == 4 * 1, "word 1 of a monitor");
SMP_STATIC_ASSERT(offsetof(struct smp_monitor, threshold) == 4 * 2, "word 2 of a monitor");
SMP_STATIC_ASSERT(sizeof(struct smp_monitor) == 4 * 3, "a monitor is 3 words");
SMP_STATIC_ASSERT(offsetof(struct smp_phy, enabled) == 4 * 1, "word 1 of a phy");
SMP_STATIC_ASSERT(offsetof(struct smp_phy, errors) == 4 * 2, "words 2 to 5 of a phy");
SMP_STATIC_ASSERT(offsetof(struct smp_phy, monitors) == 4 * 6, "words 6 to 17 of a phy");
SMP_STATIC_ASSERT(offsetof(struct smp_phy, change0) == 4 * 18, "word 18 of a phy");
SMP_STATIC_ASSERT(offsetof(struct smp_phy, expander1) == 4 * 19, "word 19 of a phy");
SMP_STATIC_ASSERT(offsetof(struct smp_phy, expander2) == 4 * 20, "word 20 of a phy");
SMP_STATIC_ASSERT(sizeof(struct smp_phy) == 4 * 21, "a phy is 21 words");
SMP_STATIC_ASSERT(offsetof(struct smp_entry, monitor) == 4 * 1, "words 1 to 3 of an entry");
SMP_STATIC_ASSERT(sizeof(struct smp_entry) == 4 * 4, "an entry is 4 words");
SMP_STATIC_ASSERT(offsetof(struct smp_shelf, changes) == 4 * 1, "word 1");
SMP_STATIC_ASSERT(offsetof(struct smp_shelf, expander3) == 4 * 2, "word 2");
SMP_STATIC_ASSERT(offsetof(struct smp_shelf, ses0) == 4 * 3, "word 3");
SMP_STATIC_ASSERT(offsetof(struct smp_shelf, identifier) == 4 * 4, "words 4 to 11");
SMP_STATIC_ASSERT(offsetof(struct smp_shelf, table) == 4 * 12, "words 12 to 43");
SMP_STATIC_ASSERT(offsetof(struct smp_shelf, phys) == 4 * 44, "words 44 to 547");
SMP_STATIC_ASSERT(offsetof(struct smp_shelf, last) == 4 * 548, "word 548");
SMP_STATIC_ASSERT(offsetof(struct smp_shelf, count) == 4 * 549, "word 549");
SMP_STATIC_ASSERT(offsetof(struct smp_shelf, entries) == 4 * 550, "words 550 to 677");
SMP_STATIC_ASSERT(sizeof(struct smp_shelf) == 4 * 678, "a shelf is 678 words");

/* What every function below asks of C, and nothing else is asked:
 *   - a pointer is not NULL, not even where a length beside it is 0, and is aligned for its type;
 *   - what it points to is there in full: the whole shelf, 24 groups, 32 rows, 8 bytes, or as many
 *     bytes as the length beside it says, all of which have been set before (to anything);
 *   - what is lent for writing (the shelf, `out`) overlaps with nothing else that the call is given;
 *   - nobody else changes any of it, or reads what is lent for writing, during the call.
 *
 * Every answer is one number. Bit 31 says that it is a house refusal, and the low bits then are its
 * number, 1 to 10 for H1 to H10; a house refusal leaves the shelf and the buffer as they were. Where
 * bit 31 is not set, the number is what the function's own comment says. The definition is in
 * crates/host/specs/Told.antt.
 *
 * smp_refusal tells the number of the refusal, 1 to 10, and 0 where there is none.
 */
static inline bool smp_refused(uint32_t told) { return told >> 31 == 1; }
static inline uint32_t smp_refusal(uint32_t told) { return smp_refused(told) ? told & 0xF : 0; }

/* A start: the fresh shelf is laid into C's memory. Tells 0; or H1, H2 or H3, and then there is no
 * shelf: the memory is as it was. The memory has been set before, to anything (calloc does, malloc
 * does not). A start takes less than 400 bytes of stack; every other function takes less than 200.
 *
 * number      phy number
 * groups      24 groups; those past the phy number are ignored
 * table       the thirty-two rows
 * identifier  the enclosure identifier
 */
uint32_t smp_start(struct smp_shelf *shelf, uint32_t number, const uint32_t groups[24],
                   const uint32_t table[32], const uint8_t identifier[8]);

/* One request. Tells the length of the response, which is 4 to 400, with the response in the first
 * bytes of `out`, the bytes past it unchanged, and the shelf as the request left it; or H4, H5, H6
 * or H10. H6 is a frame of under 4 bytes; H10 is one of 4 or more whose first byte is not 40h, such as
 * a response fed back (until #103 that was H6 too). A failed function result is a response too, of 4
 * bytes.
 *
 * source      the zone group that the request comes from
 * frame       the request's bytes as they came from the link layer, without CRC
 * size        how many bytes came
 * out         the response buffer
 * room        how many bytes it has: under 1,028 it is H5
 */
uint32_t smp_serve(struct smp_shelf *shelf, uint32_t source, const uint8_t *frame, size_t size,
                   uint8_t *out, size_t room);

/* An event report. Tells 0 where it is counted; 1 where it is counted and its own addition to an error
 * count was cut; or H7, H8 or H9. The numbers are taken whole, and not shortened to 8 bits.
 * docs/SOURCES.md lists the event sources, with their T10 names and largest amounts.
 *
 * Cut: the source is 01h to 04h, and the count before plus the amount was above FFFFFFFFh. The count
 * then stands at FFFFFFFFh, and is exact again only after a 91h with operation 05h, or a start. A sum
 * of exactly FFFFFFFFh is not cut, and a monitor that wraps is not. (Until #104 a report that was cut
 * was told 0 too: what asks for 0 has to ask smp_refused.) smp_cut says whether it was; no other
 * function tells 1. */
uint32_t smp_event(struct smp_shelf *shelf, uint32_t phy, uint32_t source, uint32_t amount);
static inline bool smp_cut(uint32_t told) { return told == 1; }

/* A link change on a phy. Tells 0; or H7. */
uint32_t smp_link_change(struct smp_shelf *shelf, uint32_t phy);

/* A device notice: false for reduced functionality, true for SES. It has no refusal: tells 0. */
uint32_t smp_notice(struct smp_shelf *shelf, bool ses);

/* The reach query for a source group. Tells the set of phys that it reaches in bits 0 to 23, bit p
 * for phy p, and how many they are in bits 24 to 28; or H4. The shelf is only read. */
uint32_t smp_reach(const struct smp_shelf *shelf, uint32_t source);
static inline uint32_t smp_reach_phys(uint32_t told) { return told & 0x00FFFFFF; }
static inline uint32_t smp_reach_number(uint32_t told) { return told >> 24 & 0x1F; }

#ifdef __cplusplus
}
#endif

#endif
