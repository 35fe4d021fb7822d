/* Keeps shelf W of document 01 in its own memory, as a firmware would, and plays a day on it: A, who
 * cables, asks from zone group 8, B, who looks after drives, from 9, and the portal's desk from 1.
 *
 * A request has two lines: who asks what, with the frame; and the number that the server tells, with
 * the response. A report has one. Bytes are in hex and in groups of four, since SMP counts in dwords.
 * At the end stands whether any word of the shelf is another than before.
 *
 * shelf_day.expected was worked out from what document 01, and document 02's #101 for the list of
 * stored peak events, #103 for H10 and #104 for an addition that was cut, say; it stands at each step.
 * firmware/run builds this program, runs it and compares.
 */
#include "kinubarsil.h"
#include "smp_gate.h"

#include <stdio.h>
#include <string.h>

struct asker {
    const char *name;
    uint32_t group;
};

static const struct asker A = {"A", 8}, B = {"B", 9}, desk = {"desk", 1}, nobody = {"group 32", 32};

/* What a firmware keeps. */
static struct smp_shelf shelf;
static uint8_t response[1028];

static struct smp_shelf before; /* the shelf before this step */

static void show(const uint8_t *bytes, size_t size)
{
    for (size_t i = 0; i < size; i++)
        printf("%s%02X", i > 0 && i % 4 == 0 ? " " : "", (unsigned)bytes[i]);
}

static void show_end(uint32_t told)
{
    if (smp_refused(told))
        printf(": H%u", (unsigned)smp_refusal(told));
    puts(memcmp(&before, &shelf, sizeof shelf) == 0 ? "; shelf as before" : "; shelf changed");
    before = shelf;
}

/* The link layer has a frame from a zone group. The response would go back to where it came from. */
static void request(struct asker from, const char *what, const uint8_t *frame, size_t size, size_t room)
{
    memset(response, 0xA5, sizeof response);
    uint32_t told = smp_serve(&shelf, from.group, frame, size, response, room);
    size_t length = smp_refused(told) ? 0 : told;
    printf("%s: %s: ", from.name, what);
    show(frame, size);
    printf("\n    %08X%s", (unsigned)told, length > 0 ? ": " : "");
    show(response, length);
    /* "The buffer past any response is unchanged"; a house refusal leaves all of it. */
    for (size_t i = length; i < sizeof response; i++)
        if (response[i] != 0xA5)
            printf("; byte %zu of the buffer changed", i);
    show_end(told);
}

#define ASK(from, what, ...) \
    request(from, what, (uint8_t[]){__VA_ARGS__}, sizeof(uint8_t[]){__VA_ARGS__}, sizeof response)

/* 06h: 4 bytes, the type in byte 2. */
static void list(struct asker from, const char *what, uint8_t type) { ASK(from, what, 0x40, 6, type, 0); }

/* 11h or 14h: 12 bytes, length 02h, the phy in byte 9. */
static void read_phy(struct asker from, const char *what, uint8_t function, uint8_t phy)
{
    ASK(from, what, 0x40, function, 0, 0x02, 0, 0, 0, 0, 0, phy, 0, 0);
}

/* 21h: 8 bytes, length 01h, the starting index in bytes 6 and 7. */
static void read_list(struct asker from, const char *what, uint8_t start)
{
    ASK(from, what, 0x40, 0x21, 0, 0x01, 0, 0, 0, start);
}

/* 91h: 40 bytes, length 09h, the change count in bytes 4 and 5, the operation in byte 10. */
static void control(struct asker from, const char *what, uint8_t count, uint8_t phy, uint8_t operation)
{
    uint8_t frame[40] = {0x40, 0x91, 0, 0x09, 0, count, 0, 0, 0, phy, operation, 0};
    request(from, what, frame, sizeof frame, sizeof response);
}

/* 93h of no descriptor, with bit 0 of byte 6: clear the phy's peaks. */
static void clear(struct asker from, const char *what, uint8_t count, uint8_t phy)
{
    ASK(from, what, 0x40, 0x93, 0, 0x02, 0, count, 0x01, 0, 0, phy, 0, 0);
}

/* What the link layer or the enclosure reports, and what the server tells. */
static void report(const char *what, uint32_t told)
{
    printf("%s: %08X", what, (unsigned)told);
    show_end(told);
}

static void event(uint32_t phy, uint32_t source, uint32_t amount)
{
    uint32_t told = smp_event(&shelf, phy, source, amount);
    printf("event on phy %u, source %02Xh, amount %u: %08X", (unsigned)phy, (unsigned)source, (unsigned)amount,
           (unsigned)told);
    if (smp_cut(told))
        printf(": cut");
    show_end(told);
}

static void reach(uint32_t group)
{
    uint32_t told = smp_reach(&shelf, group);
    printf("reach of %u: %08X", (unsigned)group, (unsigned)told);
    if (!smp_refused(told))
        printf(": %08Xh, %u", (unsigned)smp_reach_phys(told), (unsigned)smp_reach_number(told));
    show_end(told);
}

/* Shelf W, with this phy number, this group for phy 3 and this row for group 8: 4, 1 and 00000102h
 * are its own. "24 groups (those past the phy number are ignored)": 99 is none. */
static void start(const char *what, uint32_t number, uint32_t last_group, uint32_t row_8)
{
    const uint32_t groups[24] = {8, 8, 9, last_group, 99};
    const uint8_t identifier[8] = {1, 2, 3, 4, 5, 6, 7, 8};
    uint32_t table[32] = {0x00000002, 0xFFFFFFFF};
    for (int g = 2; g < 32; g++)
        table[g] = 0x00000002;
    table[8] = row_8;
    table[9] = 0x00000202;
    report(what, smp_start(&shelf, number, groups, table, identifier));
}

static void morning(void)
{
    puts("Morning. The memory holds anything.");
    memset(&shelf, 0x5A, sizeof shelf);
    before = shelf;
    /* "A refused start gives no device", and what was in the memory is there yet. */
    start("start, 25 phys", 25, 1, 0x00000102);                 /* H1: not 1 to 24 */
    start("start, phy 3 of group 32", 4, 32, 0x00000102);       /* H2: above 31 */
    start("start, 8 reaches 9, and 9 not 8", 4, 1, 0x00000302); /* H3: not symmetric */
    start("start, all three", 25, 32, 0x00000302);              /* "The lowest number that applies" */
    start("start, shelf W", 4, 1, 0x00000102);
    reach(8);  /* bits 1 and 8: phys 0, 1 and 3 */
    reach(9);  /* bits 1 and 9: phys 2 and 3 */
    reach(1);  /* "row 1 is all ones" */
    reach(32); /* "a group above 31 draws H4" */
    /* 36 bytes: "the change count is 0001h"; 9 number of phys, 12 to 19 identifier. */
    ASK(desk, "looks at the shelf", 0x40, 0, 0, 0);
}

static void monitors(void)
{
    puts("Each watches his own phys.");
    /* "request 12 + 8d bytes, length 2 + 2d": d is 2, and 0001h is the present count. */
    ASK(A, "phy 0, 2Dh from 10 on, and 01h", 0x40, 0x93, 0, 6, 0, 1, 0, 0, 0, 0, 0, 2,
        0, 0, 0, 0x2D, 0, 0, 0, 10, 0, 0, 0, 0x01, 0, 0, 0, 0);
    /* 0000h passes whatever the count is. */
    ASK(A, "phy 1, 2Bh from 200 on", 0x40, 0x93, 0, 4, 0, 0, 0, 0, 0, 1, 0, 1,
        0, 0, 0, 0x2B, 0, 0, 0, 200);
    ASK(B, "phy 2, 2Dh from 100 on", 0x40, 0x93, 0, 4, 0, 1, 0, 0, 0, 2, 0, 1,
        0, 0, 0, 0x2D, 0, 0, 0, 100);
    event(0, 0x2D, 9);   /* 9, below the threshold */
    event(0, 0x2D, 10);  /* "from below its threshold to it or above originates Expander 1h": entry 0001h */
    event(0, 0x2D, 12);  /* was not below */
    event(0, 0x2D, 4);   /* "peaks keep the larger" */
    event(0, 0x01, 5);   /* monitor 1, and the first error count */
    event(0, 0x03, 7);   /* no monitor, and the third error count */
    event(2, 0x2D, 100); /* B's peak crosses too: entry 0002h */
    event(1, 0x2B, 256); /* H9: "amount above FFh for 2Bh" */
    event(1, 0x07, 1);   /* H8: unsupported */
    event(4, 0x00, 1);   /* H7: four phys, numbered from 0; H8 would apply too */
    /* "Every non-zero count of that type that the source may see": Expander is type 4h. */
    list(desk, "what has happened", 0x04);
    list(A, "what has happened", 0x04);
    /* 64 bytes: 9 phy, 15 the number 4, then source, value and threshold of each monitor. */
    read_phy(B, "reads phy 2", 0x14, 2);
}

static void strangers(void)
{
    puts("A tries B's phy.");
    /* "Not reached: 16h PHY VACANT for 11h and 14h, 20h SMP ZONE VIOLATION for 91h and 93h" */
    read_phy(A, "reads phy 2", 0x14, 2);
    read_phy(A, "reads the errors of phy 2", 0x11, 2);
    clear(A, "clears phy 2 anyway", 0, 2);
    control(A, "disables phy 2 anyway", 0, 2, 0x03);
    /* The zone comes before the contents: he does not learn that there is no 07h. */
    ASK(A, "phy 2, 07h", 0x40, 0x93, 0, 4, 0, 0, 0, 0, 0, 2, 0, 1, 0, 0, 0, 0x07, 0, 0, 0, 0);
    read_phy(A, "reads phy 4", 0x14, 4); /* 10h PHY DOES NOT EXIST */
}

static void cable(void)
{
    puts("A cable is changed.");
    /* Change of phy 0 goes to 1, and "Change also moves the change count": 0002h. */
    report("link change on phy 0", smp_link_change(&shelf, 0));
    clear(A, "clears phy 0, with 0001h", 1, 0); /* 04h: "neither 0000h nor the present count" */
    clear(A, "clears phy 2, with 0001h", 1, 2); /* 04h comes before 20h */
    list(A, "what has changed", 0x00); /* the present count in bytes 4 and 5; Change is type 0h */
    /* "each of the phy's monitors on a peak source goes to 0", and "Expander 2h is originated once":
     * monitor 0 is stored with the 12 that it had, entry 0003h; 01h is no peak. */
    clear(A, "clears phy 0, with 0002h", 2, 0);
    list(A, "what has happened", 0x04);  /* "phys rising, then reason rising" */
    read_phy(A, "reads phy 0", 0x14, 0); /* the peak is 0; 01h counts and keeps its 5 */
    read_phy(B, "reads phy 2", 0x14, 2); /* nobody has wiped his peak */
    clear(B, "clears phy 2, having read it", 2, 2); /* entry 0004h */
}

static void controls(void)
{
    puts("A works on phy 0.");
    control(A, "disables it", 2, 0, 0x03);          /* it was enabled: Change, and the count is 0003h */
    control(A, "disables it again", 3, 0, 0x03);    /* "originates Change only if the phy was enabled" */
    control(A, "resets its link", 3, 0, 0x01);      /* "enables the phy and originates Change": 0004h */
    control(A, "an operation 02h", 0, 0, 0x02);     /* 13h: "any operation not named below" */
    list(desk, "what has changed", 0x00);           /* three times on phy 0 */
    list(B, "what has changed", 0x00);              /* the count, and no phy that he reaches */
    read_phy(A, "reads its errors", 0x11, 0);       /* invalid dwords at 12, lost sync. at 20 */
    control(A, "sets its errors to 0", 4, 0, 0x05); /* "sets the four error counts to 0" */
    /* "length 02h or 00h" */
    ASK(A, "reads its errors, length 00h", 0x40, 0x11, 0, 0, 0, 0, 0, 0, 0, 0, 0, 0);
    /* 17h: 07h is not supported. 2Eh is, and isn't set either. */
    ASK(A, "2Eh, and 07h", 0x40, 0x93, 0, 6, 0, 4, 0, 0, 0, 0, 0, 2,
        0, 0, 0, 0x2E, 0, 0, 0, 1, 0, 0, 0, 0x07, 0, 0, 0, 0);
}

static void stuck(void)
{
    puts("The disparity count of phy 0 sticks.");
    /* #104, "Say when an error count has stuck": the answer is "whether the exact sum was above
     * FFFFFFFFh". Source 02h is the second error count, which no monitor of phy 0 watches. */
    event(0, 0x02, 4294967294); /* FFFFFFFEh */
    event(0, 0x02, 1);          /* FFFFFFFFh exactly: not above it */
    event(0, 0x02, 0);          /* and 0 more */
    event(0, 0x02, 1);          /* above it: cut, and every number as it was */
    event(0, 0x02, 0);          /* "its own addition": this one was not */
    /* 01h is the first error count, at 0 since A set it; monitor 1, at 5 as before, wraps to 4. */
    event(0, 0x01, 4294967295);
    event(0, 0x05, 4294967295); /* "no" for sources that have no error count; no monitor watches it */
    read_phy(A, "reads its errors", 0x11, 0); /* FFFFFFFFh at 12 and at 16: the second was cut */
    read_phy(A, "reads its monitors", 0x14, 0);
    control(A, "sets its errors to 0", 4, 0, 0x05);
    event(0, 0x02, 7); /* exact again */
    read_phy(A, "reads its errors", 0x11, 0);
}

static void notices(void)
{
    puts("The device itself.");
    /* "two broadcast counts under FFh: Expander 3h (reduced functionality) and SES 0h" */
    report("reduced functionality notice", smp_notice(&shelf, false));
    report("SES notice", smp_notice(&shelf, true));
    list(B, "what has happened", 0x04); /* "FFh first, then phys rising"; not A's phy 0 */
    list(desk, "what SES says", 0x03);
    list(desk, "type 10h", 0x10); /* 02h: "a broadcast type above 0Fh" */
}

static void stored(void)
{
    puts("The desk reads the stored peak events.");
    /* 60 bytes: 4 and 5 the change count, 6 and 7 the first index returned, 8 and 9 the last index
     * stored, 10 the number 3, 11 the number of descriptors; then phy, source, value and threshold of
     * each, oldest first. The list outlives A's clear and B's. */
    read_list(desk, "the list, from 0001h", 1);
    read_list(desk, "the list, from 0003h", 3);
    read_list(desk, "the list, from 0005h", 5); /* not stored, none above it: "from the lowest stored index" */
    read_list(desk, "the list, from 0000h", 0); /* "returns index 0000h and none" */
    /* "The index tells about phys out of reach, so only source group 1 may ask" */
    read_list(A, "the list, from 0001h", 1);
    read_list(B, "the list, from 0001h", 1);
    /* 21h "comes directly after 03h", and 00h is no length of it. */
    ASK(A, "the list, length 00h", 0x40, 0x21, 0, 0x00, 0, 0, 0, 1);
}

/* A frame that is no request, and what the judge of smp_gate.h, which needs no shelf, says of it: the
 * same. */
static void no_request(const char *what, const uint8_t *frame, size_t size)
{
    request(B, what, frame, size, sizeof response);
    printf("the judge alone: H%u\n", (unsigned)smp_told_house(smp_judge_frame(frame, size)));
}

static void bad_frames(void)
{
    const uint8_t cut[3] = {0x40, 0x14, 0x00};
    const uint8_t fed_back[4] = {0x41, 0x14, 0x16, 0x00};
    puts("Frames that can't be answered, and frames that fail.");
    /* #103, "Tell a cut frame from a wrong one": H6 is "under 4 bytes", and H10 "first byte not 40h",
     * "directly after H6 and before any function result". */
    no_request("cut to 3 bytes", cut, 3);
    no_request("a response fed back", fed_back, 4);
    no_request("the same, cut to 3 bytes", fed_back, 3);
    ASK(B, "a response to function 02h", 0x41, 0x02, 0x01, 0); /* H10, and not 01h */
    /* With 40h it would be accepted: B reaches phy 2, 0000h passes, and a peak is watched. */
    ASK(B, "clears phy 2, with 41h", 0x41, 0x93, 0, 0x02, 0, 0, 0x01, 0, 0, 2, 0, 0);
    ASK(nobody, "looks at the shelf", 0x40, 0, 0, 0); /* H4: "source group above 31" */
    /* H5: "response buffer shorter than 1,028 bytes" */
    request(desk, "1,027 bytes for the response", (uint8_t[]){0x40, 0, 0, 0}, 4, 1027);
    request(nobody, "all three", cut, 3, 1027); /* the lowest of H4, H5 and H6 */
    request(desk, "1,027 bytes, for a response fed back", fed_back, 4, 1027); /* the lower of H5 and H10 */
    /* 03h: the true length is not 12 bytes. */
    ASK(B, "reads phy 2, cut to 11 bytes", 0x40, 0x14, 0, 2, 0, 0, 0, 0, 0, 2, 0);
    ASK(B, "a function 02h", 0x40, 0x02, 0, 0); /* 01h UNKNOWN SMP FUNCTION */
}

static void night(void)
{
    puts("Night.");
    start("start, 8 reaches 9, and 9 not 8", 4, 1, 0x00000302); /* H3, and the shelf runs on */
    ASK(desk, "looks at the shelf", 0x40, 0, 0, 0);
    start("start, shelf W", 4, 1, 0x00000102); /* "the change count is 0001h, every other number is 0" */
    list(desk, "what has happened", 0x04);
    read_list(desk, "the list, from 0001h", 1); /* "8 and 9 the last index stored (0000h if none)" */
}

int main(void)
{
    morning();
    monitors();
    strangers();
    cable();
    controls();
    stuck();
    notices();
    stored();
    bad_frames();
    night();
}
