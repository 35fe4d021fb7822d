/* Makes a shelf file and plays on it what no SMP request can: reports of the hardware. The tools,
 * with the shim preloaded, then send their requests to that shelf.
 *
 * It also sends a frame as it is written, for what no tool asks in document 01's layout.
 */
#define _GNU_SOURCE
#include "shelf_file.h"

#include <fcntl.h>
#include <stdio.h>
#include <stdlib.h>
#include <string.h>
#include <unistd.h>

enum { RESPONSE_ROOM = 1028, FRAME_ROOM = 2048, DONE = 0, REFUSED = 1, WRONG_USE = 2 };

static const char usage[] =
    "shelf FILE start                     a fresh shelf W\n"
    "shelf FILE event PHY SOURCE AMOUNT   an event report\n"
    "shelf FILE link PHY                  a link change\n"
    "shelf FILE notice reduced|ses        a device notice\n"
    "shelf FILE reach GROUP               the reach query\n"
    "shelf FILE frame GROUP HEX           a request frame, without CRC, from a zone group\n"
    "Numbers are decimal, or hexadecimal behind 0x.\n";

static bool is(const char *text, const char *word) { return strcmp(text, word) == 0; }

static bool number_of(const char *text, uint32_t *number)
{
    char *end;
    errno = 0;
    unsigned long read = strtoul(text, &end, 0);
    *number = (uint32_t)read;
    return errno == 0 && end != text && *end == '\0' && read <= UINT32_MAX;
}

/* Up to `most` numbers; false if one is no number. */
static bool numbers_of(int count, char **texts, uint32_t *numbers, int most)
{
    if (count > most)
        return false;
    for (int i = 0; i < count; i++)
        if (!number_of(texts[i], &numbers[i]))
            return false;
    return true;
}

/* Says a refusal, or nothing. */
static int outcome(uint32_t told)
{
    if (!smp_refused(told))
        return DONE;
    printf("refused: H%u\n", (unsigned)smp_refusal(told));
    return REFUSED;
}

static int usage_error(void)
{
    fputs(usage, stderr);
    return WRONG_USE;
}

/* Document 01, "Shelf W, for checking". */
static int start(struct smp_shelf *shelf)
{
    static const uint32_t groups[24] = {8, 8, 9, 1};
    static const uint8_t identifier[8] = {1, 2, 3, 4, 5, 6, 7, 8};
    uint32_t table[32] = {1u << 1, 0xFFFFFFFF};
    for (int group = 2; group < 32; group++)
        table[group] = 1u << 1;
    table[8] |= 1u << 8;
    table[9] |= 1u << 9;
    return outcome(smp_start(shelf, 4, groups, table, identifier));
}

static int event(struct smp_shelf *shelf, uint32_t phy, uint32_t source, uint32_t amount)
{
    uint32_t told = smp_event(shelf, phy, source, amount);
    if (smp_cut(told))
        puts("cut");
    return outcome(told);
}

static int reach(const struct smp_shelf *shelf, uint32_t source)
{
    uint32_t told = smp_reach(shelf, source);
    if (!smp_refused(told))
        printf("%08Xh, %u\n", (unsigned)smp_reach_phys(told), (unsigned)smp_reach_number(told));
    return outcome(told);
}

/* The bytes that hexadecimal digits spell, two to a byte; -1 if they don't. */
static int bytes_of(const char *digits, uint8_t *bytes)
{
    size_t size = strlen(digits);
    if (size % 2 != 0 || size / 2 > FRAME_ROOM || strspn(digits, "0123456789abcdefABCDEF") != size)
        return -1;
    for (size_t i = 0; i < size / 2; i++) {
        char byte[3] = {digits[2 * i], digits[2 * i + 1], '\0'};
        bytes[i] = (uint8_t)strtoul(byte, NULL, 16);
    }
    return (int)(size / 2);
}

static int frame(struct smp_shelf *shelf, uint32_t source, const char *digits)
{
    static uint8_t request[FRAME_ROOM], response[RESPONSE_ROOM];
    int size = bytes_of(digits, request);
    if (size < 0)
        return usage_error();
    uint32_t told = smp_serve(shelf, source, request, (size_t)size, response, sizeof response);
    for (uint32_t i = 0; !smp_refused(told) && i < told; i++)
        printf("%02X%s", (unsigned)response[i], i + 1 == told ? "\n" : " ");
    return outcome(told);
}

static int operation(struct smp_shelf *shelf, const char *name, int count, char **texts)
{
    uint32_t number[3];
    if (is(name, "start") && count == 0)
        return start(shelf);
    if (is(name, "notice") && count == 1 && (is(texts[0], "reduced") || is(texts[0], "ses")))
        return outcome(smp_notice(shelf, is(texts[0], "ses")));
    if (is(name, "frame") && count == 2 && number_of(texts[0], number))
        return frame(shelf, number[0], texts[1]);
    if (!numbers_of(count, texts, number, 3))
        return usage_error();
    if (is(name, "event") && count == 3)
        return event(shelf, number[0], number[1], number[2]);
    if (is(name, "link") && count == 1)
        return outcome(smp_link_change(shelf, number[0]));
    if (is(name, "reach") && count == 1)
        return reach(shelf, number[0]);
    return usage_error();
}

int main(int count, char **texts)
{
    if (count < 3)
        return usage_error();
    bool fresh = is(texts[2], "start");
    int fd = open(texts[1], fresh ? O_RDWR | O_CREAT : O_RDWR, 0644);
    /* A start lays a whole shelf: whatever the file was, it gets a shelf's size first. */
    if (fd < 0 || (fresh && ftruncate(fd, sizeof(struct smp_shelf)) != 0)) {
        perror(texts[1]);
        return WRONG_USE;
    }
    struct smp_shelf *shelf = shelf_lock(fd);
    if (shelf == NULL) {
        perror(texts[1]);
        return WRONG_USE;
    }
    int result = operation(shelf, texts[2], count - 3, texts + 3);
    shelf_unlock(fd, shelf);
    return result;
}
