/* Shows the two parts that need no device on good, cut and wrong frames, and on rows.
 *
 * gate_demo.expected has what document 01, and document 02's #101 for function 21h and #103 for H10,
 * say of each.
 * firmware/run builds this program, runs it and compares.
 */
#include "smp_gate.h"

#include <stdio.h>
#include <string.h>

/* One line: the frame, and what is told of it. Of a long frame the first 12 bytes are shown. */
static void judge(const char *what, const uint8_t *frame, size_t size)
{
    uint32_t told = smp_judge_frame(frame, size);
    printf("%s:", what);
    for (size_t i = 0; i < size && i < 12; i++)
        printf(" %02X", (unsigned)frame[i]);
    if (size > 12)
        printf(" .. (%zu bytes)", size);
    printf("\n    %08X: ", (unsigned)told);
    if (smp_told_has_function(told))
        printf("function %02Xh, ", (unsigned)smp_told_function(told));
    else
        printf("no function to tell, ");
    if (smp_told_house(told) != 0)
        printf("H%d\n", smp_told_house(told));
    else if (smp_told_result(told) != 0)
        printf("result %02Xh\n", (unsigned)smp_told_result(told));
    else
        printf("%s\n", smp_told_nothing_wrong(told) ? "nothing wrong" : "?");
}

/* A 93h of `size` bytes with this length in byte 3 and this number of descriptors in byte 11. */
static void judge_configure(const char *what, size_t size, uint8_t length, uint8_t descriptors)
{
    static uint8_t frame[2048];
    memset(frame, 0, sizeof frame);
    frame[0] = 0x40;
    frame[1] = 0x93;
    frame[3] = length;
    frame[11] = descriptors;
    judge(what, frame, size);
}

static void reach(uint32_t row, uint32_t group)
{
    printf("row %08X, group %u: %s\n", (unsigned)row, (unsigned)group,
           smp_row_reaches(row, group) ? "yes" : "no");
}

int main(void)
{
    static const uint8_t general[] = {0x40, 0x00, 0x00, 0x00};
    static const uint8_t unknown[] = {0x40, 0x02, 0x00, 0x00};
    static const uint8_t phy_event[] = {0x40, 0x14, 0, 0x02, 0, 0, 0, 0, 0, 2, 0, 0};
    static const uint8_t phy_event_00[] = {0x40, 0x14, 0, 0x00, 0, 0, 0, 0, 0, 2, 0, 0};
    static const uint8_t error_log[] = {0x40, 0x11, 0, 0x02, 0, 0, 0, 0, 0, 4, 0, 0};
    static const uint8_t error_log_00[] = {0x40, 0x11, 0, 0x00, 0, 0, 0, 0, 0, 0, 0, 0};
    static const uint8_t response[] = {0x41, 0x14, 0x16, 0x00};
    static const uint8_t unknown_response[] = {0x41, 0x02, 0x01, 0x00};
    static const uint8_t phy_event_c0[] = {0xC0, 0x14, 0, 0x02, 0, 0, 0, 0, 0, 2, 0, 0};
    static const uint8_t zeros[39] = {0};
    static const uint8_t manufacturer[] = {0x40, 0x01, 0x00, 0x00};
    static const uint8_t broadcast[] = {0x40, 0x06, 0x04, 0x00};
    static const uint8_t event_list[12] = {0x40, 0x21, 0, 0x01, 0, 0, 0x00, 0x01};
    static const uint8_t event_list_00[8] = {0x40, 0x21, 0, 0x00, 0, 0, 0x00, 0x01};
    static const uint8_t event_list_02[12] = {0x40, 0x21, 0, 0x02, 0, 0, 0x00, 0x01};
    static const uint8_t control[40] = {0x40, 0x91, 0, 0x09};
    static const uint8_t control_00[40] = {0x40, 0x91, 0, 0x00};

    puts("Good frames.");
    judge("REPORT GENERAL", general, sizeof general);
    judge("REPORT MANUFACTURER INFORMATION", manufacturer, sizeof manufacturer);
    judge("REPORT BROADCAST, case 9", broadcast, sizeof broadcast);
    judge("REPORT PHY EVENT, case 2", phy_event, sizeof phy_event);
    judge("REPORT PHY ERROR LOG, case 4", error_log_00, sizeof error_log_00);
    judge("REPORT PHY ERROR LOG of a phy that is judged later, case 5", error_log, sizeof error_log);
    judge("REPORT PHY EVENT LIST from 0001h, whoever may ask", event_list, 8);
    judge("PHY CONTROL", control, sizeof control);
    judge("PHY CONTROL with length 00h", control_00, sizeof control_00);
    judge_configure("CONFIGURE PHY EVENT of no descriptor", 12, 0x02, 0);
    judge_configure("CONFIGURE PHY EVENT of two descriptors", 28, 0x06, 2);
    judge_configure("CONFIGURE PHY EVENT of 126, the most that byte 3 can say", 1020, 0xFE, 126);

    puts("Cut frames.");
    judge("nothing", general, 0);
    judge("three bytes, case 6", unknown, 3);
    judge("three bytes of a response", response, 3);
    judge("REPORT PHY EVENT of 11 bytes", phy_event, 11);
    judge("REPORT PHY EVENT LIST of 7 bytes", event_list, 7);
    judge("PHY CONTROL of 39 bytes", control, 39);
    judge_configure("CONFIGURE PHY EVENT of 11 bytes", 11, 0x02, 0);
    judge_configure("CONFIGURE PHY EVENT of two descriptors, the second cut", 27, 0x06, 2);

    puts("Wrong frames.");
    judge("function 02h, case 6", unknown, sizeof unknown);
    judge("a response fed back", response, sizeof response);
    judge("a response of function 02h", unknown_response, sizeof unknown_response);
    judge("REPORT PHY EVENT but for the first byte, which is C0h", phy_event_c0, sizeof phy_event_c0);
    judge("39 bytes of 00h", zeros, sizeof zeros);
    judge("REPORT PHY EVENT with length 00h, case 3", phy_event_00, sizeof phy_event_00);
    judge("REPORT PHY EVENT LIST with length 00h", event_list_00, sizeof event_list_00);
    judge("REPORT PHY EVENT LIST of 12 bytes", event_list, sizeof event_list);
    judge("REPORT PHY EVENT LIST of 12 bytes, as byte 3 says", event_list_02, sizeof event_list_02);
    judge_configure("CONFIGURE PHY EVENT whose byte 3 says one descriptor more", 28, 0x08, 2);
    judge_configure("CONFIGURE PHY EVENT of 127: 2 + 2d is 256, and 00h is not 256", 1028, 0x00, 127);

    puts("Rows.");
    reach(0x00000102, 1);
    reach(0x00000102, 8);
    reach(0x00000102, 9);
    reach(0x00000102, 40);
    reach(0x00000102, 264);
    reach(0xFFFFFFFF, 0);
    reach(0xFFFFFFFF, 31);
    reach(0xFFFFFFFF, 32);
    reach(0xFFFFFFFF, 4294967295u);
    reach(0x00000000, 0);
    return 0;
}
