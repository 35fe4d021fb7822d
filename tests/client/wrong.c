/* Wrong servers, to see that the tools' transcript would tell them from the true one.
 *
 * Each is the true server with one fault before or behind it. The build has the linker put this
 * file between the shim and the archive (--wrap); KINUBARSIL_WRONG names the fault. tests/client/run
 * reads the names from the two tables at the end. Besides them, byte_11_27 is a server that has one
 * more in byte 27 of an accepted response to function 11h, and so on.
 */
#include "../../firmware/kinubarsil.h"

#include <stdio.h>
#include <stdlib.h>
#include <string.h>

enum { FRAME_ROOM = 2048, REFUSED_H6 = 0x6, REFUSED_H10 = 0xA };
enum { GENERAL = 0x00, BROADCAST = 0x06, ERROR_LOG = 0x11, PHY_EVENT = 0x14, EVENT_LIST = 0x21 };
enum { CONTROL = 0x91, CONFIGURE = 0x93 };

uint32_t __real_smp_serve(struct smp_shelf *shelf, uint32_t source, const uint8_t *frame, size_t size,
                          uint8_t *out, size_t room);
uint32_t __wrap_smp_serve(struct smp_shelf *shelf, uint32_t source, const uint8_t *frame, size_t size,
                          uint8_t *out, size_t room);
uint32_t __real_smp_event(struct smp_shelf *shelf, uint32_t phy, uint32_t source, uint32_t amount);
uint32_t __wrap_smp_event(struct smp_shelf *shelf, uint32_t phy, uint32_t source, uint32_t amount);

/* A request as it came, in bytes that a fault may change; those past its size are 0. */
struct asked {
    struct smp_shelf *shelf;
    uint32_t source;
    uint8_t frame[FRAME_ROOM];
    size_t size;
    uint8_t *out;
    size_t room;
};

static uint32_t truth(struct asked *a)
{
    return __real_smp_serve(a->shelf, a->source, a->frame, a->size, a->out, a->room);
}

static uint32_t failed(struct asked *a, uint8_t result)
{
    const uint8_t response[4] = {0x41, a->frame[1], result, 0};
    memcpy(a->out, response, sizeof response);
    return sizeof response;
}

static bool asks(const struct asked *a, uint8_t function) { return a->frame[1] == function; }
static bool writes(const struct asked *a) { return asks(a, CONTROL) || asks(a, CONFIGURE); }
static bool operates(const struct asked *a, uint8_t op) { return asks(a, CONTROL) && a->frame[10] == op; }
static bool is_peak(uint32_t source) { return source >= 0x2B && source <= 0x2E; }
static struct smp_phy *phy_of(struct asked *a) { return &a->shelf->phys[a->frame[9] % 24]; }
static bool accepted(struct asked *a, uint32_t told) { return !smp_refused(told) && a->out[2] == 0; }

/* A result in the place of another. */
static uint32_t swapped(struct asked *a, bool when, uint8_t from, uint8_t to)
{
    uint32_t told = truth(a);
    return when && !smp_refused(told) && a->out[2] == from ? failed(a, to) : told;
}

/* The desk, group 1, reaches everything. */
static uint32_t as_the_desk(struct asked *a, bool when)
{
    if (when && a->source < 32)
        a->source = 1;
    return truth(a);
}

/* The useless servers of document 01. */
static uint32_t refused(uint32_t number) { return 1u << 31 | number; }
static uint32_t refuses_everything(struct asked *a) { (void)a; return refused(REFUSED_H6); }
static uint32_t one_constant_frame(struct asked *a) { a->frame[1] = GENERAL; return failed(a, 0); }
static uint32_t only_says_yes(struct asked *a) { return failed(a, 0); }

static uint32_t stores_nothing(struct asked *a)
{
    struct smp_shelf before = *a->shelf;
    uint32_t told = truth(a);
    *a->shelf = before;
    return told;
}

/* The zone rule. */
static uint32_t reads_for_strangers(struct asked *a) { return as_the_desk(a, asks(a, ERROR_LOG)); }
static uint32_t monitors_for_strangers(struct asked *a) { return as_the_desk(a, asks(a, PHY_EVENT)); }
static uint32_t lists_for_strangers(struct asked *a) { return as_the_desk(a, asks(a, EVENT_LIST)); }
static uint32_t broadcasts_for_strangers(struct asked *a) { return as_the_desk(a, asks(a, BROADCAST)); }
static uint32_t clears_for_strangers(struct asked *a) { return as_the_desk(a, asks(a, CONFIGURE)); }
static uint32_t resets_for_strangers(struct asked *a) { return as_the_desk(a, asks(a, CONTROL)); }
static uint32_t vacant_to_writers(struct asked *a) { return swapped(a, writes(a), 0x20, 0x16); }
static uint32_t violated_by_readers(struct asked *a) { return swapped(a, !writes(a), 0x16, 0x20); }
static uint32_t cuts_the_group(struct asked *a) { a->source &= 31; return truth(a); }

/* A cut frame and a wrong one. */
static bool begins_otherwise(const struct asked *a) { return a->size > 0 && a->frame[0] != 0x40; }

/* Takes the frame for a request where it is none. */
static uint32_t overlooked(struct asked *a, bool when)
{
    if (when && begins_otherwise(a))
        a->frame[0] = 0x40;
    return truth(a);
}

static uint32_t takes_any_first_byte(struct asked *a) { return overlooked(a, true); }
static uint32_t refuses_responses_alone(struct asked *a) { return overlooked(a, a->frame[0] != 0x41); }

static uint32_t one_number_for_both(struct asked *a)
{
    uint32_t told = truth(a);
    return smp_refusal(told) == REFUSED_H10 ? refused(REFUSED_H6) : told;
}

static uint32_t first_byte_before_size(struct asked *a)
{
    return begins_otherwise(a) && a->size < 4 && a->source < 32 ? refused(REFUSED_H10) : truth(a);
}

/* Tries whether the function is known, which a copy of the shelf is enough for. */
static uint32_t first_byte_after_the_function(struct asked *a)
{
    struct asked tried = *a;
    struct smp_shelf copy = *a->shelf;
    tried.shelf = &copy;
    uint32_t told = takes_any_first_byte(&tried);
    return !smp_refused(told) && a->out[2] == 0x01 ? told : truth(a);
}

/* The change count. */
static uint32_t takes_any_count(struct asked *a)
{
    if (writes(a))
        a->frame[4] = a->frame[5] = 0;
    return truth(a);
}

static uint32_t takes_no_force(struct asked *a)
{
    bool forced = a->frame[4] == 0 && a->frame[5] == 0;
    return writes(a) && forced ? failed(a, 0x04) : truth(a);
}

/* Tries on a copy of the shelf whether the request would be refused for another reason. */
static uint32_t reach_before_count(struct asked *a)
{
    struct smp_shelf tried = *a->shelf;
    uint32_t told = truth(a);
    if (smp_refused(told) || a->out[2] != 0x04)
        return told;
    a->shelf = &tried;
    told = takes_any_count(a);
    return a->out[2] == 0x20 ? told : failed(a, 0x04);
}

static uint32_t hides_the_count(struct asked *a)
{
    uint32_t told = truth(a);
    if (told > 4 && !smp_refused(told))
        a->out[4] = a->out[5] = 0;
    return told;
}

/* The order and the contents of a 93h. */
static bool names_a_sata_source(const struct asked *a)
{
    for (int i = 0; asks(a, CONFIGURE) && i < a->frame[11]; i++)
        if (a->frame[12 + 8 * i + 3] == 0x50)
            return true;
    return false;
}

static uint32_t sources_before_reach(struct asked *a)
{
    return names_a_sata_source(a) ? failed(a, 0x17) : truth(a);
}

static uint32_t sources_before_number(struct asked *a)
{
    uint32_t told = truth(a);
    return names_a_sata_source(a) && a->out[2] == 0x02 ? failed(a, 0x17) : told;
}

/* Sets the first descriptor, and refuses the second. */
static uint32_t sets_before_judging(struct asked *a)
{
    uint32_t told = truth(a);
    if (asks(a, CONFIGURE) && a->out[2] == 0x17 && a->frame[11] == 2) {
        phy_of(a)->monitors[0].source = a->frame[15];
        phy_of(a)->monitors[0].value = 0;
    }
    return told;
}

static uint32_t takes_five(struct asked *a)
{
    if (asks(a, CONFIGURE) && a->frame[11] == 5) {
        a->frame[11] = 4;
        a->frame[3] = 10;
        a->size -= 8;
    }
    return truth(a);
}

/* The values after an accepted 93h: those before it if `keep`, else 0, on monitors that watch peaks or not. */
static uint32_t other_values(struct asked *a, bool peaks, bool keep)
{
    struct smp_phy before = *phy_of(a);
    uint32_t told = truth(a);
    for (int i = 0; asks(a, CONFIGURE) && accepted(a, told) && i < 4; i++) {
        struct smp_monitor *monitor = &phy_of(a)->monitors[i];
        if (is_peak(monitor->source) == peaks)
            monitor->value = keep ? before.monitors[i].value : 0;
    }
    return told;
}

static uint32_t never_clears(struct asked *a) { return other_values(a, true, true); }
static uint32_t always_clears(struct asked *a) { return other_values(a, true, false); }
static uint32_t clears_counters(struct asked *a) { return other_values(a, false, false); }
static uint32_t new_source_old_value(struct asked *a) { return other_values(a, false, true); }

static uint32_t clears_in_silence(struct asked *a)
{
    uint32_t before = phy_of(a)->expander2, told = truth(a);
    phy_of(a)->expander2 = before;
    return told;
}

/* 91h. */
static uint32_t disables_twice(struct asked *a)
{
    uint32_t before = a->shelf->changes, told = truth(a);
    if (operates(a, 0x03) && accepted(a, told) && a->shelf->changes == before)
        smp_link_change(a->shelf, a->frame[9]);
    return told;
}

static uint32_t resets_in_silence(struct asked *a)
{
    uint32_t before = a->shelf->changes, told = truth(a);
    if (operates(a, 0x01))
        a->shelf->changes = before;
    return told;
}

static uint32_t keeps_the_log(struct asked *a) { a->frame[10] = operates(a, 0x05) ? 0 : a->frame[10]; return truth(a); }
static uint32_t knows_hard_reset(struct asked *a) { a->frame[10] = operates(a, 0x02) ? 1 : a->frame[10]; return truth(a); }

static uint32_t log_takes_monitors(struct asked *a)
{
    uint32_t told = truth(a);
    for (int i = 0; operates(a, 0x05) && accepted(a, told) && i < 4; i++)
        phy_of(a)->monitors[i].value = 0;
    return told;
}

/* Lengths, and responses that are laid out otherwise. */
static uint32_t wants_length_two(struct asked *a)
{
    return asks(a, ERROR_LOG) && a->frame[3] == 0 ? failed(a, 0x03) : truth(a);
}

static uint32_t reads_eight_bytes(struct asked *a)
{
    if (asks(a, BROADCAST) && a->size == 8) {
        a->size = 4;
        a->frame[2] = a->frame[4];
        a->frame[3] = 0;
    }
    return truth(a);
}

static uint32_t fails_unknown(struct asked *a) { return swapped(a, true, 0x01, 0x02); }

/* Adds to a byte of an accepted response. */
static uint32_t other_byte(struct asked *a, uint8_t function, size_t place, uint8_t more)
{
    uint32_t told = truth(a);
    if (asks(a, function) && accepted(a, told) && place < told)
        a->out[place] = (uint8_t)(a->out[place] + more);
    return told;
}

static uint32_t one_phy_more(struct asked *a) { return other_byte(a, GENERAL, 9, 1); }
static uint32_t long_response(struct asked *a) { return other_byte(a, GENERAL, 8, 0x80); }
static uint32_t length_too_small(struct asked *a) { return other_byte(a, ERROR_LOG, 3, 0xFF); }
static uint32_t three_monitors(struct asked *a) { return other_byte(a, PHY_EVENT, 15, 0xFF); }
static uint32_t invents_a_descriptor(struct asked *a) { return other_byte(a, BROADCAST, 7, 1); }
static uint32_t invents_a_count(struct asked *a) { return other_byte(a, BROADCAST, 13, 1); }
static uint32_t descriptor_length(struct asked *a) { return other_byte(a, PHY_EVENT, 14, 3); }

/* Four bytes behind the response that its own length does not count. */
static uint32_t sends_a_crc(struct asked *a)
{
    uint32_t told = truth(a);
    return smp_refused(told) ? told : told + 4;
}

static uint32_t swaps_error_counts(struct asked *a)
{
    uint32_t told = truth(a);
    uint8_t disparity[4];
    if (asks(a, ERROR_LOG) && accepted(a, told)) {
        memcpy(disparity, a->out + 16, 4);
        memcpy(a->out + 16, a->out + 20, 4);
        memcpy(a->out + 20, disparity, 4);
    }
    return told;
}

/* The list of stored peak events. */
static uint32_t rights_before_length(struct asked *a)
{
    return asks(a, EVENT_LIST) && a->source != 1 && a->source < 32 ? failed(a, 0x21) : truth(a);
}

static uint32_t lists_from_the_first(struct asked *a)
{
    if (asks(a, EVENT_LIST))
        memcpy(a->frame + 6, (uint8_t[2]){0, 1}, 2);
    return truth(a);
}

/* A list of nothing where what comes first is not what was asked for. */
static uint32_t lists_stored_starts_only(struct asked *a)
{
    uint32_t told = truth(a);
    if (!asks(a, EVENT_LIST) || !accepted(a, told) || memcmp(a->out + 6, a->frame + 6, 2) == 0)
        return told;
    a->out[3] = 2;
    a->out[6] = a->out[7] = a->out[11] = 0;
    return 12;
}

/* As the published SAS-2 has it, and as the tool reads it: the number in byte 15, descriptors from 16. */
static uint32_t lists_as_published(struct asked *a)
{
    uint32_t told = truth(a);
    if (!asks(a, EVENT_LIST) || !accepted(a, told))
        return told;
    memmove(a->out + 16, a->out + 12, told - 12);
    memcpy(a->out + 12, (uint8_t[4]){0, 0, 0, a->out[11]}, 4);
    a->out[3] = (uint8_t)(a->out[3] + 1);
    a->out[11] = 0;
    return told + 4;
}

/* The entry that was stored `back` entries before the newest. */
static struct smp_entry *entry(struct smp_shelf *shelf, uint32_t back)
{
    return &shelf->entries[(shelf->count - 1 - back) % 32];
}

/* Takes the last index and the count back to what they were before. */
static void unstore(struct smp_shelf *shelf, const struct smp_shelf *before)
{
    shelf->last = before->last;
    shelf->count = before->count;
}

static uint32_t clears_unstored(struct asked *a)
{
    struct smp_shelf before = *a->shelf;
    uint32_t told = truth(a);
    unstore(a->shelf, &before);
    return told;
}

static uint32_t stores_after_the_clear(struct asked *a)
{
    uint32_t before = a->shelf->count, told = truth(a);
    for (uint32_t stored = a->shelf->count - before; stored > 0; stored--)
        entry(a->shelf, stored - 1)->monitor.value = 0;
    return told;
}

/* Reports: the true one, and then what the fault makes of the phy, of the store and of what is told. */
struct reported {
    struct smp_phy before;
    struct smp_phy *phy;
    uint32_t source, amount, told;
    struct smp_shelf *shelf;
    const struct smp_shelf *shelf_before;
};

static void errors_wrap(struct reported *r)
{
    if (r->source <= 4)
        r->phy->errors[r->source - 1] = r->before.errors[r->source - 1] + r->amount;
}

/* Another value for each monitor that watches the source, by what it was. */
static void other_value(struct reported *r, bool peaks, uint32_t (*value)(uint32_t before, uint32_t amount))
{
    for (int i = 0; is_peak(r->source) == peaks && i < 4; i++)
        if (r->phy->monitors[i].source == r->source)
            r->phy->monitors[i].value = value(r->before.monitors[i].value, r->amount);
}

static uint32_t sum(uint32_t before, uint32_t amount) { return before + amount; }
static uint32_t last(uint32_t before, uint32_t amount) { (void)before; return amount; }
static uint32_t stopped(uint32_t before, uint32_t amount) { return before + amount < before ? UINT32_MAX : before + amount; }

static void counters_stop(struct reported *r) { other_value(r, false, stopped); }
static void peaks_add(struct reported *r) { other_value(r, true, sum); }
static void peaks_keep_the_last(struct reported *r) { other_value(r, true, last); }
static void peaks_in_silence(struct reported *r) { r->phy->expander1 = r->before.expander1; }

static void logs_watched_only(struct reported *r)
{
    bool watched = false;
    for (int i = 0; i < 4; i++)
        watched = watched || r->phy->monitors[i].source == r->source;
    if (!watched)
        memcpy(r->phy->errors, r->before.errors, sizeof r->before.errors);
}

static void tells_each_time(struct reported *r)
{
    const struct smp_monitor *first = &r->phy->monitors[0];
    if (is_peak(r->source) && first->source == r->source)
        r->phy->expander1 = r->before.expander1 + (r->amount >= first->threshold);
}

/* Only a peak above its threshold, and not one that is equal to it. */
static void tells_above(struct reported *r)
{
    const struct smp_monitor *first = &r->phy->monitors[0];
    if (is_peak(r->source) && first->source == r->source)
        r->phy->expander1 = r->before.expander1 + (r->before.monitors[0].value <= first->threshold &&
                                                   r->amount > first->threshold);
}

static void crossings_unstored(struct reported *r) { unstore(r->shelf, r->shelf_before); }

static void stores_the_old_value(struct reported *r)
{
    if (r->shelf->count != r->shelf_before->count)
        entry(r->shelf, 0)->monitor.value = r->before.monitors[0].value;
}

/* Two that a report stored, in each other's place. */
static void stores_falling(struct reported *r)
{
    if (r->shelf->count == r->shelf_before->count + 2) {
        struct smp_entry newest = *entry(r->shelf, 0);
        *entry(r->shelf, 0) = *entry(r->shelf, 1);
        *entry(r->shelf, 1) = newest;
    }
}

/* Two that a report stored count as one. */
static void stores_one_of_several(struct reported *r)
{
    if (r->shelf->count == r->shelf_before->count + 2) {
        r->shelf->count--;
        r->shelf->last--;
    }
}

/* Every report on a peak that is watched. */
static void stores_uncrossed(struct reported *r)
{
    const struct smp_monitor *first = &r->phy->monitors[0];
    if (is_peak(r->source) && first->source == r->source && r->shelf->count == r->shelf_before->count) {
        r->shelf->count++;
        r->shelf->last++;
        *entry(r->shelf, 0) = (struct smp_entry){.phy = 0, .monitor = *first};
    }
}

static const struct {
    const char *name;
    uint32_t (*serve)(struct asked *);
} servers[] = {
    {"nothing", truth},
    {"refuses_everything", refuses_everything},
    {"one_constant_frame", one_constant_frame},
    {"only_says_yes", only_says_yes},
    {"stores_nothing", stores_nothing},
    {"reads_for_strangers", reads_for_strangers},
    {"monitors_for_strangers", monitors_for_strangers},
    {"lists_for_strangers", lists_for_strangers},
    {"broadcasts_for_strangers", broadcasts_for_strangers},
    {"clears_for_strangers", clears_for_strangers},
    {"resets_for_strangers", resets_for_strangers},
    {"vacant_to_writers", vacant_to_writers},
    {"violated_by_readers", violated_by_readers},
    {"cuts_the_group", cuts_the_group},
    {"takes_any_first_byte", takes_any_first_byte},
    {"refuses_responses_alone", refuses_responses_alone},
    {"one_number_for_both", one_number_for_both},
    {"first_byte_before_size", first_byte_before_size},
    {"first_byte_after_the_function", first_byte_after_the_function},
    {"takes_any_count", takes_any_count},
    {"takes_no_force", takes_no_force},
    {"reach_before_count", reach_before_count},
    {"hides_the_count", hides_the_count},
    {"sources_before_reach", sources_before_reach},
    {"sources_before_number", sources_before_number},
    {"sets_before_judging", sets_before_judging},
    {"takes_five", takes_five},
    {"never_clears", never_clears},
    {"always_clears", always_clears},
    {"clears_counters", clears_counters},
    {"new_source_old_value", new_source_old_value},
    {"clears_in_silence", clears_in_silence},
    {"disables_twice", disables_twice},
    {"resets_in_silence", resets_in_silence},
    {"keeps_the_log", keeps_the_log},
    {"knows_hard_reset", knows_hard_reset},
    {"log_takes_monitors", log_takes_monitors},
    {"wants_length_two", wants_length_two},
    {"reads_eight_bytes", reads_eight_bytes},
    {"fails_unknown", fails_unknown},
    {"one_phy_more", one_phy_more},
    {"long_response", long_response},
    {"length_too_small", length_too_small},
    {"three_monitors", three_monitors},
    {"invents_a_descriptor", invents_a_descriptor},
    {"invents_a_count", invents_a_count},
    {"descriptor_length", descriptor_length},
    {"sends_a_crc", sends_a_crc},
    {"swaps_error_counts", swaps_error_counts},
    {"rights_before_length", rights_before_length},
    {"lists_from_the_first", lists_from_the_first},
    {"lists_stored_starts_only", lists_stored_starts_only},
    {"lists_as_published", lists_as_published},
    {"clears_unstored", clears_unstored},
    {"stores_after_the_clear", stores_after_the_clear},
};

/* An error count that has stuck. */
static uint64_t exact_sum(const struct reported *r) { return (uint64_t)r->before.errors[(r->source - 1) % 4] + r->amount; }
static bool has_error_count(const struct reported *r) { return r->source >= 1 && r->source <= 4; }
static bool was_full(const struct reported *r) { return has_error_count(r) && r->before.errors[r->source - 1] == UINT32_MAX; }

static void never_tells_a_cut(struct reported *r) { r->told = 0; }
static void cut_told_a_report_later(struct reported *r) { r->told = was_full(r); }
static void cut_at_the_most(struct reported *r) { r->told |= has_error_count(r) && r->amount > 0 && exact_sum(r) == UINT32_MAX; }
static void cut_where_nothing_is_added(struct reported *r) { r->told |= was_full(r); }
static void cut_of_other_sources(struct reported *r) { r->told |= exact_sum(r) > UINT32_MAX; }

static void cut_where_a_monitor_wraps(struct reported *r)
{
    for (int i = 0; !is_peak(r->source) && i < 4; i++)
        r->told |= r->phy->monitors[i].source == r->source && r->phy->monitors[i].value < r->before.monitors[i].value;
}

static const struct {
    const char *name;
    void (*report)(struct reported *);
} reports[] = {
    {"errors_wrap", errors_wrap},
    {"counters_stop", counters_stop},
    {"peaks_add", peaks_add},
    {"peaks_keep_the_last", peaks_keep_the_last},
    {"peaks_in_silence", peaks_in_silence},
    {"logs_watched_only", logs_watched_only},
    {"tells_each_time", tells_each_time},
    {"tells_above", tells_above},
    {"crossings_unstored", crossings_unstored},
    {"stores_the_old_value", stores_the_old_value},
    {"stores_falling", stores_falling},
    {"stores_one_of_several", stores_one_of_several},
    {"stores_uncrossed", stores_uncrossed},
    {"never_tells_a_cut", never_tells_a_cut},
    {"cut_told_a_report_later", cut_told_a_report_later},
    {"cut_at_the_most", cut_at_the_most},
    {"cut_where_nothing_is_added", cut_where_nothing_is_added},
    {"cut_of_other_sources", cut_of_other_sources},
    {"cut_where_a_monitor_wraps", cut_where_a_monitor_wraps},
};

static const char *fault_name(void)
{
    const char *name = getenv("KINUBARSIL_WRONG");
    return name != NULL ? name : "";
}

static bool names_a_byte(unsigned *function, unsigned *place)
{
    return sscanf(fault_name(), "byte_%2x_%2u", function, place) == 2;
}

static uint32_t one_more(struct asked *a)
{
    unsigned function, place;
    return names_a_byte(&function, &place) ? other_byte(a, (uint8_t)function, place, 1) : truth(a);
}

/* The place of the fault's name among the servers, and behind them the reports; of a byte, that of
 * the server with no fault. Any other name is an error: it would be the true server. */
static size_t fault(void)
{
    const size_t number = sizeof servers / sizeof *servers, all = number + sizeof reports / sizeof *reports;
    unsigned function, place;
    if (names_a_byte(&function, &place))
        return 0;
    for (size_t i = 0; i < all; i++)
        if (strcmp(fault_name(), i < number ? servers[i].name : reports[i - number].name) == 0)
            return i;
    fputs("KINUBARSIL_WRONG names no fault\n", stderr);
    abort();
}

uint32_t __wrap_smp_serve(struct smp_shelf *shelf, uint32_t source, const uint8_t *frame, size_t size,
                          uint8_t *out, size_t room)
{
    size_t place = fault();
    struct asked asked = {.shelf = shelf, .source = source, .size = size, .out = out, .room = room};
    if (place >= sizeof servers / sizeof *servers || size > FRAME_ROOM)
        return __real_smp_serve(shelf, source, frame, size, out, room);
    memcpy(asked.frame, frame, size);
    return place == 0 ? one_more(&asked) : servers[place].serve(&asked);
}

uint32_t __wrap_smp_event(struct smp_shelf *shelf, uint32_t phy, uint32_t source, uint32_t amount)
{
    size_t place = fault(), number = sizeof servers / sizeof *servers;
    const struct smp_shelf before = *shelf;
    struct reported reported = {.phy = &shelf->phys[phy % 24], .source = source, .amount = amount,
                                .shelf = shelf, .shelf_before = &before};
    reported.before = *reported.phy;
    reported.told = __real_smp_event(shelf, phy, source, amount);
    if (place >= number && !smp_refused(reported.told))
        reports[place - number].report(&reported);
    return reported.told;
}
