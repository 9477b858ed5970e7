/*
 * Tests the boundary of the library from C: boundary [stop].
 * With an argument it ends at the first group that fails.
 */
#include "groups.h"

#include <stdio.h>

#ifdef WRONG_EXPECTATION
/* Built only to see that a wrong expectation makes the test fail. */
static void wrong_expectation(void)
{
    give_noise(SHEET, 0);
    label("an empty sheet is not fault", 12);
    expect(ASK_SHEET, T24_SHEET_KIND);
}
#endif

/* Quick ones first, so that one that fails is soon seen. */
static const struct group groups[] = {
#ifdef WRONG_EXPECTATION
    { "a wrong expectation", wrong_expectation },
#endif
    { "header: constants", header_constants },
    { "header: answers and words", header_words },
    { "header: the archive's release", header_release },
    { "header: commands built by its constants", octets_commands },
    { "words: each fault of a sheet, in any room", words_faults },
    { "words: limits of a sheet", words_limits },
    { "words: answers of other sheets", words_of_others },
    { "words: a sheet cut everywhere", words_cut },
    { "words: random sheets, random answers", words_random },
    { "words: status", words_status },
    { "words: state records", words_state },
    { "words: state records that are not valid", words_state_faults },
    { "words: t24_turn", words_turn },
    { "words: each octet of each reply", words_octets },
    { "words: commands", words_commands },
    { "words: traces", words_traces },
    { "words: refusals", words_refusals },
    { "words: fields of refused commands", words_fields },
    { "words: any code, alarm and place", words_fields_of_any },
    { "words: refused commands", words_refused_commands },
    { "words: lost cycles", words_watchdog },
    { "words: lost cycles, tolerated or not", words_lost },
    { "words: what a sheet tolerates", words_tolerance },
    { "words: releases", words_release },
    { "words: short commands", words_short_commands },
    { "words: each octet of each short reply", words_short_octets },
    { "words: status of short replies", words_short_status },
    { "words: fields of refused short commands", words_short_fields },
    { "words: lost cycles, short", words_short_lost },
    { "words: random short commands", words_short_random },
    { "words: a sheet's rule release", words_rules },
    { "words: reserved octets of each code", words_reserved_fields },
    { "words: commands refused at one", words_reserved },
    { "words: the same, by the archive's answers", words_reserved_answers },
    { "words: entries of a list", words_entries },
    { "words: entries of other sheets", words_entries_of_others },
    { "words: a list cut everywhere", words_entries_cut },
    { "words: random lists, random sheets", words_entries_random },
    { "words: answers of t24_difference", words_difference },
    { "words: refusals of a second sheet", words_second },
    { "short: each code accepted", short_accepted },
    { "short: each alarm", short_refused },
    { "short: each field wrong, with its place", short_fields },
    { "short: every code in every link", short_codes },
    { "short: every size", short_sizes },
    { "short: every CONNECT", short_connects },
    { "short: what is written", short_writes },
    { "short: each WDT, tolerated or not", short_watchdog },
    { "short: lost cycles of commands", short_tolerated },
    { "short: which octets the helpers read", short_helpers },
    { "short: a master that uses them", short_master },
    { "short: a trace that agrees", short_replay_agrees },
    { "short: every bit of its replies changed", short_replay_differs },
    { "short: noise in its commands", short_replay_noise },
    { "short: its form", short_replay_form },
    { "short: its record, every L", short_sheet_l },
    { "short: its record, what may follow", short_sheet_taken },
    { "short: its record, out of place", short_sheet_places },
    { "short: its record, others beside it", short_sheet_others },
    { "short: its record, cut", short_sheet_cut },
    { "short: each other fault of its sheet", short_sheet_faults },
    { "short: hosts of another length", short_accident },
    { "short: every length of every buffer", short_lengths },
    { "short: refusals, in order", short_mixtures },
    { "short: records of release 1", short_turn },
    { "bench: the eleven cases", bench_cases },
    { "bench: the two lines of the bench program", bench_program },
    { "accident: 32-octet replies, sheet for 64", accident_reply },
    { "accident: state record of another L", accident_other_l },
    { "sheet: each fault at each call", sheet_faults },
    { "sheet: limits met and passed by one", sheet_limits },
    { "tolerance: its range, at every L", tolerance_range },
    { "tolerance: out of place in every way", tolerance_places },
    { "tolerance: cut", tolerance_cut },
    { "rules: the record's range, at every L", rules_range },
    { "rules: behind each other kind", rules_taken },
    { "rules: out of place in every way", rules_places },
    { "rules: cut", rules_cut },
    { "reserved: every octet of every command", reserved_each },
    { "reserved: the first of several", reserved_first },
    { "reserved: at every L, behind data", reserved_every_l },
    { "reserved: every octet, short", reserved_short },
    { "reserved: behind data, before rights", reserved_order },
    { "reserved: in a lost cycle", reserved_lost },
    { "reserved: ALM_RD and ALM_CLR at L 8", reserved_at_l8 },
    { "reserved: in a replay", reserved_replays },
    { "state: lost cycles in a row, each count", state_failures },
    { "state: records of release 1, at each call", state_old },
    { "turn: records of every link", turn_valid },
    { "turn: each field wrong in turn", turn_bad_fields },
    { "turn: lengths of old and new", turn_lengths },
    { "turn: faults of the sheet", turn_sheets },
    { "difference: link records", difference_links },
    { "difference: regions", difference_regions },
    { "difference: keys as numbers", difference_order },
    { "difference: parameters", difference_parameters },
    { "difference: ID items", difference_items },
    { "difference: each octet of an ID item", difference_item_octets },
    { "difference: tolerance and rule release", difference_lasts },
    { "difference: all kinds at once", difference_all },
    { "difference: the longest list", difference_longest },
    { "difference: every record changed", difference_all_changed },
    { "difference: every length of the buffer", difference_lengths },
    { "difference: refusals, in order", difference_refusals },
    { "difference: really big buffers", difference_big },
    { "difference: null pointers of length 0", difference_empty },
    { "difference: random pairs, applied", difference_random },
    { "watchdog: MN, SN and both", watchdog_cases },
    { "watchdog: each SN, each RSN, each MN", watchdog_every_wdt },
    { "watchdog: where nothing is asked", watchdog_not_asked },
    { "watchdog: the next WDT, by every RWDT", master_next_wdt },
    { "watchdog: a master that uses it", master_in_step },
    { "watchdog: a master that repeats SN", master_repeats_sn },
    { "watchdog: a master that is tolerated", master_tolerated },
    { "tolerated: rows, and one more", tolerated_rows },
    { "tolerated: every command", tolerated_cases },
    { "tolerated: set back by a kept cycle", tolerated_set_back },
    { "tolerated: each WDT at each count", tolerated_every_wdt },
    { "tolerated: lost and kept in turn", tolerated_every_l },
    { "tolerated: a trace of them", tolerated_replays },
    { "identity: comes back in every reply", identity_comes_back },
    { "identity: other bits of control ignored", identity_others_ignored },
    { "identity: at every L", identity_every_l },
    { "identity: compared in a replay", identity_replays },
    { "refusals: all mixtures, in order", refusal_order },
    { "refusals: lengths", refusal_lengths },
    { "refusals: really big buffers", refusal_big },
    { "refusals: null pointers of length 0", refusal_empty },
    { "commands: every code at every L", command_codes },
    { "parameters: the right alone", parameter_rights },
    { "parameters: fault 17", parameter_unmapped },
    { "places: alarm 9, each field of each command", wrong_octets },
    { "places: each bound met, and no place", right_octets },
    { "places: alarm 9 at every L", wrong_at_every_l },
    { "places: alarms 8 and 12, a lost cycle", wrong_without_place },
    { "places: alarm 10, mixed rights", lacking_mixed },
    { "places: alarm 10, each octet of a span", lacking_each_octet },
    { "places: alarm 10, or alarm 9 at the address", lacking_or_unmapped },
    { "replay: its records exchanged one by one", replay_exchanges },
    { "replay: the whole trace agrees", replay_agrees },
    { "replay: every octet of the replies changed", replay_replies },
    { "replay: codes and control changed", replay_commands },
    { "replay: cut at every length", replay_cuts },
    { "replay: every kind", replay_kinds },
    { "replay: refusals in order", replay_refusals },
    { "replay: the longest trace, and longer", replay_longest },
    { "each number met at each call that has it", all_numbers_met }
};

int main(int argc, char **argv)
{
    long failures = 0;
    size_t i;

    (void)argv;
    lend_open();
    for (i = 0; i < sizeof groups / sizeof groups[0]; i++) {
        failures += run_group(&groups[i]);
        if (failures != 0 && argc > 1)
            break;
    }
    printf("boundary: %s\n", failures == 0 ? "ok" : "FAILED");
    return failures == 0 ? 0 : 1;
}
