/* The layout of each structure of the header, which the library has too: a compiler that lays one out otherwise fails here. It is the
   same on each machine that docs/firmware.md names, of 64 and of 32 bits. */
#include "dovecounter.h"

#include <stddef.h>

#define SIZE(name, size) _Static_assert(sizeof(struct dovecounter_##name) == (size), #name)
#define AT(name, member, offset)                                                                                       \
    _Static_assert(offsetof(struct dovecounter_##name, member) == (offset), #name " " #member)

SIZE(half, 132);
AT(half, device, 0);
AT(half, upper, 1);
AT(half, bank, 2);
AT(half, page, 3);
AT(half, bytes, 4);

SIZE(application, 7);
AT(application, number, 0);
AT(application, host_id, 1);
AT(application, media_id, 2);
AT(application, host_lanes, 3);
AT(application, media_lanes, 4);
AT(application, host_starts, 5);
AT(application, media_starts, 6);

SIZE(advertisement, 107);
AT(advertisement, count, 0);
AT(advertisement, unsupported, 1);
AT(advertisement, applications, 2);

SIZE(identity, 120);
AT(identity, max_power, 0);
AT(identity, length, 8);
AT(identity, family, 16);
AT(identity, identifier, 17);
AT(identity, revision, 18);
AT(identity, flat, 19);
AT(identity, media_type, 20);
AT(identity, power_class, 21);
AT(identity, connector, 22);
AT(identity, technology, 23);
AT(identity, sum_base, 24);
AT(identity, sum_ext, 25);
AT(identity, oui, 26);
AT(identity, vendor, 29);
AT(identity, part, 46);
AT(identity, part_revision, 63);
AT(identity, serial, 80);
AT(identity, date, 97);

SIZE(levels, 4);
AT(levels, high_alarm, 0);
AT(levels, low_alarm, 1);
AT(levels, high_warning, 2);
AT(levels, low_warning, 3);

SIZE(flags, 46);
AT(flags, family, 0);
AT(flags, lanes, 1);
AT(flags, state, 2);
AT(flags, path_states, 3);
AT(flags, statuses, 11);
AT(flags, path_state_changed, 19);
AT(flags, tx_fault, 20);
AT(flags, tx_los, 21);
AT(flags, tx_lol, 22);
AT(flags, tx_eq_fail, 23);
AT(flags, rx_los, 24);
AT(flags, rx_lol, 25);
AT(flags, temperature, 26);
AT(flags, vcc, 30);
AT(flags, tx_power, 34);
AT(flags, tx_bias, 38);
AT(flags, rx_power, 42);

SIZE(limits, 32);
AT(limits, high_alarm, 0);
AT(limits, low_alarm, 8);
AT(limits, high_warning, 16);
AT(limits, low_warning, 24);

SIZE(value, 40);
AT(value, value, 0);
AT(value, limits, 8);

SIZE(lane_values, 104);
AT(lane_values, values, 0);
AT(lane_values, limits, 64);
AT(lane_values, support, 96);

SIZE(monitors, 400);
AT(monitors, temperature, 0);
AT(monitors, vcc, 40);
AT(monitors, tx_power, 80);
AT(monitors, tx_bias, 184);
AT(monitors, rx_power, 288);
AT(monitors, family, 392);
AT(monitors, lanes, 393);
AT(monitors, has_limits, 394);
AT(monitors, sum, 395);

SIZE(amount, 16);
AT(amount, mantissa, 0);
AT(amount, divisor, 8);
AT(amount, exponent, 10);
AT(amount, is_known, 11);

SIZE(amounts, 64);
AT(amounts, high_alarm, 0);
AT(amounts, low_alarm, 16);
AT(amounts, high_warning, 32);
AT(amounts, low_warning, 48);

SIZE(observable, 208);
AT(observable, amount, 0);
AT(observable, limits, 16);
AT(observable, quantity, 80);
AT(observable, figure, 81);
AT(observable, side, 82);
AT(observable, scope, 83);
AT(observable, lane, 84);
AT(observable, unit, 85);
AT(observable, advertised, 86);
AT(observable, has_flags, 87);
AT(observable, flags, 88);
AT(observable, quantity_name, 92);
AT(observable, figure_name, 120);
AT(observable, scope_name, 148);
AT(observable, unit_name, 176);

SIZE(durations, 24);
AT(durations, module_power_up, 0);
AT(durations, module_power_down, 4);
AT(durations, path_init, 8);
AT(durations, path_deinit, 12);
AT(durations, path_tx_turn_on, 16);
AT(durations, path_tx_turn_off, 20);

SIZE(path, 3);
AT(path, application, 0);
AT(path, host, 1);
AT(path, media, 2);

SIZE(plan, 48);
AT(plan, weight, 0);
AT(plan, count, 8);
AT(plan, lanes, 9);
AT(plan, outside, 10);
AT(plan, control, 11);
AT(plan, paths, 19);

SIZE(change, 16);
AT(change, control, 0);
AT(change, lanes, 8);
AT(change, outside, 9);
AT(change, spares, 10);
AT(change, activates, 11);
AT(change, wakes, 12);
AT(change, may_take_down, 13);
AT(change, may_bring_up, 14);
AT(change, may_have_no_path, 15);

SIZE(effect, 9);
AT(effect, taken, 0);
AT(effect, goes_down, 1);
AT(effect, comes_up, 2);
AT(effect, stays, 3);
AT(effect, is_active, 4);
AT(effect, is_done, 5);
AT(effect, hindrance, 6);
AT(effect, lanes, 7);
AT(effect, state, 8);

SIZE(judgement, 16);
AT(judgement, reason, 0);
AT(judgement, number, 8);

SIZE(fault, 3);
AT(fault, code, 0);
AT(fault, first, 1);
AT(fault, second, 2);

SIZE(progress, 40);
AT(progress, met, 0);
AT(progress, steps, 8);
AT(progress, work, 10);
AT(progress, lanes, 11);
AT(progress, control, 12);
AT(progress, selection, 20);
AT(progress, page, 22);
AT(progress, fault, 24);
AT(progress, due, 27);
AT(progress, idle, 28);
AT(progress, pause, 32);
AT(progress, limit, 36);

SIZE(conversation, 192);
AT(conversation, magic, 0);
AT(conversation, saved, 8);
AT(conversation, doubts, 48);
AT(conversation, taken, 49);
AT(conversation, taken_page, 50);
AT(conversation, watches, 52);
AT(conversation, look, 53);
AT(conversation, left, 54);
AT(conversation, halves, 57);
AT(conversation, piece, 58);
AT(conversation, read, 59);
AT(conversation, part, 60);

SIZE(patience, 12);
AT(patience, pause, 0);
AT(patience, limit, 4);
AT(patience, trusts, 8);

SIZE(operation, 16);
AT(operation, milliseconds, 0);
AT(operation, kind, 4);
AT(operation, device, 5);
AT(operation, offset, 6);
AT(operation, count, 7);
AT(operation, bytes, 8);

SIZE(ending, 6);
AT(ending, steps, 0);
AT(ending, fault, 2);

SIZE(times, 20);
AT(times, settle, 0);
AT(times, period, 4);
AT(times, first, 8);
AT(times, most, 12);
AT(times, recheck, 16);

SIZE(left, 6);
AT(left, reason, 0);
AT(left, value, 1);
AT(left, device, 2);
AT(left, upper, 3);
AT(left, bank, 4);
AT(left, page, 5);

SIZE(lane_codes, 88);
AT(lane_codes, last, 0);
AT(lane_codes, changes, 64);
AT(lane_codes, codes, 80);

SIZE(flag_counts, 2016);
AT(flag_counts, module_counts, 0);
AT(flag_counts, module_last, 64);
AT(flag_counts, lane_counts, 320);
AT(flag_counts, lane_last, 624);
AT(flag_counts, states, 1840);
AT(flag_counts, statuses, 1928);

SIZE(bank_counts, 1696);
AT(bank_counts, lane_counts, 0);
AT(bank_counts, lane_last, 304);
AT(bank_counts, states, 1520);
AT(bank_counts, statuses, 1608);

SIZE(goal, 10);
AT(goal, control, 0);
AT(goal, lanes, 8);
AT(goal, outside, 9);

SIZE(work, 56);
AT(work, saved, 0);
AT(work, most, 40);
AT(work, woken, 42);
AT(work, doubts, 43);
AT(work, taken, 44);
AT(work, taken_page, 46);
AT(work, stage, 48);
AT(work, found, 49);

SIZE(port, 2824);
AT(port, flags, 0);
AT(port, due, 2016);
AT(port, recheck_at, 2024);
AT(port, silent_since, 2032);
AT(port, work, 2040);
AT(port, times, 2096);
AT(port, magic, 2116);
AT(port, back_off, 2120);
AT(port, refusals, 2124);
AT(port, half_count, 2128);
AT(port, stage, 2130);
AT(port, held, 2131);
AT(port, outstanding, 2132);
AT(port, vain, 2133);
AT(port, selection, 2134);
AT(port, page, 2136);
AT(port, goal, 2138);
AT(port, left, 2148);
AT(port, request, 2154);
AT(port, request_lanes, 2155);
AT(port, identifier, 2156);
AT(port, apply_refused, 2157);
AT(port, spare, 2158);
AT(port, halves, 2162);

SIZE(port_next, 32);
AT(port_next, moment, 0);
AT(port_next, kind, 8);
AT(port_next, whole, 9);
AT(port_next, upper, 10);
AT(port_next, bank, 11);
AT(port_next, page, 12);
AT(port_next, operation, 16);

SIZE(wanted, 1032);
AT(wanted, weights, 0);
AT(wanted, stay, 1024);
AT(wanted, paired, 1028);
AT(wanted, counts_by_id, 1029);
AT(wanted, most_power, 1030);
AT(wanted, may_take_down, 1031);

SIZE(port_outcome, 24);
AT(port_outcome, moment, 0);
AT(port_outcome, kind, 8);
AT(port_outcome, note, 9);
AT(port_outcome, failure, 10);
AT(port_outcome, fault, 11);
AT(port_outcome, left, 14);

SIZE(delays, 14);
AT(delays, apply, 0);
AT(delays, init, 2);
AT(delays, turn_on, 4);
AT(delays, turn_off, 6);
AT(delays, deinit, 8);
AT(delays, power_up, 10);
AT(delays, power_down, 12);

SIZE(lane, 10);
AT(lane, left, 0);
AT(lane, path, 2);
AT(lane, status, 3);
AT(lane, custom, 4);
AT(lane, staged, 5);
AT(lane, active, 6);
AT(lane, keeps, 7);
AT(lane, kept, 8);

SIZE(module, 126);
AT(module, delays, 0);
AT(module, left, 14);
AT(module, apply_left, 16);
AT(module, bank, 18);
AT(module, page, 19);
AT(module, waiting, 20);
AT(module, pin, 21);
AT(module, control, 22);
AT(module, state, 23);
AT(module, deinit, 24);
AT(module, module_flags, 25);
AT(module, lane_flags, 26);
AT(module, lanes, 46);

SIZE(command_block, 12);
AT(command_block, max_busy_time, 0);
AT(command_block, instances, 4);
AT(command_block, background_mode, 5);
AT(command_block, auto_paging, 6);
AT(command_block, epl_pages, 7);
AT(command_block, length_extension, 8);

SIZE(update_durations, 16);
AT(update_durations, start, 0);
AT(update_durations, abort, 4);
AT(update_durations, block, 8);
AT(update_durations, complete, 12);

SIZE(update_stage, 8);
AT(update_stage, address, 0);
AT(update_stage, stage, 4);
AT(update_stage, header, 5);
AT(update_stage, old, 6);

SIZE(update_delivery, 152);
AT(update_delivery, idle, 0);
AT(update_delivery, steps, 4);
AT(update_delivery, phase, 6);
AT(update_delivery, at, 7);
AT(update_delivery, check, 8);
AT(update_delivery, due, 9);
AT(update_delivery, selection, 10);
AT(update_delivery, page, 12);
AT(update_delivery, taken, 14);
AT(update_delivery, taken_page, 16);
AT(update_delivery, outcome, 18);
AT(update_delivery, status, 19);
AT(update_delivery, count, 20);
AT(update_delivery, reply, 21);

SIZE(update, 196);
AT(update, magic, 0);
AT(update, size, 4);
AT(update, durations, 8);
AT(update, stage, 24);
AT(update, password, 32);
AT(update, work, 36);
AT(update, held, 37);
AT(update, tries, 38);
AT(update, fault, 39);
AT(update, status, 40);
AT(update, closing, 41);
AT(update, delivery, 44);

SIZE(update_ending, 132);
AT(update_ending, fault, 0);
AT(update_ending, status, 1);
AT(update_ending, known, 2);
AT(update_ending, count, 3);
AT(update_ending, reply, 4);

SIZE(update_progress, 12);
AT(update_progress, sent, 0);
AT(update_progress, all, 4);
AT(update_progress, known, 8);

SIZE(bank, 8);
AT(bank, build, 0);
AT(bank, runs, 2);
AT(bank, committed, 3);
AT(bank, valid, 4);
AT(bank, has_version, 5);
AT(bank, major, 6);
AT(bank, minor, 7);

SIZE(banks, 18);
AT(banks, banks, 0);
AT(banks, running, 16);
AT(banks, committed, 17);

SIZE(lane_change, 13);
AT(lane_change, control, 0);
AT(lane_change, lanes, 1);
AT(lane_change, on, 2);
AT(lane_change, most_stores, 3);
AT(lane_change, permitted, 4);
AT(lane_change, media_paths, 5);

SIZE(changing_lanes, 48);
AT(changing_lanes, magic, 0);
AT(changing_lanes, idle, 4);
AT(changing_lanes, pause, 8);
AT(changing_lanes, limit, 12);
AT(changing_lanes, steps, 16);
AT(changing_lanes, most_steps, 18);
AT(changing_lanes, change, 20);
AT(changing_lanes, stage, 33);
AT(changing_lanes, end, 34);
AT(changing_lanes, byte, 35);
AT(changing_lanes, disturbed, 36);
AT(changing_lanes, left, 37);
AT(changing_lanes, refused, 38);
AT(changing_lanes, due, 39);
AT(changing_lanes, doubts, 40);
AT(changing_lanes, selection, 41);
AT(changing_lanes, page, 42);
AT(changing_lanes, taken, 44);
AT(changing_lanes, taken_page, 46);

SIZE(lane_end, 4);
AT(lane_end, outcome, 0);
AT(lane_end, byte, 1);
AT(lane_end, lanes, 2);
AT(lane_end, stores, 3);

SIZE(link_plan, 24);
AT(link_plan, period, 0);
AT(link_plan, rounds, 4);
AT(link_plan, shown, 5);
AT(link_plan, gate, 6);
AT(link_plan, side, 7);
AT(link_plan, lanes, 8);
AT(link_plan, generator, 9);
AT(link_plan, checker, 10);
AT(link_plan, loopback, 11);
AT(link_plan, looped, 12);
AT(link_plan, permitted, 13);
AT(link_plan, tries, 14);
AT(link_plan, media_paths, 15);

SIZE(link_switch, 3);
AT(link_switch, control, 0);
AT(link_switch, mask, 1);
AT(link_switch, bits, 2);

SIZE(link_change, 4);
AT(link_change, what, 0);
AT(link_change, original, 3);

SIZE(link_work, 68);
AT(link_work, period, 0);
AT(link_work, count, 4);
AT(link_work, permitted, 5);
AT(link_work, tries, 6);
AT(link_work, shown, 7);
AT(link_work, rounds, 8);
AT(link_work, media_paths, 9);
AT(link_work, switches, 17);

SIZE(link_test, 392);
AT(link_test, magic, 0);
AT(link_test, idle, 4);
AT(link_test, pause, 8);
AT(link_test, limit, 12);
AT(link_test, plan, 16);
AT(link_test, next_switch, 88);
AT(link_test, steps, 96);
AT(link_test, most_steps, 98);
AT(link_test, stage, 100);
AT(link_test, byte, 101);
AT(link_test, hand, 102);
AT(link_test, tries, 106);
AT(link_test, rounds, 107);
AT(link_test, fault, 108);
AT(link_test, fault_control, 109);
AT(link_test, on_count, 110);
AT(link_test, still_on_count, 111);
AT(link_test, shown_count, 112);
AT(link_test, due, 113);
AT(link_test, doubts, 114);
AT(link_test, selection, 115);
AT(link_test, page, 116);
AT(link_test, taken, 118);
AT(link_test, taken_page, 120);
AT(link_test, flags, 122);
AT(link_test, on, 130);
AT(link_test, still_on, 194);
AT(link_test, shown, 258);

SIZE(link_end, 2);
AT(link_end, outcome, 0);
AT(link_end, control, 1);

SIZE(link_changes, 133);
AT(link_changes, changes, 0);
AT(link_changes, count, 132);

SIZE(link_lane, 24);
AT(link_lane, errors, 0);
AT(link_lane, bits, 8);
AT(link_lane, mantissa, 16);
AT(link_lane, noise, 18);
AT(link_lane, power, 20);
AT(link_lane, known, 21);

SIZE(link_results, 392);
AT(link_results, host, 0);
AT(link_results, media, 192);
AT(link_results, lost_clock, 384);
AT(link_results, host_generator, 385);
AT(link_results, media_generator, 386);
AT(link_results, host_checker, 387);
AT(link_results, media_checker, 388);

SIZE(link_capabilities, 18);
AT(link_capabilities, host_generator, 0);
AT(link_capabilities, media_generator, 2);
AT(link_capabilities, host_checker, 4);
AT(link_capabilities, media_checker, 6);
AT(link_capabilities, diagnostics, 8);
AT(link_capabilities, loopbacks, 9);
AT(link_capabilities, single_host_lanes, 10);
AT(link_capabilities, single_media_lanes, 11);
AT(link_capabilities, both_sides, 12);
AT(link_capabilities, ratios, 13);
AT(link_capabilities, counts, 14);
AT(link_capabilities, host_noise, 15);
AT(link_capabilities, media_noise, 16);
AT(link_capabilities, gates, 17);

SIZE(signal_targets, 43);
AT(signal_targets, adaptive, 0);
AT(signal_targets, recall, 1);
AT(signal_targets, fixed_input, 9);
AT(signal_targets, recover_tx, 17);
AT(signal_targets, recover_rx, 18);
AT(signal_targets, pre_cursor, 19);
AT(signal_targets, post_cursor, 27);
AT(signal_targets, amplitude, 35);

SIZE(settings, 87);
AT(settings, active, 0);
AT(settings, staged, 43);
AT(settings, has_staged, 86);

SIZE(settings_limits, 4);
AT(settings_limits, amplitudes, 0);
AT(settings_limits, fixed_input, 1);
AT(settings_limits, pre_cursor, 2);
AT(settings_limits, post_cursor, 3);

SIZE(settings_change, 46);
AT(settings_change, lanes, 0);
AT(settings_change, permitted, 1);
AT(settings_change, tries, 2);
AT(settings_change, targets, 3);

SIZE(changing_settings, 108);
AT(changing_settings, magic, 0);
AT(changing_settings, idle, 4);
AT(changing_settings, pause, 8);
AT(changing_settings, limit, 12);
AT(changing_settings, steps, 16);
AT(changing_settings, most_steps, 18);
AT(changing_settings, lanes, 20);
AT(changing_settings, tries, 21);
AT(changing_settings, stage, 22);
AT(changing_settings, end, 23);
AT(changing_settings, end_lane, 24);
AT(changing_settings, left, 25);
AT(changing_settings, due, 26);
AT(changing_settings, doubts, 27);
AT(changing_settings, selection, 28);
AT(changing_settings, page, 30);
AT(changing_settings, taken, 32);
AT(changing_settings, taken_page, 34);
AT(changing_settings, settings, 36);
AT(changing_settings, staged, 57);
AT(changing_settings, mixed, 86);

SIZE(settings_end, 3);
AT(settings_end, outcome, 0);
AT(settings_end, lane, 1);
AT(settings_end, reached, 2);

SIZE(explicit_fault, 5);
AT(explicit_fault, kind, 0);
AT(explicit_fault, lane, 1);
AT(explicit_fault, provision, 2);

SIZE(explicit_stage, 7);
AT(explicit_stage, stage, 0);
AT(explicit_stage, left, 1);
AT(explicit_stage, fault, 2);

SIZE(explicit, 112);
AT(explicit, magic, 0);
AT(explicit, procedure, 8);
AT(explicit, staging, 48);
AT(explicit, comparing, 55);
AT(explicit, look, 62);
AT(explicit, left, 63);
AT(explicit, lanes, 64);
AT(explicit, tries, 65);
AT(explicit, settings, 66);
AT(explicit, mixed, 87);

SIZE(explicit_end, 8);
AT(explicit_end, steps, 0);
AT(explicit_end, fault, 2);
AT(explicit_end, settings, 5);
AT(explicit_end, lane, 6);

SIZE(vdm, 88);
AT(vdm, magic, 0);
AT(vdm, pause, 4);
AT(vdm, left, 8);
AT(vdm, stage, 10);
AT(vdm, bank, 11);
AT(vdm, stage_page, 12);
AT(vdm, page, 14);
AT(vdm, selection, 16);
AT(vdm, due, 17);
AT(vdm, control, 18);
AT(vdm, statistics, 19);
AT(vdm, release, 20);
AT(vdm, halves, 21);
AT(vdm, page_count, 22);
AT(vdm, todo_count, 23);
AT(vdm, pages, 24);
AT(vdm, todo, 56);

SIZE(vdm_end, 36);
AT(vdm_end, statistics, 0);
AT(vdm_end, release, 1);
AT(vdm_end, missing_count, 2);
AT(vdm_end, missing, 4);
