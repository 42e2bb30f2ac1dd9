#!/usr/bin/env python3
"""Gives the repository's own definitions and lemmas today's spelling: snake case, and a dash only between two names.

Use, once, after the kit's port.py, at the top of the repository: python3 tools/respell.py [FOLDER]
"""

import os
import re
import subprocess
import sys

# Old name, new name. Names that would have fallen together with a function of src/, or with one another, have a word more.
NAMES = """
absent-above absent_above; absent-leave absent_leave; afterLine after_line; agree-more agree_more;
agree-push agree_push; all-decides all_decides; all-done-sum all_done_sum; allAgree all_agree; allDigits all_digits;
allDueBy all_due_by; and-swap and_swap; answerBytes answer_bytes; at-index at_index; at-two at_two;
atDevice at_device; atFlow result_at_flow; atLine result_at_line; behind-is behind_is; behind-then behind_then;
below-fits below_fits; below-more-digits below_more_digits; below-rises below_rises; butNewest but_newest;
byKey by_key; callOfFields call_of_fields; callWith call_with; canJoin can_join; cell-later cell_later;
cell-now cell_now; cells-apart cells_apart; cells-rise cells_rise; clash-swap clash_swap; clear-tail clear_tail;
common-multiple common_multiple; common-push common_push; completion-same completion_same;
conflict-free-apart conflict_free_apart; conflict-free-front conflict_free_front;
conflict-free-push conflict_free_push; conflict-is conflict_is; conflictAware conflict_aware;
conflictFree conflict_free; conflictLaxity conflict_laxity; count-kept-step count_kept_step; count-other count_other;
count-separator count_separator; count-sort count_sort; counted-read counted_read; counting-in counting_in;
counting-range counting_range; counts-on counts_on; devicesIn devices_in; digits-fail digits_fail;
distinct-counting distinct_counting; distinct-inserted distinct_inserted; distinct-kept distinct_kept;
divided-timed divided_timed; done-sent done_sent; done-sent-other done_sent_other; done-untouched done_untouched;
due-by due_by; either-counts either_counts; ends-decide ends_decide; ends-gt ends_gt; ends-le ends_le;
endsAfter ends_after; endsAgree ends_agree; endsBy ends_no_later; endsFault ends_fault; endsTo ends_to;
enter-below enter_below; entries-same entries_same; entriesFrom entries_from; first-nothing first_nothing;
firstFrom first_from; firstRepeat first_repeat_of; firstSet first_set; firstUnknown first_unknown_of;
fitLength fit_length; flowFrom flow_from; flowLegs flow_legs; flowSpec flow_spec; flows-timed flows_timed;
flowsIn flows_in; follows-settle follows_settle; frame-decides frame_decides; frame-of-map frame_of_map;
frameFault frame_fault; frameSpec frame_spec; frameWith frame_with_channels; front-push front_push;
full-same full_same; fullFault full_fault; greedy-full greedy_full; greedy-leaves greedy_leaves;
greedy-takes greedy_takes; gridAfter grid_after; gridCount grid_count; gridOf grid_of; gridsOver grids_over;
has-beside has_beside; has-cases has_cases; has-counting has_counting; has-from-greedy has_from-greedy;
has-from-kept has_from_kept; has-from-sorted has_from-sorted; has-inserted has_inserted; has-none has_none;
has-or-not has_or_not; has-placed has_placed; has-sorted has_sorted; has-without has_without;
hasGateway has_gateway_in; hop-below hop_below; hop-read hop_read; hop-set hop_set; hop-undone hop_undone;
hop-visit hop_visit; hopAt hop_at; hopId hop_id; hopIn hop_in; hopIsAt hop_is_at; hopOf hop_of; hopTotal hop_total;
hops-push hops_push; hops-twice hops_twice; hopsAlong hops_along_route; hopsOf hops_of; in-counting in_counting;
in-force-enter in_force_enter; in-force-index in_force_index; in-joined in_joined; in-kept-step in_kept_step;
in-order-cons in_order_cons; in-order-from in_order_from; in-sort in_sort; in-time in_time; in-undone in_undone;
inForce in_force; inFront in_front; insert-again insert_again; insert-in insert_in; insertBy insert_by;
insertFrom insert_from; insertVisit inserted_visit; insertVisits insert_visits; inserted-behind inserted_behind;
inserted-cases inserted_cases; inserted-more inserted_more; inserted-putIn inserted_put_in; is-number is_number_lem;
isDigit is_digit; isHop is_hop; isLawful is_lawful; isLive is_live_end; isReady is_ready_leg; isShaped is_shaped;
isState is_state_at; joined-part joined_part; joined-split joined_split; joined-take-le joined-take_le;
kept-all kept_all; kept-by-map kept_by_map; kept-by-none kept_by_none; kept-by-same kept_by_same;
kept-by-subsets kept_by_subsets; kept-in-step kept_in_step; kept-map-step kept_map_step; kept-swap kept_swap;
kept-swap-step kept_swap_step; last-digit last_digit; lastJournal last_journal; lastReply last_reply; lateAt late_at;
later-slot later_slot; laxity-bounds laxity_bounds; laxity-is laxity_is; le-leZ le_to_int; leZ-le le_from_int;
least-divides least_divides; least-is least_is; leastLaxity least_laxity; leastOr least_or;
leastSlack least_slack_of; left-read left_read; leg-again leg_again; leg-at leg_at_lem; leg-read leg_read;
legAt leg_at; legComplete leg_complete; legCount leg_count; legHops leg_hops; legLate leg_late;
legLifetime leg_lifetime; legOf leg_of_packet; legReleased leg_released; legSpec leg_spec; legVisits leg_visits;
legibleAt legible_at; legs-of-entries legs_of_entries; legs-push legs_push; legs-twice legs_twice;
legsFrom legs_from; legsOf legs_of; length-digit length_digit; length-inFront length-in_front;
length-sort length_sort; length-step length_step; length-then length_then; lets-in lets_in; lifetimeOf lifetime_of;
lineBytes line_bytes; lineEntered line_entered; lineReply line_reply; listFault list_fault; map-in map_in;
map-inserted map_inserted; map-removed map_removed; map-twice map_twice; mapFault map_fault; more-full more_full;
more-refused more_refused; more-step more_step; next-open next_open; next-refused next_refused; nextCell next_cell;
nextHop next_hop; nextNumber next_number_of; no-digits no_digits; noHop no_hop; noLeg no_leg; noRanked no_ranked;
now-or-later now_or_later; numberBytes number_bytes; numberFault number_fault; of-slack of_slack;
one-digit one_digit; onlyNumber only_number_of; order-ready order_ready; order-room order_room;
outcome-behind outcome_behind; outcomeFrom outcome_from; outcomeOf outcome_of; packet-due packet_due;
packet-total packet_total; packetLegs packet_legs; packets-due packets_due; packets-few packets_few;
packets-total packets_total; pass-low pass_low; pass-more pass_more; pass-reached pass_reached;
place-below place_below; place-refused place_refused; placeFault place_fault; placed-push placed_push;
placed-putIn placed-put_in; placedAll placed_all; placedFrom placed_from; placementAt placement_at;
placementOf placement_of; places-apart places_apart; plainLaxity plain_laxity; planRefusal plan_refusal_of;
playAll play_all; playAll-append play_all-append; push-full push_full; push-room push_room; put-part put_part;
put-paste put_paste; putIn-entries put_in-entries; quick-complete quick_complete; quick-completes quick_completes;
quick-lawful quick_lawful; quick-more quick_more; quick-overdue quick_overdue; quick-run quick_run;
quick-run-from quick_run_from; quickFrom quick_from; quickOutcome quick_outcome; quickWalk quick_walk_of;
ranked-below ranked_below; ranked-has ranked_has; ranked-orders ranked_orders; reached-step reached_step;
read-front read_front; read-map read_map; read-meant read_meant; readLine read_line_of; readMore read_more;
readNext read_next; readRoute read_route_of; readRoutes read_routes_of; ready-released ready_released;
ready-step ready_step; releaseOf release_of; released-below released_below; releasedHop released_hop_of;
releasedLegs released_legs; replyBytes reply_bytes; replyTo reply_to; restVisits rest_visits;
retire-refused retire_refused; retire-same retire_same; retireFault retire_fault; rising-sort rising_sort;
room-refused room_refused; roomOf room_of; route-read route_read; routeFault route_fault;
routeRefusal route_refusal_of; routesIn routes_in; routesOf routes_of; run-completes run_completes;
run-lawful run_lawful; run-lists run_lists; run-shows run_shows; runCell run_cell; same-done same_done;
sameEnds same_ends_of; second-packet second_packet; seenAs seen_as; sendable-free sendable_free;
sent-later sent_later; sent-now sent_now; sent-push sent_push; setMap set_map; setsOf sets_of; shortIn short_in;
shows-grid shows_grid; shows-miss shows_miss; sized-below sized_below; slack-of slack_of; slackOver slack_over;
some-decides some_decides; some-hop some_hop; some-ones some_ones; some-piece some_piece; someBelow some_below;
sort-append sort_append; sort-in sort_in; sortBy sort_by; sortVisits sort_visits; split-hit split_hit;
split-none split_none; splitAt split_at; standsAt stands_at; starts-at starts_at; state-slot state_slot;
sumBy-map sum_by-map; sumTo-none sum_to-none; sumTo-plus sum_to_plus; sumTo-same sum_to_same; table-all table_all;
table-front table_front; table-legs table_legs; table-part table_part; take-nil take_nil; take-plus take_plus;
taken-full taken_full; then-refused then_refused; time-ok time_ok; timeFault time_fault; to-the-frame to_the_frame;
transmissionsIn transmissions_in; turn-ends turn_ends; twoFlows two_flows; undo-decides undo_decides;
undo-refused undo_refused; undoes-length undoes_length; undoes-pop undoes_pop; undoes-push undoes_push;
undone-high undone_high; undone-in undone_in; undoneAt undone_at; undoneHops undone_hops; undoneOf undone_of;
unless-refused unless_refused; unlessShort unless_short; unsendable-longer unsendable_longer; value-more value_more;
value-passed value_passed; value-refused value_refused; valueFrom value_from; visit-hop visit_hop;
visitFirst visit_first; visitLast visit_last; visitOf visit_of; visitStarts visit_starts; visitTable visit_table;
visitUndone visit_undone; visitsAt visits_at; visitsBelow visits_below; visitsFrom visits_from;
whereReleased where_released; ≤-antisym ≤_antisym
"""

TABLE = dict(pair.split() for pair in NAMES.replace("\n", " ").split("; ") if pair.strip())
assert len(set(TABLE.values())) == len(TABLE)

# What parts names in the language of proofs.
TOKEN = re.compile(r"[^\s(){}\[\];,.:\"@`]+")


def respelled(text, dashed):
    """The text with each name respelled; a dashed name behind a dot is a step of a proof, and stays."""

    def one(m):
        name = m.group()
        new = TABLE.get(name, name)
        if "-" in name and (not dashed or text[m.start() - 1 : m.start()] == "."):
            return name
        return new

    return TOKEN.sub(one, text)


def turn(path):
    with open(path, encoding="utf-8") as f:
        old = f.read()
    if path.endswith(".antt"):
        new = respelled(old, True)
    elif path.endswith((".rt", ".edit")):
        new = respelled(old, False)
    else:
        new = re.sub(r"`[^`\n]+`", lambda m: respelled(m.group(), True), old)
    if new != old:
        with open(path, "w", encoding="utf-8") as f:
            f.write(new)


def main(root):
    for top in ["crates", "docs", "README.md"]:
        if os.path.isfile(os.path.join(root, top)):
            turn(os.path.join(root, top))
        for folder, dirs, files in os.walk(os.path.join(root, top)):
            dirs[:] = [d for d in dirs if d not in ("out", "data")]
            for name in files:
                if name.endswith((".antt", ".rt", ".edit", ".md")):
                    turn(os.path.join(folder, name))
    for crate in sorted(os.listdir(os.path.join(root, "crates"))):
        subprocess.run(["rt", "fmt"], cwd=os.path.join(root, "crates", crate), stdout=subprocess.DEVNULL)


main(sys.argv[1] if len(sys.argv) > 1 else ".")
