#!/usr/bin/env python3
"""Spells the repository's own definitions and lemmas as Rattle's library does.

usage: python3 tools/respell.py   at the top of the repository, once, right after the kit's port.py

Words are in snake case; a dash stays where it joins two names, as in length-drop; a lemma that would have
its function's name gets _lem. The table names each word: old>new. Functions of src/, strings, inputs and
outputs keep their names: none of them has a capital inside a small word or a dash.
"""
import pathlib
import re

TABLE = """
above-eight>above_eight accepted-from-valid>accepted_from_valid accepted-gives>accepted_gives acrossOwn>across_own acrossPremise>across_premise
acted-commutes>acted_commutes acted-is>acted_is acts-alike>acts_alike acts-equal>acts_equal acts-same>acts_same advanced-alone>advanced_alone
advanced-at>advanced_at advanced-is>advanced_is afterCalls>after_calls afterHeader>after_header afterMove>after_move afterRows>after_rows
agrees-beq>agrees_beq all-below-more>all_below-more all-below>all_below_lem all-home-at>all_home-at all-home-of>all_home-of all-in-from>all_in-from
all-in-more>all_in-more all-in-same>all_in-same all-stand-to>all-stand_to all-touch>all_touch allCodes>all_codes allHome>all_home allIn>all_in
allMates>all_mates allOne>all_one allPossible>all_possible allStand>all_stand and-digit>and_digit and-then-ok>and_then_ok and-true>and_true
apart-alike>apart_alike apart-front>apart_front apart-last>apart_last apart-symmetric>apart_symmetric apartFrom>apart_from apart_from>apart_from_lem
appliedOf>applied_of appliedView>applied_view apply-argument>apply_argument applyFault>apply_fault arity-few>arity_few arityOf>arity_of
as-opened>as_opened as-steps>as_steps at-end>at_end at-ends>wires_at_ends at-seat>at_seat at-start>at_start atEnds>at_ends atom-in-type>atom_in_type
atom-in-variable>atom_in_variable atom-small>atom_small atoms-pos>atoms_pos atomsOf>atoms_of begin-by>begin_by beginFault>begin_fault
begunView>begun_view behind-none>behind_none bell-counts>bell_counts bell-layers>bell_layers bell-refused>bell_refused bell-swept>bell_swept
bell-twice>bell_twice bell-unfit>bell_unfit bell-waits>bell_waits bell-walked>bell_walked below-from>below_from_lem below-premise>below_premise
below-push>below_push below-to>below_to belowFrom>below_from binders-below>binders_below binders-in>binders_in binding-from>binding_from
binding-to>binding_to binds-lambda>binds_lambda binds-one>binds_one binds-pair-lambda>binds_pair_lambda binds-two>binds_two bindsFree>binds_free
bit-starts-le>bit-starts_le bitPlaces>bit_places bitStarts>bit_starts bits-joined>bits_joined bookingText>booking_text books-fit>books_fit
booksOf>books_of both-lt>both_lt both-none>both_none both-pass>both_pass bound-first>bound_first bound-second>bound_second by-rule>by_rule
by-wire-at>by_wire_at by-wire-push>by_wire_push byWire>by_wire can-back>can_back can-movable>can_movable can-move>can_move can-on>can_on
can-take>can_take cases-option>cases_option channel-apart>channel_apart channel-at>channel_at_lem channel-cases>channel_cases
channel-entry>channel_entry channel-low>channel_low channel-none>channel_none channel-past>channel_past channel-some>channel_some
channel-within>channel_within channelAt>channel_at channelOf>channel_of channels-and>channels_and channels-disjoint>channels_disjoint
channels-end>channels_end channels-fit>channels_fit channels-hit>channels_hit channels-low>channels_low channels-miss>channels_miss
channels-next>channels_next channels-none>channels_none channels-skip>channels_skip channels-start>channels_start channels-with>channels_with
channels-within>channels_within channelsFrom>channels_from channelsOf>channels_of clear-below>clear_below common-none>common_none
common-some>common_some cond-le>cond_le cond-none-some>cond_none-some cond-none>cond_none cond-zero>cond_zero countsLine>counts_line
countsOf>counts_of cut-complete>cut_complete cut-none>cut_none cutting-all>cutting_all cutting-fault>cutting_fault cutting-more>cutting_more
cutting-none>cutting_none cx-copies>cx_copies cx-counts>cx_counts cx-swept>cx_swept cx-walked>cx_walked derivationOf>derivation_of
derivationText>derivation_text distinct-below>distinct_below distinct-to>distinct_to downFrom>down_from downwardOf>downward_of
empty-input>empty_input empty-refused>empty_refused enabled-to>enabled_to encode-from-pieces>encode-from_pieces encode-pieces>encode_pieces
encoded-ok>encoded_ok end-laws>end_laws end-lines-more>end_lines-more end-lines-push>end_lines-push end-lines-take>end_lines-take endLines>end_lines
endWires>end_wires ends-are>ends_are ends-known>ends_known endsOf>ends_of entered-none>entered_none entered-one>entered_one entry-good>entry_good
entry-high>entry_high entry-repeats>entry_repeats entryFault>entry_fault env-low-below>env-low_below env-past>env_past env-two>env_two envAt>env_at
environment-link>environment_link environmentOf>environment_of envs-so-far>envs_so_far eqb-by>eqb_by eqb-first>eqb_first every-below>every_below
fact-at>fact_at factsAt>facts_at fault-none>fault_none few-rows>few_rows few-types>few_types find-number>find_number fired-none>fired_none
firedAt>fired_at fires-in>fires_in first-none>first_none firstFault>first_fault firstWires>first_wires fit-set>fit_set fits-past>fits_past
fitsRule>fits_rule fitting-front>fitting_front fitting-stops>fitting_stops fittingBelow>fitting_below flip-digit>flip_digit flip-split>flip_split
flipLast>flip_last flips-one>flips_one follow-more>follow_more followed-end>followed_end followed-leads>followed_leads for-both>for_both
for-one>for_one forecastText>forecast_text framed-from-none>framed-from_none free-tests>free_tests fresh-fit>fresh_fit fresh-to>fresh_to
front-all>front_all frontRow>front_row frontType>front_type full-home>full_home gate-in>gate_in_lem gate-unknown>gate_unknown gateAt>gate_at
gateFired>gate_fired gateIn>gate_in gateOf>gate_of gateRows>gate_rows gateRule>gate_rule getD-grown-front>get_or-grown_front
getD-grown-take>get_or-grown-take getD-grown>get_or-grown getD-numbers>get_or-numbers getD-seated>get_or-seated getD-seats>get_or-seats
getD-set-all>get_or-set-all givenSet>given_set gives-on>gives_on greatest-bounds>greatest_bounds greatest-other>greatest_other
greatest-shallow>greatest_shallow greatest-width>greatest_width greatestIn>greatest_in has-added>has_added has-below>has_below has-beyond>has_beyond
has-channels>has_channels has-half>has_half has-mask>has_mask has-none>has_none has-past>has_past has-piece>has_piece
has-shifted-low>has_shifted-low has-shifted>has_shifted header-from-none>header-from_none headerFault>header_fault held-already>held_already
held-le>held_le heldPlace>held_place howStarted>how_started hx-counted>hx_counted hx-counts>hx_counts hx-swept>hx_swept is-there>is_there
isBit>is_bit isEnd>is_end isGate>is_gate isGiven>is_given isLate>is_late isNode>is_node isOne>is_one isPlace>is_place isPower>is_power
isSeat>is_seat isStart>is_start joined-pass>joined_pass joined-room>joined_room joined-take-le>joined_take_le joined-take-more>joined_take_more
joinedFacts>joined_facts joinedSize>joined_size keep-either>keep_either keep-joined>keep_joined keeps-left>keeps_left keeps-right>keeps_right
kind-length>kind_length kind-same>kind_same kindCode>kind_code known-x>known_x known-y>known_y knownFault>known_fault knows-none>knows_none
knows-step>knows_step last-below>last_below last-falls>last_falls last-first>last_first last-other>last_other late-facts>late_facts
late-no-start>late_no_start late-seat>late_seat latesAt>lates_at layerNumber>layer_number layerOf>layer_of layered-commutes>layered_commutes
layered-shallow>layered_shallow layers-each>layers_each layersOf>layers_of leader-first>leader_first leader-mate>leader_mate leader-only>leader_only
leader-seat>leader_seat leads-argument>leads_argument leads-first>leads_first leads-on>leads_on leads-result>leads_result leads-second>leads_second
leave-plain>leave_plain led-apart>led_apart led-few>led_few led-from>led_from led-more>led_more led-to>led_to left-known>left_known
left-low>left_low left-part>left_part left-tree>left_tree leftBy>left_by leftPart>left_part length-joined-more>length_joined-more
length-lates>length_lates length-places-in>length-places_in length-sizes>length_sizes less-digit>less_digit link-down>link_down
link-passes>link_passes listView>list_view listed-false>listed_false listed-occurs>listed_occurs listed-true>listed_true listed-two>listed_two
lists-all>lists_all lists-distinct>lists_distinct lists-each>lists_each log-of>log_of lower-from-none>lower-from_none lower-place>lower_place
lowest-first>lowest_first lowest-none>lowest_none lowestFrom>lowest_from lowestMissing>lowest_missing map-commutes>map_commutes
map-joined>map_joined mapped-none>mapped_none mappedApplied>mapped_applied mappedBegun>mapped_begun mappedView>mapped_view mask-length>mask_length
mask-push>mask_push mask-skip>mask_skip mask-with>mask_with mate-fires>mate_fires mate-together>mate_together mates-le>mates_le
mates-no-end>mates_no-end mates-none>mates_none mates-self>mates_self mates-sym>mates_sym mates-to>mates_to mates-trans>mates_trans matesOf>mates_of
meets-each>meets_each meets-least>meets_least meets-most>meets_most meets-none>meets_none met-by-records>met_by_records metOf>met_of
missing-end>missing_end missing-from>missing_from missing-here>missing_here missing-next>missing_next missing-to>missing_to moreMade>more_made
most-once>most_once movable-can>movable_can move-alone>move_alone move-facts>move_facts move-found>move_found move-made>move_made
move-moves>move_moves move-none>move_none move-of>move_of_lem move-refused>move_refused_lem moveRefused>move_refused moved-past>moved_past
moved-top>moved_top movedFrom>moved_from moves-are-steps>moves_are-steps narrow-none>narrow_none negative-in-type>negative_in-type
negative-in-variable>negative_in-variable negativeIn>negative_in new-envs>new_envs new-moves>new_moves new-swept>new_swept new-wires>new_wires
newLayers>new_layers newRegister>new_register next-advance>next_advance next-no-end>next_no-end no-apply-fault>no_apply_fault no-fault>no_fault
no-seat>no_seat noEntry>no_entry noFacts>no_facts noPlace>no_place noRecord>no_record nobody-waits>nobody_waits node-no-qubit>node_no-qubit
none-behind>none_behind none-by-wire>none_by_wire none-from-framed>none_from_framed none-from-header>none_from_header none-in-from>none_in_from
none-in-to>none_in_to none-in-two>none_in_two none-listed>none_listed none-some>none_some none-to>none_to noneCommon>none_common noneIn>none_in
not-refused>not_refused not-shared>not_shared not-taken-end>not_taken_end not-taken-here>not_taken_here notTaken>not_taken nowhere-off>nowhere_off
number-less>number_less numbers-last>numbers_last numbersOf>numbers_of occ-ends>occ_ends occ-in>occ_in occ-late-own>occ_late-own
occ-late-row>occ_late-row occ-lates>occ_lates occ-twice>occ_twice occurrences-high>occurrences_high ok-err>ok_err onWire>on_wire once-free>once_free
one-true>one_true oneMore>one_more one_more>one_more_lem onesSet>ones_set only-shifted>only_shifted openFault>open_fault openRefused>open_refused
opened-going>opened_going or-digit>or_digit or-else-both>or_else_both or-false>or_false order-behind>order_behind order-swaps>order_swaps
other-next>other_next own-channels>own_channels own-rows>own_rows own-types>own_types owner-has>owner_has ownerOf>owner_of
pair-abstraction>pair_abstraction pair-body>pair_body parse-from-pieces>parse-from_pieces parsed-faulty>parsed_faulty parsed-fine>parsed_fine
parsed-refused>parsed_refused part-differs>part_differs part-has>part_has parts-fit>parts_fit passed-by>passed_by passed-either>passed_either
passed-few>passed_few passed-fired>passed_fired pieces-from-parse>pieces_from_parse pieces-from-rows>pieces_from_rows pieces-valid>pieces_valid
place-atom>place_atom place-discrete>place_discrete place-self>place_self placeAt>place_at place_at>place_at_lem places-none>places_none
placesIn>places_in placesTo>places_to placing-other>placing_other played-ok>played_ok port-laws>port_laws positives-le>positives_le
possibleFrom>possible_from power-gives>power_gives premise-free>premise_free premises-differ>premises_differ premisesAt>premises_at
prepares-each>prepares_each prepend-ok>prepend_ok prev-advance>prev_advance prev-from>prev_from prev-negative>prev_negative
prev-positive>prev_positive put-from-part>put-from_part put-none>put_none put-split>put_split reachedBy>reached_by read-complete>read_complete
read-exact>read_exact read-sound>read_sound ready-is>ready_is ready-none>ready_none recordBytes>record_bytes recordFault>record_fault
recordOf>record_of refusalLine>refusal_line refusalOf>refusal_of refused-so>refused_so renames-down>renames_down renames-up>renames_up
result-prev>result_prev resultText>result_text reversed-channel>reversed_channel reversed-faultless>reversed_faultless
reversed-filled>reversed_filled right-as>right_as right-known>right_known right-low>right_low right-part>right_part right-tree>right_tree
rightPart>right_part roomOf>room_of row-fact-at>row_fact-at row-fact>row_fact row-shape>row_shape row-unknown>row_unknown row-wires-le>row-wires_le
rowBytes>row_bytes rowFault>row_fault rowLength>row_length rows-exact>rows_exact rows-so-far>rows_so_far rowsFault>rows_fault rule-past>rule_past
rule-says>rule_says ruleAt>rule_at ruleBytes>rule_bytes ruleFault>rule_fault ruleOf>rule_of ruleOr>rule_or run-apart>run_apart run-fact>run_fact
run-stand>run_stand same-below>same_below same-digit>same_digit same-masks>same_masks same-order-swaps>same_order-swaps same-order>same_order
same-part>same_part_lem same-states>same_states same-wire>same_wire sameEntry>same_entry sameKind>same_kind samePart>same_part samePlace>same_place
same_kind>same_kind_lem same_place>same_place_lem seat-advance>seat_advance seat-facts>seat_facts seat-has>seat_has seat-here>seat_here
seat-in>seat_in_lem seat-is>seat_is seat-late>seat_late seat-negative>seat_negative seat-no-end>seat_no_end seat-of-facts>seat_of_facts
seat-of-is>seat_of_is seat-place>seat_place seat-stays>seat_stays seat-there>seat_there seat-wire>seat_wire seatAt>seat_at seatIn>seat_in
seatOf>seat_of seated-by>seated_by seatedIn>seated_in seats-beneath>seats_beneath seats-front>seats_front seats-none>seats_none
seats-part>seats_part seats-three>seats_three seats-two>seats_two seatsAt>seats_at seatsOf>seats_of seatsPassed>seats_passed
second-fails>second_fails set-all-apart>set_all_apart set-all-shallow>set_all_shallow set-set-all>set_set_all set-shallow>set_shallow setAll>set_all
setIn>set_in sets-fit>sets_fit_lem setsFit>sets_fit settled-fit>settled_fit settled-home>settled_home settled-next>settled_next
settled-seat>settled_seat settled-tokens>settled_tokens settled-ways>settled_ways settledFrom>settled_from shares-apply>shares_apply
shares-by>shares_by signed-in>signed_in signed-out>signed_out signedAt>signed_at signedHeld>signed_held signs-lt>signs_lt signsOf>signs_of
size-joined>size_joined size-members>size_members sizes-more>sizes_more some-rows>some_rows some-together>some_together
sound-accepted>sound_accepted sound-to>sound_to sounds-from>sounds_from sounds-since>sounds_since sounds-to>sounds_to split-flips>split_flips
spot-wire>spot_wire stand-none>stand_none stands-entered>stands_entered stands-none>stands_none standsAt>stands_at standsOn>stands_on
start-here>start_here start-laws>start_laws start-lines-more>start_lines-more start-lines-push>start_lines-push start-lines-take>start_lines-take
startBooks>start_books startLines>start_lines startWord>start_word starts-are>starts_are startsBy>starts_by startsOf>starts_of state-none>state_none
step-as>step_as stepped-count>stepped_count stepped-fit>stepped_fit stepped-is>stepped_is stepped-ways>stepped_ways steppedAll>stepped_all
straight-channel>straight_channel straight-faultless>straight_faultless straight-filled>straight_filled sum-none>sum_none sumBy-map>sum_by-map
sumTo-append>sum_to-append sumTo-same>sum_to-same swap-counts>swap_counts swap-swept>swap_swept swap-walked>swap_walked swapped-order>swapped_order
swaps-same-order>swaps-same_order swaps-symmetric>swaps_symmetric swaps-trans>swaps_trans sweep-ends>sweep_ends sweep-none>sweep_none
sweep-off>sweep_off sweep-on>sweep_on sweepOf>sweep_of sweptOn>swept_on sweptOut>swept_out table-every>table_every tableFault>table_fault
takenBy>taken_by takenFrom>taken_from takes-as>takes_as takes-on>takes_on takesAllButH>takes_all_but_h to-left>to_left to-right>to_right
together-seat>together_seat told-place>told_place trailing-none>trailing_none trailing-some>trailing_some trailingFault>trailing_fault
tree-past>tree_past tree-suc>tree_suc tree-zero>tree_zero treeAt>tree_at turnBy>turn_by two-pow-above>two_pow_above type-shape>type_shape
type-unknown>type_unknown typeFault>type_fault typeKind>type_kind typeLength>type_length typePlace>type_place typed-to>typed_to types-cut>types_cut
types-exact>types_exact types-pass>types_pass typesFault>types_fault union-none>union_none unless-ok>unless_ok unlike-from>unlike_from
unlisted-two>unlisted_two unused-none>unused_none unusedFault>unused_fault upper-place>upper_place upwardOf>upward_of usedSet>used_set
uses-front>uses_front uses-last>uses_last valid-from-accepted>valid-from_accepted value-some>value_some view-push>view_push
visited-place>visited_place waits-listed>waits_listed walked-other>walked_other weight-alike>weight_alike weight-infers>weight_infers
weight-none>weight_none weight-zero>weight_zero where-in>where_in where-past>where_past whole-none>whole_none wholeFault>whole_fault
width-le>width_le wire-below>wire_below wire-is>wire_is wireAt>wire_at wires-channels>wires_channels wires-hit>wires_hit wires-miss>wires_miss
wires-none>wires_none wires-past>wires_past wires-read>wires_read wiresFault>wires_fault wiresFrom>wires_from wiresOf>wires_of wiresTo>wires_to
wiresWhere>wires_where with-end>with_end with-here>with_here with-self>with_self with-sym>with_sym with-to>with_to with-trans>with_trans
withFired>with_fired within-x>within_x within-y>within_y without-by>without_by without-past>without_past writeAfter>write_after
writeAnswer>write_answer xor-digit>xor_digit zeroRow>zero_row zeros-shallow>zeros_shallow
"""

# words of one file alone: types there, or the library's own word
FILES = {
    "theory/proofs/Saturation.antt": {"from": "From", "typed": "Typed", "kept": "KeptAt"},
    "theory/proofs/Gives.antt": {"from": "From"},
    "theory/proofs/Starts.antt": {"and-true": "and-true"},
    # a crate that has the theory inside it
    "machine/proofs/Saturation.antt": {"from": "From", "typed": "Typed", "kept": "KeptAt"},
    "machine/proofs/Gives.antt": {"from": "From"},
    "machine/proofs/Starts.antt": {"and-true": "and-true"},
}

WORD = re.compile(r"(?<![\w'])[A-Za-z_][\w']*(?:-[\w'*≡≤<+]+)*")
COMMENT = re.compile(r"(//.*|--.*|\"(?:[^\"\\]|\\.)*\")")


def words():
    return dict(pair.split(">") for pair in TABLE.split())


def spelled(text, table, source):
    """The text with each word of the table respelled; a word behind a dot is a field, or a generated module."""

    def turn(m):
        w = m.group(0)
        if w not in table:
            return w
        behind_dot = m.start() > 0 and text[m.start() - 1] == "."
        # a generated module has the name of a function of src/, and src/ has its own names
        if (behind_dot or source) and w.endswith(("_from", "_more", "_at", "_kind", "_place")):
            return w
        return table[w]

    return WORD.sub(turn, text)


def turned(text, table, source):
    if not source:
        return spelled(text, table, source)
    return "".join(p if p.startswith('"') else spelled(p, table, source) for p in COMMENT.split(text))


def main():
    table = words()
    for path in sorted(pathlib.Path("crates").glob("*/**/*")):
        if path.suffix not in (".rt", ".antt") or "out" in path.parts:
            continue
        old = path.read_text(encoding="utf-8")
        here = dict(table)
        for end, more in FILES.items():
            if str(path).endswith(end):
                here.update(more)
        new = turned(old, here, path.suffix == ".rt")
        if new != old:
            path.write_text(new, encoding="utf-8")


if __name__ == "__main__":
    main()
