#!/usr/bin/env python3
"""Respells the repository's own definitions and lemmas as today's Rattle spells them: words in snake case, types in camel case.

usage: python3 tools/respell.py      at the top of the repository, once, after the kit's port.py

The names are the table below, old=new. Each is replaced where it stands whole: in the files of specs/ and proofs/, in the sources outside
string literals, in must-fail edits, and in README.md and docs/ inside backticks or fenced blocks. Names of functions and strings stay as they are.
"""
import pathlib
import re

TABLE = """
Exactly-when-finished=ExactlyWhenFinished Has-room=HasRoom Holds-rows=HoldsRows Is-tallied=IsTallied Met-room=MetRoom Met-rows=MetRows Pairs-by=PairsBy Piles-compose=PilesCompose Rests-by=RestsBy Table-brings=TableBrings
Batches-run=BatchesRun Codes-stand=CodesStand Done-at=DoneAt In-bags=InBags In-range=InRange Is-joined=IsJoined Is-joined-table=IsJoinedTable
Never-more-often=NeverMoreOften Notices-come=NoticesCome Of-two-bags=OfTwoBags One-meaning=OneMeaning Output-lists-stand=OutputListsStand
Pairs-run=PairsRun Quiet-after=QuietAfter Reads-back=ReadsBack Rows-run=RowsRun Runs-agree=RunsAgree Runs-go-on=RunsGoOn Runs-hold=RunsHold
Runs-join=RunsJoin Runs-mirror=RunsMirror Runs-stay=RunsStay Separation-stands=SeparationStands Turned-twice=TurnedTwice Types-stand=TypesStand
Within-bound=WithinBound Within-cuts=WithinCuts Worked-orders=WorkedOrders Worked-pairs=WorkedPairs abba-named=abba_named account-more=account_more
add-le=add_le addCount=add_count addRefusal=add_refusal added-two=added_two addedAll=added_all after-comma=after_comma ahead-quiet=ahead_quiet
all-answered=each_answered all-few=all_few all-from-pass=all_from_pass all-of-done=all_of_done all-only=all_only all-open=all_open all-rows=all_rows
all-run=all_run allAlnum=all_alnum allAnswered=all_answered allDone=all_probes_done allPairs=all_pairs allowed-exchanged=allowed_exchanged
alnum-ascii=alnum_ascii alnum-lacks=alnum_lacks also-clear=also_clear also-map=also_map also-maps=also_maps also-none=also_none also-parts=also_parts
also-shift=also_shift also-swap=also_swap answered-all=answered_all answered-run=answered_run answered-shown=answered_shown answersOf=answers_of
answersOf-push=answers_of_push any-in=any_in apart-end=apart_end apart-here=apart_here appended-few=appended_few appended-is=appended_is
appended-rows=appended_rows areAllowed=are_allowed areColumns=are_columns areFew=are_few areMinutes=are_minutes areRows=are_rows areThere=are_there
askNumber=ask_number asked-few=asked_few askedAt=asked_at asksAt=asks_at at-comma=at_comma at-end=at_end at-feed=at_feed at-feed-step=at_feed_step
at-state=at_state bad-same=bad_same batch-cells=batch_cells batch-first=batch_first batch-room=batch_room batch-rows=batch_rows_on_page
batchRows=batch_rows batchSize=batch_size batches-are=batches_are batches-more=batches_more batches-run=batches_run batchesIn=batches_in
batchesOf=batches_of beginRefusal=begin_refusal behind-cells=behind_cells behind-rows=behind_rows bit-clear=bit_clear bit-other=bit_other
bit-same=bit_same bits-clear=bits_clear bits-from=bits_from blur-named=blur_named both-songs=both_songs brought-batch=brought_batch
brought-fault=brought_fault brought-notice=brought_notice brought-wait=brought_wait cake-named=cake_named callHandled=call_handled
callProbe=call_probe callSetup=call_setup calls-push=calls_push cameOf=came_of ceil-le=ceil_le cell-decided=cell_decided cell-means=cell_means
cell-only=cell_only cell-prints=cell_prints cellIn=cell_in cells-append=cells_append cells-of=cells_of_items cells-rowsFrom=cells_rows_from
changeText=change_text clashLine=clash_line clashLines=clash_lines clashesAt=clashes_at code-back=code_back code-from=code_from code-utf8=code_utf8
columns-are=columns_are columns-exchanged=columns_exchanged columns-listOf=columns_list_of columns-made=columns_made columnsOf=columns_of
count-more=count_more cut-batches=cut_batches cut-more=cut_more cut-within=cut_within cutBy=cut_by decimal-numeral=decimal_numeral
deliveredBy=delivered_by delivers-at=delivers_at digit-in=digit_in digits-alnum=digits_alnum done-is-done=done_is_done done-run=done_run
done-turn=done_turn drainNumber=drain_number draining-all=draining_all draining-exit=draining_exit draining-more=draining_more
draining-none=draining_none drop-putRow=drop-put_row drop-rowsFrom=drop-rows_from dropOf=drop_of drops-push=drops_push eK=e_k eight-first=eight_first
emit-le=emit_le emitLeftUnmatched=emit_left_unmatched emitRightUnmatched=emit_right_unmatched emitSteps=emit_steps emitter-calls=emitter_calls
emitter-range=emitter_range emitterOf=emitter_of exactly-forty=exactly_forty exactly-when-finished=exactly_when_finished exchanged-perm=exchanged_perm
exchanged-twice=exchanged_twice exchangedList=exchanged_list faults-are=faults_are feed-first=feed_first feed-step=feed_step
fetchingRight=fetching_right few-batch=few_batch few-columns=few_columns few-exchanged=few_exchanged few-left=few_left few-made=few_made
few-probes=few_probes few-right=few_right few-rows=few_rows figures-decided=figures_decided figures-once=figures_once figures-signed=figures_signed
final-open=final_open final-still=final_still first-digit=first_digit first-line=first_line first-none=first_none first-probe=first_probe
firstBlock=first_block firstDrop=first_drop fits-from=fits_from fits-run=fits_run fits-step=fits_step flag-end=flag_end flag-step=flag_step
flush-bad=flush_bad flush-end=flush_end flushed-fits=flushed_fits forty-one=forty_one freshView=fresh_view from-has=from_has from-it=from_it
fromRow=from_row front-cells=front_cells full-40=full_40 full-batch=full_batch full-take=full_take fullBatches=full_batches fullText=full_text
futures-open=futures_open futures-quiet=futures_quiet getD-rowsFrom=get_or-rows_from good-width=good_width goodRows=good_rows group-pos=group_pos
grouped-fits=grouped_fits grouped-full=grouped_full grouped-held=grouped_held handledBy=handled_by handles-as=handles_as handles-by=handles_by
has-at=has_at has-past=has_past hasAll=has_all hasCell=has_cell hasPairs=has_pairs headLine=head_line heard-done=heard_done in-any=in_any
in-append=in_append in-bags=in_bags in-batches=in_batches in-cuts=in_cuts in-kept-step=in_kept_step in-product=in_product in-room=in_room
in-time=in_time inner-40=inner_40 inner-90=inner_90 inv-open=inv_open inv-step=inv_step is-joined=is_joined is-joined-table=is_joined_table is-t=is_t
is-table=is_table is-tallied=is_tallied is-truth=is_truth isBatch=is_batch isBatchItem=is_batch_item isCode=is_code isDone=is_done isDoneBy=is_done_by
isFaultItem=is_fault_item isFigure=is_figure isFull=is_full isIn=is_in isLegal=is_legal isMark=is_mark isMissing=is_missing isOne=is_one
isPair=is_pair isProbeEnd=is_probe_end isProbeEnd-is=is_probe_end_is isThere=is_there isTrue=is_true isWaitItem=is_wait_item item-good=item_good
item-malformed=item_malformed item-miscounted=item_miscounted itemRows=item_rows itemSize=item_size items-are=items_are items-first=items_first
items-fit=items_fit itemsAt=items_at joinType=join_type joinView=join_view joined-append=joined_append joined-few=joined_few joined-none=joined_none
joined-pairs=joined_pairs keep-both=keep_both kept-no=kept_no kept-yes=kept_yes lacks-first=lacks_first lacks-more=lacks_more lacks-parts=lacks_parts
lacksFull=lacks_full lacksPlace=lacks_place larger-batch=larger_batch largest-batch=largest_batch largest-is=largest_is largestAfter=largest_after
layer-batch=layer_batch lean-decimal=lean_decimal left-40=left_40 left-appends=left_appends left-delivers=left_delivers left-flushes=left_flushes
left-has=left_has left-mark-40=left_mark_40 left-marks=left_marks left-pos=left_pos left-wide=left_wide leftColumns=left_columns
leftMatched=left_matched leftRest=left_rest leftRestOf=left_rest_of leftRestRows=left_rest_rows leftRows=left_rows lefts-fit=lefts_fit
legal-exchanged=legal_exchanged legal-made=legal_made length-cells=length_cells length-putRow=length-put_row length-rowsFrom=length-rows_from
length-rowsOf=length-rows_of length-turn=length_turn letters-back=letters_back letters-shift=letters_shift lettersIn=letters_in line-more=line_more
line-zero=line_zero lines-first=lines_first listConditions=list_conditions listRefusal=list_refusal listText=list_text lives-open=lives_open
long-part=long_part loop-mirror=loop_mirror loop-perm=loop_perm loopRows=loop_rows map-calls=map_calls map-union=map_union mark-number=mark_number
mark-other=mark_other markCell=mark_cell marks-a-row=marks_a_row means-count=means_count means-once=means_once means-same=means_same meet-own=meet_own
met-few=met_few met-handles=met_handles met-rows=met_rows metL=met_l metOf=met_of metPair=met_pair metR=met_r metRange=met_range metRow=met_row
missing-is=missing_is modelOf=model_of more-columns=more_columns most-columns=most_columns moves-by=moves_by named-open=named_open
named-twice=named_twice namedRow=named_row needed-is=needed_is never-more-often=never_more_often next-end=next_end next-is=next_is next-ok=next_ok
next-refused=next_refused no-batch=no_batch no-bit=no_bit no-bonus=no_bonus no-columns=no_columns no-commas=no_commas no-emitter=no_emitter
no-is=no_is no-layer=no_layer no-mark=no_mark no-probe=no_probe no-right=no_right noMarks=no_marks none-else=none_else none-fits=none_fits
not-both-figure=not_both_figure not-digits=not_digits not-figures=not_figures noticed-all=noticed_all noticed-later=noticed_later
notices-come=notices_come notices-first=notices_first noticesFrom=notices_from number-too-high=number_too_high numberConditions=number_conditions
numberIn=number_in numberRefusal=number_refusal numeral-decided=numeral_decided numeral-decimal=numeral_decimal of-two-bags=of_two_bags
one-emits=one_emits one-few=one_few one-layer=one_layer one-mark=one_mark one-probe=one_probe one-room=one_room one-row=one_row
one-row-more=one_row_more one-rows=one_rows oneList=one_list open-probes=open_probes openView=open_view or-false=or_false or-from-none=or_from_none
or-one=or_one orMarks=or_marks orderRefusal=order_refusal other-artist=other_artist other-bit=other_bit other-side=side_not_named otherSide=other_side
out-is=out_is outcomeOf=outcome_of outputCell=output_cell outputRow=output_row packed-below=packed_below packed-shift=packed_shift packedIn=packed_in
pair-all=pair_all pair-room=pair_room pair-swap=pair_swap pair-view=pair_view_met pair-wide=pair_wide pairLine=pair_line pairView=pair_view
pairs-few=pairs_few pairs-in=pairs_in pairs-one=pairs_one pairs-run=pairs_run pairsOf=pairs_of parted-more=parted_more parts-enough=parts_enough
pass-map=pass_map pass-more=pass_more pass-stops=pass_stops passed-of=passed_of passedFrom=passed_from passedLine=passed_line passedLines=passed_lines
past-it=past_it pending-same=pending_same perm-any=perm_any perm-both=perm_both perm-each=perm_each perm-eq=perm_eq perm-from=perm_from
perm-front=perm_front perm-joined=perm_joined perm-left=perm_left perm-mid=perm_mid perm-right=perm_right perm-split=perm_split perm-swap=perm_swap
perm-sym=perm_sym perm-turn=perm_turn pick-swap=pick_swap pile-drains=pile_drains pile-is=pile_is pileItems=pile_items place-whole=place_whole
placeText=place_text present-fits=present_fits present-one=present_one presentAll=present_all probe-delivers=probe_delivers
probe-fetches=probe_fetches probe-meets=probe_meets probe-rests=probe_rests probeOf=probe_of probeRight=probe_right probeSteps=probe_steps
probeView=probe_view product-in=product_in projectCell=project_cell putMid-row=put_mid-row putRow=put_row quiet-named=quiet_named
quiet-open=quiet_open range-behind=range_behind range-few=range_few range-turn=range_turn range-view=range_view_met range-view-is=range_view_is
rangeView=range_view read-once=read_once readText=read_text refusal-fits=refusal_fits refusalOf=refusal_of refusalText=refusal_text
refused-exchanged=refused_exchanged refused-same=refused_same refused-stays=refused_stays refusedLine=refused_line reportText=report_text
rest-few=rest_few rest-joined=rest_joined rest-nothing=rest_nothing rest-rows=rest_rows rest-turn=rest_turn restAppended=rest_appended restL=rest_l
restR=rest_r right-anti-40=right_anti_40 right-appends=right_appends right-delivers=right_delivers right-has=right_has right-marks=right_marks
right-too-high=right_too_high right-wide=right_wide rightColumns=right_columns rightMatched=right_matched rightRest=right_rest
rightRestOf=right_rest_of rightRow=right_row rightRows=right_rows rights-fit=rights_fit room-fewer=room_fewer room-less=room_less room-one=room_one
roomOf=room_of row-decided=row_decided row-few=row_few row-means=row_means row-of=rows_of_at row-only=row_only row-prints=row_prints row-turn=row_turn
row-view=row_view_met row-view-is=row_view_is rowFront=row_front rowPairs=row_pairs rowText=row_text rowText-more=row_text-more
rowText-push=row_text_push rowView=row_view rows-added=rows_added rows-cells=rows_cells rows-front=rows_front rows-given=rows_given
rows-kept=rows_kept rows-of-front=rows_of-front rows-on-page=rows_on_page rows-one-more=rows_one_more rows-over=rows_over rows-put=rows_put
rowsFrom-more=rows_from-more rowsIn=rows_in rowsJoined=rows_joined rowsLeft=rows_remaining rowsMet=rows_met run-counts=run_counts same-each=same_each
same-itself=same_itself same-letters=same_letters same-pair=same_pair_equal same-setup=same_setup same-swap=same_swap sameCode=same_code
says-done=says_done second-emits=second_emits second-probe=second_probe secondBlock=second_block seen-is=seen_is seenOf=seen_of set-if-if=set_if_if
setBy=set_by setBy-is=set_by_is setBy-swap=set_by-swap setIf=set_if sets-none=sets_none sets-past=sets_past settingSetup=setting_setup
setupIn=setup_in setupOf=setup_of seventeen-probes=seventeen_probes seventeen-right=seventeen_right shift-shift=shift_shift
short-figures=short_figures shortPage=short_page shownProbe=shown_probe shows-behind=shows_behind shuffled-from=shuffled_from sideCell=side_cell
sideHas=side_has sideRow=side_row signed-figures=signed_figures sixteen-probes=sixteen_probes sized-decided=sized_decided sofar-all=sofar_all
sofar-more=sofar_more sofar-none=sofar_none some-batch=some_batch some-probes=some_probes someRest=some_rest song-rows=song_rows songs-read=songs_read
songsOf=songs_of songsText=songs_text sound-waiting=sound_waiting sources-sides=sources_sides split-first=split_first spot-getD=spot-get_or
spot-range=spot_range spot-tells=spot_tells state-is=state_is state-same=state_same state-waiting=state_waiting stateAt=state_at step-few=step_few
step-on=step_on stepAt=step_at stretch-few=stretch_few stretch-long=stretch_long stretch-rows=stretch_rows swapped-twice=swapped_twice
tableItems=table_items tableNumber=table_number tableRows=table_rows take-more-first=take_more_first take-putRow=take-put_row
take-rowsFrom=take-rows_from taken-le=taken_le taken-rows=taken_rows takenAfter=taken_after takes-less=takes_less taking-all=taking_all
taking-more=taking_more taking-none=taking_none taking-too-many=taking_too_many tells-behind=tells_behind termsOf=terms_of text-fits=text_fits
text-lacks=text_lacks text-taken=text_taken the-mark=the_mark there-exchanged=there_exchanged to-has=to_has toAsk=to_ask toldOf=told_of
toldOf-push=told_of_push took-batch=took_batch total-open=total_open turn-counts=turn_counts two-marks=two_marks two-sources=two_sources
two-turns=two_turns type-is=type_is typeRow=type_row types-stand=types_stand unionAll=union_all unknown-start=unknown_start unread-same=unread_same
upToDone=up_to_done vK=v_k verdict-is=verdict_is viewAt=view_at waiting-named=waiting_named waiting-shown=waiting_shown waitingAt=waiting_at
waitingOf=waiting_of waitingRows=waiting_rows waitingView=waiting_view waits-are=waits_are waits-fit=waits_fit what-remains=what_remains
wide-item=wide_item wide-items=wide_items wide-one=wide_one wide-open=wide_open wide-out=wide_out wide-p=wide_p wide-pairs=wide_pairs
wide-rest=wide_rest wide-run=wide_run will-still=will_still with-one=with_one withJoin=with_join withLeft=with_left withState=with_state
withWaiting=with_waiting within-bound=within_bound within-cuts=within_cuts wordText=word_text writes-once=writes_once yes-is=yes_is
"""

NAMES = dict(pair.split("=") for pair in TABLE.split())
# A name ends where none of the letters that antt takes into a name goes on.
WORD = re.compile(r"[^\s.,;:(){}\[\]\u231c\u231d|`\"\u00ab\u00bb#]+")
STRING = re.compile(r"\"(?:[^\"\\]|\\.)*\"")


def respelled(text):
    return WORD.sub(lambda m: NAMES.get(m[0], m[0]), text)


def outside_strings(line):
    out, at = [], 0
    for m in STRING.finditer(line):
        out += [respelled(line[at:m.start()]), m[0]]
        at = m.end()
    return "".join(out + [respelled(line[at:])])


def in_code(text):
    """Markdown: only fenced blocks and what stands between backticks."""
    out, fenced = [], False
    for line in text.splitlines(keepends=True):
        if line.lstrip().startswith("```"):
            fenced = not fenced
        elif fenced:
            line = respelled(line)
        else:
            line = re.sub(r"`[^`]+`", lambda m: respelled(m[0]), line)
        out.append(line)
    return "".join(out)


def main():
    for path in sorted(pathlib.Path("crates").rglob("*")):
        if path.suffix not in (".antt", ".rt", ".edit") or "out" in path.parts:
            continue
        old = path.read_text(encoding="utf-8")
        new = respelled(old) if path.suffix == ".antt" else "".join(map(outside_strings, old.splitlines(keepends=True)))
        if new != old:
            path.write_text(new, encoding="utf-8")
    for path in [pathlib.Path("README.md"), *sorted(pathlib.Path("docs").glob("*.md"))]:
        if path.name == "PORT.md":
            continue
        old = path.read_text(encoding="utf-8")
        new = in_code(old)
        if new != old:
            path.write_text(new, encoding="utf-8")


main()
