"""Which public functions of the crates the program of calls (compare/probe/memory/) names, by their names, and which are left out and why."""

import glob
import os
import re

from probe.calls_program import SOURCES, TOP

# Crates without code of their own, and programs and tests.
NO_CALLS = ('mpd_laws', 'mpd_meaning', 'mpd_complete', 'mpd_rows', 'mpdbg')
BY_WORDS = 'called by the words of the console'
LEFT_OUT = {
    'mpd_counter': {'tick': 'a counter without bytes'},
    'mpd_model': {
        'lines_lose_nothing': 'a law', 'ids': 'called by verify and witness_of', 'comparison_of': 'takes no memory',
        'into_inner': 'of a device that fails',
        **dict.fromkeys(('push_compared', 'push_meant'), 'called by push_break and the request breaks')},
    'mpd_queue': {'disjoint': 'a law'},
    'mpd_rank': {'anew': 'of a record, called by a step that is taken again'},
    'mpd_core': {'all_ranks_are_there': 'a law'},
    'mpd_trail': {'state_is_reached': 'a law'},
    'mpd_policy': {
        **dict.fromkeys(('decisions_can_be_followed', 'wide_decisions_can_be_followed'), 'a law'), 'run_on': 'called by the request run-on',
        'ending_of': 'called by explore', 'is_untaken': 'called by steps_by_choices', **dict.fromkeys(('only_step', 'sole', 'last_hit'), BY_WORDS)},
    'mpd_lines': {
        'run_behind': 'called by trace, plain and serve', 'push_all': 'of room that is kept, called by them', 'push_folded_at': BY_WORDS, 'push_folded': 'called by diagnose',
        **dict.fromkeys(('push_echo', 'push_long_echo'), 'of room that is kept, called with --echo'),
        **dict.fromkeys(('long_lines_keep_their_words', 'long_lines_can_nowhere_be_cut'), 'a law')},
    'mpd_frames': {
        'run_in': 'called by direct/frame_rows.rattle', 'push_frame': 'called by its desk',
        **dict.fromkeys(('frames_are_read_again', 'frames_are_the_same_in_all_pieces', 'frames_can_be_read_in_one_way'), 'a law')},
    'mpd_dap': {
        'a_response_has_its_request': 'a law', 'push_memory': 'takes no memory',
        **dict.fromkeys(('all_continued', 'capabilities', 'ended_frame', 'exception', 'message_of', 'push_event', 'push_failure', 'push_refusal', 'push_response', 'scopes',
                         'standing_frame', 'stopped', 'targets'), 'called by direct/message_rows.rattle')},
    'mpd_adapter': {
        **dict.fromkeys(('looks_change_nothing', 'moves_tell_where_they_stop', 'one_response_comes_first', 'other_bodies_are_passed_over',
                         'other_breakpoints_stay'), 'a law'),
        **dict.fromkeys(('rank_of_thread', 'thread_of', 'shelf_of', 'reason'), 'takes no memory'), 'word_for': 'called by its desk'},
    'mpd_view': {**dict.fromkeys(('run_view', 'take_named'), 'called by the program with --view'), **dict.fromkeys(('sight', 'sight_of'), 'called by screen')},
    'mpd_trace': {
        'finish': 'called by plain', 'push_found': 'called by allowed', 'trace_echoing': 'called by the program with --echo',
        **dict.fromkeys(('with_ranks', 'span_of', 'word_at'), 'takes no memory'),
        **dict.fromkeys(('read_script_for', 'read_code_for', 'code_of_text', 'text_with_ranks'), 'called by the program with --ranks')},
    'mpd_options': {**dict.fromkeys(('clash', 'word'), 'called by check'), 'wants_traps': 'takes no memory'},
    'mpd_witness': dict.fromkeys(('written_witness_is_read', 'written_witness_of_a_leaf_is_read'), 'a law'),
    'mpd_explore': {
        **dict.fromkeys(('push_choices', 'ends_with_report'), 'called by check'), **dict.fromkeys(('witness_here', 'ends_with'), 'called by explore'),
        **dict.fromkeys(('same_trap', 'same_ending', 'are_asked', 'asks', 'searched'), 'takes no memory'),
        **dict.fromkeys(('explore', 'explore_at', 'split', 'print_report'), 'called by direct/public_searches.rattle'), 'with_witnesses': 'called by explore',
        **dict.fromkeys(('pieces_join_to_the_walk', 'each_piece_is_reached', 'no_choice_is_the_whole', 'no_more_is_the_whole',
                         'a_deadlock_has_a_witness'), 'a law')},
    'mpd_pool': {'check': 'called by direct/public_searches.rattle', 'limits': 'takes no memory'},
    'mpd_blame': {
        'blames_of_leaves': 'called by check_outcomes', 'blame_of_leaf': 'called by blames_of_leaves', 'blame_run': BY_WORDS,
        **dict.fromkeys(('other_message', 'place_blame'), 'takes no memory')},
    'mpd_check': {
        **dict.fromkeys(('list_search', 'put_listing'), 'called by check_listing'), 'list_sample': 'called by check_sample',
        'list_outcomes': 'called by check_outcomes', 'outcomes_in': 'called by check_mode_outcomes',
        **dict.fromkeys(('found_in', 'mode_tally', 'ways'), 'takes no memory')},
    'mpd_outcomes': {
        'push_count': 'called by check', 'is_met': 'called by explore_outcomes',
        **dict.fromkeys(('enough_fuel_is_enough', 'same_futures_go_on_alike', 'same_futures_have_one_walk'), 'a law')},
    'mpd_runs': {
        'a_run_or_a_bad_choice': 'a law', 'copy_ending': 'called by list_search', 'counts_told': 'called by check_outcomes', **dict.fromkeys(('is_count', 'sees_all'), 'takes no memory'),
        **dict.fromkeys(('seek', 'numbered_run', 'last_choice', 'last_stop', 'name', 'push_runs', 'push_none', 'push_ahead', 'push_count', 'push_no_run',
                         'push_no_choice'), BY_WORDS)},
    'mpd_explain': {
        'push_end': 'called by check_listing', 'end_of': 'called by explain', 'wish_of': 'called by end_of',
        **dict.fromkeys(('calls_name_their_statements', 'placed_steps_are_their_steps'), 'a law'),
        **dict.fromkeys(('outcome_end', 'all_losses', 'push_losses'), 'called by the request explain'), 'losses': 'called by all_losses',
        'placed_steps': 'called by the request decision', **dict.fromkeys(('copy_end', 'copy_losses', 'copy_steps'), 'called by a copy of a reply'),
        'push_if': 'called by the looks of a session',
        **dict.fromkeys(('chooser', 'placed_step', 'same_end', 'same_losses', 'same_steps', 'tells_of'), 'takes no memory'),
        **dict.fromkeys(('absences', 'enabled_steps', 'history_of', 'losses_of', 'lost_calls', 'pending_calls', 'position_of', 'posted_calls',
                         'push_calls', 'push_candidate', 'push_enabled', 'push_history', 'push_position', 'push_queues', 'push_ranks', 'push_why',
                         'push_why_rank', 'push_why_ranks', 'push_words', 'requests', 'why_of'), BY_WORDS)},
    'mpd_json': dict.fromkeys(('diagnosis_json', 'least_json', 'listing_json', 'mode_json', 'outcomes_json'), 'called by the program with --json'),
    'mpd_session': dict.fromkeys(('debugger', 'breaks', 'last_hit', 'lay'), BY_WORDS),
    'mpd_diagnose': {
        **dict.fromkeys(('full_command', 'push_verdict', 'ranks_line'), 'called by the program with --ranks'),
        'verdict_text': 'called by diagnose',
        **dict.fromkeys(('closing_of', 'first_of', 'mode_line', 'modes_up_to', 'worst_of'), 'called by the program with --modes'),
        **dict.fromkeys(('always_fails', 'always_hangs', 'always_traps', 'drawn_counts', 'ends_well', 'exceeds', 'fails_both', 'is_drawn', 'is_same',
                         'never_fails', 'tries_modes'), 'takes no memory')},
    'mpd_picture': {**dict.fromkeys(('arrows_are_pairs', 'calls_are_drawn_once', 'lanes_go_down', 'messages_go_down'), 'a law'), 'picture_of': 'called by draw'},
    'mpd_page': {
        **dict.fromkeys(('states_are_shown', 'parents_come_first', 'data_has_no_markup'), 'a law'),
        **dict.fromkeys(('draw_runs', 'page_text'), 'called by make_page')},
    'mpd_object': dict.fromkeys(('done', 'flag', 'line', 'list', 'new', 'null', 'number', 'number_if', 'number_or_null', 'number_text', 'numbers', 'shown',
                                 'text', 'text_value', 'with', 'with_some'), 'called by make_page, and by the program with --json'),
    'mpd_script': {'read_expression': BY_WORDS}, 'mpd_print': {'push_expr': BY_WORDS},
    'mpd_vocabulary': {**dict.fromkeys(('behind_word', 'condition_in', 'named_in', 'when_in', 'word_at'), 'takes no memory'), **dict.fromkeys(('line_of', 'push_fault', 'push_help', 'push_no_name', 'push_quoted'), BY_WORDS)},
    'mpd_console': {
        **dict.fromkeys(('moves_go_to_the_first_stop', 'runs_back_and_on_agree'), 'a law'),
        **dict.fromkeys(('wish', 'go_on', 'is_in_file', 'insert'), 'takes no memory'),
        **dict.fromkeys(('keep', 'reopen', 'refused_again', 'take_named', 'ended_words', 'source_taken', 'source_refused'), BY_WORDS),
        **dict.fromkeys(('doing_of', 'evaluate', 'finish_rank', 'goto_command', 'known_for', 'lead_of', 'perform', 'sight_of', 'tell', 'tell_value'), BY_WORDS)},
    'mpd_names': {
        'copy_holdings': 'called by copy_end',
        **dict.fromkeys(('is_blocked', 'can_wake', 'end_name', 'inner', 'line', 'mark_of', 'named_cell', 'none', 'placed_call', 'same_call',
                         'same_holdings', 'same_stands', 'stand', 'stands'), 'takes no memory'),
        **dict.fromkeys(('all_stands', 'find_named', 'held_in', 'holdings', 'issue_line', 'rank_line', 'push_spaced', 'push_break', 'push_cell_name',
                         'push_holdings', 'push_list', 'push_list_about', 'push_named', 'push_source', 'push_variables', 'push_end',
                         'push_end_places'), BY_WORDS)}}


def text_of(path):
    with open(path, encoding='utf-8') as file:
        return file.read()


def public_names():
    """The crate and the name of each public function: those of types, those of modules that others see, and those that a crate hands on."""
    for lib in sorted(glob.glob(f'{TOP}/crates/*/src/lib.rt')):
        crate, modules = lib.split('/')[-3], {'lib', *re.findall(r'^pub mod (\w+);', text_of(lib), re.M)}
        handed_on = {name for names in re.findall(r'^pub use ([^;]*);', text_of(lib), re.M) for name in re.findall(r'\w+', names)}
        for path in glob.glob(f'{os.path.dirname(lib)}/*.rt') if crate not in NO_CALLS else ():
            is_seen = os.path.basename(path).removesuffix('.rt') in modules
            yield from ((crate, name) for indent, name in re.findall(r'^( *)pub fn (\w+)', text_of(path), re.M) if is_seen or indent or name in handed_on)


def not_called():
    """The public functions that no row can call, and that aren't left out for a reason; and those left out that aren't there."""
    words = {word for path in glob.glob(f'{SOURCES}/*.rattle') for word in re.findall(r'\w+', text_of(path))}
    names = set(public_names())
    yield from (f'{crate}: {name}: no row calls it' for crate, name in sorted(names) if name not in words and name not in LEFT_OUT.get(crate, {}))
    left_out = {(crate, name) for crate, of_crate in LEFT_OUT.items() for name in of_crate}
    yield from (f'{crate}: {name}: left out, and not there' for crate, name in sorted(left_out - names))
