#!/usr/bin/env python3
"""Makes the diagrams of docs/MAP.md from crates.txt and the sources.

    checks/map.py              says whether they are up to date, and what in them is not true
    checks/map.py --write      writes them to docs/MAP.md

The layers are the headings of crates.txt. Its lines are the crates, each with what it depends on; in that file a crate comes after all that
it depends on, so that no layer depends on a higher one. The other diagrams come from the tables in this script, and each line of these is
looked up in the sources: the call is in its crate, and the crate of a step depends on the crate of each step that it makes; a field is one of
the struct's, and no field is left out; a definition is in its file, and a law and a clause are in their crate. If something is wrong, the
exit status is 1.
"""
import os
import re
import sys

sys.dont_write_bytecode = True

from crates import TOP, headings_of, read, table_of

MAP = 'docs/MAP.md'
TESTS = 'tests'   # the last heading of crates.txt, which is not a layer

# The way of a line, and of a frame. A step is its depth, crate, call and what it does; it is made by the nearest step above it that is less
# deep. A text by itself is drawn as a mark between steps.
LINE = [
    (0, 'mpd_server', 'Server::serve', 'one loop over all sockets; a turn for each that is ready'),
    (1, 'mpd_session', 'Session::turn', 'bytes are read, and unsent bytes written'),
    (2, 'mpd_text', 'Splitter::feed', 'bytes become lines'),
    (2, 'mpd_session', 'Gatherer::take', 'a single line, or a whole command list'),
    (2, 'mpd_session', 'ask', 'asks the player, and makes the answer'),
    (3, 'mpd_command', 'Request::of_line', 'a typed command, or the first error in the line'),
    (3, 'house', 'House::command', 'or `House::list`, for a command list'),
    '---- the lock is taken',
    (4, 'house', 'Held::command', 'a pending notice is put in front of the reply'),
    (5, 'house', 'Counted::apply', 'the event is counted for its seat'),
    (6, 'partition', 'Partition::apply', 'a full history window is folded; the playlist store is read if the command needs it'),
    (7, 'queue_commands', 'run', 'or `run` of another crate of commands: decides what to do; nothing changes yet'),
    (7, 'transitions', 'Transition::carry_out', 'the partition and the library change'),
    (7, 'connected_clients', 'notify_all', 'changes become pending; waiting clients get their notices'),
    '---- the lock is free',
    (2, 'mpd_session', 'Owed::push_to', 'the answer joins the unsent bytes'),
]
FRAME = [
    (0, 'crew_steps', 'Decoder::run', "the decoder's thread"),
    (1, 'house', 'House::notice', 'lock: the player gives it a job'),
    (1, 'wave', 'Reader::frames_at', 'frames of the song, and of the one to fade into'),
    (1, 'house', 'House::have', 'lock: learns which outputs get these frames, with which cut and volume'),
    (1, 'pcm_mix', 'mix', 'first the fade, then the volume'),
    (1, 'output_ring', 'Feeder::take', 'into the ring of each of these outputs'),
    '---- the ring: no lock, no waiting',
    (0, 'crew_steps', 'Draining::run', "an output's thread"),
    (1, 'output_ring', 'Drainer::pop', 'a batch of frames into its hand'),
    (1, 'house', 'House::turn', 'lock: reports fates; learns the live cut, and whether the output is enabled or paused'),
    (1, 'output_ring', 'Drainer::write_out', 'each frame of the hand is written or discarded'),
    '---- the end',
    (0, 'crew', 'close', 'all threads are joined'),
    (1, 'house', 'House::settle_all', 'lock'),
    (2, 'frame_ledger', 'settle', 'compares the ring with the frame counts, and names any difference'),
]

# What the lock protects: depth, crate, struct, and its fields with what they are; a field with None is drawn by its name only.
HELD = [
    (0, 'house', 'House', {'held': 'the lock', 'state_changed': None, 'notices_wait': None, 'scan_runs': None}),
    (1, 'house', 'Held', {
        'core': 'the player with its notices, below', 'books': 'how many frames were decoded, written, discarded',
        'free': 'the seats that are free', 'closed': "each thread's part of the frame counts, once these were compared with the rings", 'alloc': None}),
    (2, 'house', 'Core', {'counted': 'the player, below', 'waiting': 'notices that are not delivered yet', 'seen': None, 'changes': None}),
    (3, 'house', 'Counted', {'partition': 'below', 'seats': 'how many events each of the seats 0 to 3 made'}),
    (4, 'partition', 'Partition', {
        'base': 'the state before the first event of the window', 'history': 'the window of events', 'state': 'the present state, below',
        'limit': 'how many events the window may have', 'bytes': None, 'alloc': None}),
    (5, 'partition', 'State', {
        'parts': 'each partition, below', 'openings': 'what a new partition starts with', 'library': 'the songs, and the scan', 'made': 'how many events each seat made', 'books': 'frames of each output',
        'ended': 'whether the daemon has ended', 'clients': 'for each client: its partition, its tags, what it waits for, what is pending'}),
    (6, 'player_state', 'Part', {
        'index': 'its number', 'name': None, 'queue': 'slots, stamps, ids', 'player': 'what it plays', 'volume': None,
        'outputs': 'which are enabled or failed', 'channels': 'subscriptions of clients, and messages to them', 'played': None}),
]

# The theorems: what is promised; then for each part the crate and the call whose contract says it, and the clause; the file and the
# definition that the clause names; and laws about that definition.
THEOREMS = [
    'whenever the lock is free',
    ('house', 'Held::history', 'legal', 'partition/Legal', 'IsPast', ''),
    ('house', 'Held::history', 'books', 'house/Views', 'HasBooksOfPlayer', ''),
    'song ids are distinct',
    ('partition', 'Partition::history', 'distinct', 'partition/Legal', 'HasDistinctIds', 'song_queue: ids_are_distinct ids_never_return'),
    'each slot has the version that last changed it',
    ('partition', 'Partition::history', 'legal', 'partition/Legal', 'IsPast', ''),
    ('partition', 'Partition::history', 'present', 'partition/History', 'replay',
     'partition: replays_worlds; song_queue: edits_follow_past'),
    ('song_queue', 'Queue::changed_since', 'patches', 'song_queue/Laws', 'PatchesEarlier', 'song_queue: patches_give_present'),
    'a pending set is what changed since the last notice',
    ('partition', 'Partition::history', 'pending', 'partition/Since', 'AllHavePending', 'partition: reads_pending'),
    ('notice_laws', 'answers_are_told_of', 'queue', 'notice_laws/Told', 'QueueIsTold', ''),
    ('notice_laws', 'lines_are_told_of', 'told', 'notice_laws/Told', 'LinesAreTold', 'notice_laws: messages_are_told_of'),
    'every reply is the one that the single-threaded player gives at that point of the history',
    ('partition', 'Partition::apply', 'ok', 'partition/Lent', 'RecordsBy', 'partition: replays_worlds'),
    ('partition', 'Partition::apply', 'refused', 'partition/Lent', 'RefusesBy', ''),
    ('partition', 'Partition::run_list', 'ok', 'partition/Lists', 'RunsBy', 'partition: entries_are_whole'),
    ('partition', 'Partition::fold', 'ok', 'partition/History', 'folded', 'partition: folds_are_unseen'),
    ('house', 'House::command', 'somewhere', 'house/Views', 'AnswersCaller', ''),
    ('mpd_session', 'Session::turn', 'turns', 'mpd_session/Sessions', 'Turns',
     'mpd_session: turns_join any_cut_of_bytes lines_ask_for'),
    ('server_rounds', 'Rounds::next_step', 'next', 'server_rounds/Rounds', 'IsNext', ''),
    ('daemon_script', 'run_script', 'ok', 'daemon_script/Output', 'ShowsInput', 'daemon_script: runs_are_traced'),
    'no partition sees the others',
    ('partition_laws', 'equal_views_hear_the_same', '', 'partition_laws/Apart', 'EqualViewsHearTheSame', 'partition_laws: daemons_stay_legal'),
    ('partition_laws', 'others_may_be_left_out', '', 'partition_laws/Apart', 'OthersMayBeLeftOut', ''),
    ('output_ring', 'Drainer::write_out', 'played', 'output_ring/Turns', 'WritesHand', 'partition_laws: moves_rise reports_tell_moves'),
    ('partition_laws', 'feeds_owe_nothing', '', 'partition_laws/Owing', 'FeedsOweNothing', ''),
    ('partition_laws', 'feeds_no_newcomer', '', 'partition_laws/Owing', 'FeedsNoNewcomer', ''),
    'decoded frames are written or discarded, in order, and the rest is left over',
    ('crew', 'close', 'settled', 'crew/Closing', 'ClosesRuns', ''),
    ('crew_steps', 'Decoder::run', 'decodes', 'crew_steps/Decoders', 'RunsWith', ''),
    ('crew_steps', 'Draining::run', 'runs', 'crew_steps/Drainings', 'RunsOut', ''),
    ('house', 'Held::settle_all', 'settles', 'house/Settling', 'SettlesInTurn', ''),
    ('frame_ledger', 'settle', 'balances', 'frame_ledger/Balance', 'Balances', ''),
    ('output_ring', 'Drainer::write_out', 'played', 'output_ring/Turns', 'WritesHand', ''),
    'what the commands are',
    ('mpd_text', 'words', 'found', 'mpd_text/Lines/Words', 'AreWordsOf', 'mpd_text: one_reading some_reading any_cut'),
    ('mpd_command', 'Request::of_line', '', 'mpd_command/Requests', 'request_of', 'command_laws: base_profile_asks_for_no_more'),
    ('queue_commands', 'run', 'transition', 'transitions/Transitions', 'IsDecidedBy',
     'command_laws: status_shows_world hidden_tags_are_left_out; queue_laws: edits_keep_the_others'),
    ('status_commands', 'run', 'transition', 'transitions/Transitions', 'IsDecidedBy',
     'queue_laws: what_is_set_is_shown outputs_are_shown; library_laws: messages_are_read_once'),
    ('library_commands', 'run', 'transition', 'transitions/Transitions', 'IsDecidedBy',
     'library_laws: found_songs_are_counted saved_lists_are_loaded stickers_are_as_set'),
    'which song comes next',
    ('play_order', 'Round::after_next', 'round', 'play_order/Ends', 'round_after', 'play_order: one_follows chooses_unplayed rounds_go_on'),
    ('player_core', 'Player::next', 'ok', 'player_core/Steps', 'after_next', 'player_core: next_goes_on rounds_play_each_once'),
    ('player_core', 'Player::have', 'feed', 'player_core/Decoding', 'have', 'player_core: feeds_once feeds_as_asked'),
    'songs, files, the playlist store',
    ('filters', 'Filter::parse', 'answer', 'filters/Answers', 'IsAnswer', 'filters: one_answer parsed_is_the_answer'),
    ('filters', 'Filter::matches', 'truth', 'filters/Truth', 'Holds', 'song_search: meets_is_truth'),
    ('song_groups', 'order', 'order', 'song_groups/Order', 'IsStablyOrdered', 'song_groups: one_order'),
    ('library_scan', 'scan_disk', 'scan', 'library_scan/Trees', 'IsScanOf', ''),
    ('wave', 'read_head', 'value', 'wave/Waves', 'wave_of', 'wave: chunks_are_those_of_the_bytes'),
    ('id3_tags', 'texts_of', '', 'id3_tags/Texts', 'id3_texts', 'id3_tags: frames_are_those_of_the_bytes'),
    ('pcm_mix', 'mix', '', 'pcm_mix/Blocks', 'block_of', ''),
    ('shelf_database', 'SqlShelf::over', 'opened', 'shelf_database/Opens', 'Opens', ''),
    'settings, the saved state, the command line',
    ('settings', 'settings', 'taken', 'settings/Values', 'Says', 'settings: one_cause'),
    ('opened_player', 'player_of', 'opened', 'opened_player/Opened', 'opened_by', 'state_laws: settings_are_set_up'),
    ('kept_state', 'kept_of', '', 'kept_state/Told', 'IsTold', ''),
    ('kept_state', 'state_text', '', 'kept_state/Texts', 'state_text', 'kept_state: gives_back; state_laws: players_come_back told_texts_come_back'),
    ('kept_state', 'partitions_of', '', 'kept_state/Partitions', 'IsPlayerTold', ''),
    ('kept_state', 'player_text', '', 'kept_state/Players', 'player_text',
     'kept_state: partitions_give_back; state_laws: partitions_come_back told_partitions_come_back'),
    ('kept_state', 'tell_lines', '', 'kept_state/Telling', 'TellsText', ''),
    ('serving', 'Keeper::look', 'state', 'serving/Keepers', 'WritesStateIf', ''),
    ('serving', 'restore_text', '', 'serving/Restoring', 'IsTextTold', ''),
    ('command_line', 'command_line', 'asks', 'command_line/Programs', 'Asks', 'command_line: readings'),
]


def code_of(crate, part='src', ending='.rt'):
    """The files in a folder of a crate, joined."""
    texts = []
    for at, folders, names in os.walk(os.path.join(TOP, 'crates', crate, part)):
        folders.sort()
        texts += [read(os.path.relpath(os.path.join(at, name), TOP)) for name in sorted(names) if name.endswith(ending)]
    return '\n'.join(texts)


def layers():
    """The layers with their crates, the highest layer first."""
    return [(title, crates) for title, crates in reversed(headings_of(TOP).items()) if title != TESTS]


def libraries():
    """The crates of all layers, the lowest first."""
    return [crate for _, crates in reversed(layers()) for crate in crates]


def below():
    """For each crate those crates of crates.txt that its line names."""
    lines = table_of(TOP)
    return {crate: [it for it in line.split(':')[1].split() if it in lines] for crate, line in lines.items()}


def all_below(crate, deps, found=None):
    found = set() if found is None else found
    for it in deps[crate]:
        if it not in found:
            found.add(it)
            all_below(it, deps, found)
    return found


# ---- what the tables say that is not true

def wrong_layers(deps):
    headings = headings_of(TOP)
    yield from ('%s is not under a heading of crates.txt' % crate for crate in headings.get('', []))
    if list(headings)[-1] != TESTS:
        yield 'the last heading of crates.txt is %s, and should be %s' % (list(headings)[-1], TESTS)
    if [crate for crates in headings.values() for crate in crates] != list(deps):
        yield 'a heading of crates.txt occurs twice'
    seen = set()
    for crate in deps:
        yield from ('%s depends on %s, whose line comes later' % (crate, it) for it in deps[crate] if it not in seen)
        seen.add(crate)


def clauses_of(crate, call):
    """For each function in a crate that has a call's name, its clauses by their names; '' is a clause without a name."""
    text = code_of(crate)
    for found in re.finditer(r'\bfn %s\b' % call.split('::')[-1], text):
        head = re.split(r'\n(?:    )?\{|\n(?:    )?}', text[found.end():], maxsplit=1)[0]
        yield dict(re.findall(r'(?s)ensures (\w*) ?\{(.*?)(?=ensures|\Z)', head))


def has_call(crate, call, clause='', definition=''):
    """Whether a crate has a call, and its clause names a definition."""
    return any(not definition or re.search(r'\b%s(?:_lem)?\b' % definition, clauses.get(clause, '')) for clauses in clauses_of(crate, call))


def wrong_way(name, way, deps):
    above = {}
    for step in way:
        if isinstance(step, str):
            continue
        depth, crate, call, _ = step
        above[depth] = crate
        if crate not in deps:
            yield '%s: there is no crate %s' % (name, crate)
        elif not has_call(crate, call):
            yield '%s: %s has no %s' % (name, crate, call)
        elif depth and crate != above[depth - 1] and crate not in all_below(above[depth - 1], deps):
            yield '%s: %s does not depend on %s' % (name, above[depth - 1], crate)


def wrong_fields():
    for _, crate, name, fields in HELD:
        body = re.search(r'(?m)^\s*pub(?:\(crate\))? struct %s\b[^\n]*\{\n(.*?)^\}' % name, code_of(crate), re.S)
        there = re.findall(r'(?m)^    (?:pub(?:\(crate\))? )?(\w+): ', body.group(1)) if body else []
        yield from ('what the lock holds: %s has no %s' % (name, it) for it in fields if it not in there)
        yield from ('what the lock holds: the field %s of %s is left out' % (it, name) for it in there if it not in fields)


def laws_of(text):
    for part in filter(None, text.split('; ')):
        crate, names = part.split(': ')
        yield from ((crate, name) for name in names.split())


def wrong_theorems():
    for row in THEOREMS:
        if isinstance(row, str):
            continue
        crate, call, clause, place, definition, laws = row
        if not has_call(crate, call, clause, definition):
            yield 'theorems: %s has no %s whose clause `%s` names %s' % (crate, call, clause, definition)
        home, _, path = place.partition('/')
        path = 'crates/%s/specs/%s.antt' % (home, path)
        if not os.path.exists(os.path.join(TOP, path)) or not re.search(r'(?m)^\s*(?:\w+ )*%s\b' % definition, read(path)):
            yield 'theorems: there is no %s in %s' % (definition, path)
        yield from ('theorems: %s has no law %s' % it for it in laws_of(laws) if not has_call(*it))


# ---- the diagrams

def layers_below(deps):
    """For each layer those that it depends on, without those that one of these depends on already."""
    place = {crate: at for at, (_, crates) in enumerate(layers()) for crate in crates}
    on = {at: {place[it] for crate in crates for it in deps[crate]} - {at} for at, (_, crates) in enumerate(layers())}
    return {at: sorted(on[at] - set().union(*(all_below(it, on) for it in on[at]))) for at in on}


def rows_of(crates, width):
    rows = ['']
    for crate in crates:
        if rows[-1] and len(rows[-1]) + len(crate) > width:
            rows.append('')
        rows[-1] += crate + '  '
    return rows


def draw_layers(deps):
    drawn, on = layers(), layers_below(deps)
    width = max(len(title) for title, _ in drawn)
    edge = '-' * (width + 62)
    lines = [edge]
    for at, (title, crates) in enumerate(drawn):
        for number, row in enumerate(rows_of(reversed(crates), 54)):
            head = ('%2d  %s' % (len(drawn) - at, title)) if number == 0 else ''
            foot = '   on ' + ', '.join(str(len(drawn) - it) for it in on[at]) if number == 0 and on[at] else ''
            lines.append(('%-*s  %-56s%s' % (width + 4, head, row, foot)).rstrip())
        lines.append(edge)
    return lines


def draw_way(way):
    width = max(3 * step[0] + len(step[1]) for step in way if not isinstance(step, str)) + 3
    lines = []
    for step in way:
        if isinstance(step, str):
            lines.append(step + ' ' + '-' * (100 - len(step)))
            continue
        depth, crate, call, does = step
        head = '   ' * (depth - 1) + ('└─' if depth else '') + crate
        lines.append(('%-*s %-22s %s' % (width, head, call, does)).rstrip())
    return lines


def draw_held():
    lines = []
    for depth, crate, name, fields in HELD:
        lines.append('%s%s%s (%s)' % ('   ' * (depth - 1), '└─' if depth else '', name, crate))
        told = [(field, what) for field, what in fields.items() if what]
        lines += ['%s   %-11s %s' % ('   ' * depth, field, what) for field, what in told]
        beside = [field for field, what in fields.items() if not what]
        if beside:
            lines.append('%s   %-11s %s' % ('   ' * depth, 'others', ', '.join(beside)))
    return lines


def draw_theorems():
    rows = [row for row in THEOREMS if not isinstance(row, str)]
    calls = {row: '%s: %s%s' % (row[0], row[1], ' (%s)' % row[2] if row[2] else '') for row in rows}
    first, second = max(map(len, calls.values())), max(len('%s: %s' % row[3:5]) for row in rows)
    lines = []
    for row in THEOREMS:
        if isinstance(row, str):
            lines.append(row)
            continue
        names = ', '.join(name for _, name in laws_of(row[5]))
        line = '   %s %s> %-*s' % (calls[row], '-' * (first + 1 - len(calls[row])), second, '%s: %s' % row[3:5])
        lines.append((line + (' <- ' + names if names else '')).rstrip())
    return lines


def waiting(crate):
    """The public calls of a crate that take a `Wait`, either themselves or through their type."""
    for block in re.split(r'(?m)^(?=impl\b|pub fn |pub struct )', code_of(crate)):
        head = block.split('{')[0] if block.startswith('impl') else ''
        kind = re.search(r'(\w+)(?:<[^{]*)?\s*$', re.sub(r'<[^<>]*>', '', re.sub(r'<[^<>]*>', '', head)).strip()) if head else None
        for found in re.finditer(r'(?m)^\s*pub fn (\w+)', block):
            signature = re.split(r'\n\s*(?:ensures|requires|\{)|\{\n', block[found.start():], maxsplit=1)[0]
            if re.search(r'\bWait\b', signature + head):
                yield (kind.group(1) + '::' if kind else '') + found.group(1)


def draw_waits():
    lines = []
    for crate in libraries():
        calls = list(waiting(crate))
        for number, row in enumerate(rows_of(calls, 84) if calls else []):
            lines.append(('%-15s %s' % (crate if number == 0 else '', row)).rstrip())
    return lines


def diagrams():
    return {'layers': draw_layers(below()), 'line': draw_way(LINE), 'frame': draw_way(FRAME), 'lock': draw_held(),
            'theorems': draw_theorems(), 'waits': draw_waits()}


# ---- compared and written

def with_diagrams(text, drawn):
    for name, lines in drawn.items():
        block = '<!-- %s -->\n```text\n%s\n```\n' % (name, '\n'.join(lines))
        text = re.sub(r'<!-- %s -->\n```text\n.*?```\n' % name, lambda _: block, text, flags=re.S)
    return text


def faults():
    deps = below()
    wrong = list(wrong_layers(deps))
    if not wrong:
        wrong += [*wrong_way("a line's way", LINE, deps), *wrong_way("a frame's way", FRAME, deps), *wrong_fields(), *wrong_theorems()]
        text, drawn = read(MAP), diagrams()
        wrong += ['%s has no diagram %s' % (MAP, name) for name in drawn if '<!-- %s -->\n```text\n' % name not in text]
        if text != with_diagrams(text, drawn):
            wrong.append('%s is out of date: run checks/map.py --write' % MAP)
    return wrong


def main():
    if '--write' in sys.argv[1:]:
        text = with_diagrams(read(MAP), diagrams())
        with open(os.path.join(TOP, MAP), 'w', encoding='utf-8') as file:
            file.write(text)
    wrong = faults()
    print('\n'.join(wrong) or 'the diagrams of %s are up to date' % MAP)
    return bool(wrong)


if __name__ == '__main__':
    sys.exit(main())
