"""Commands that play, set modes, switch outputs, and show the player's state."""
from commands import command
from entries import span_of
from library import RATE, seconds, whole_seconds
from queue_commands import known_id, known_place, shown_places
from words import NOT_THERE, SYNC, SYSTEM, Ack, boolean, milliseconds, number, number_up_to, one_of, signed


def not_stopped(speaker):
    if speaker.player.state == 'stop':
        raise Ack(SYNC, 'not playing')


@command('play', optional=[number])
def play(speaker, place=None):
    speaker.player.play(None if place is None else speaker.queue.entries[known_place(speaker, place)])


@command('playid', optional=[number])
def playid(speaker, entry_id=None):
    speaker.player.play(None if entry_id is None else speaker.queue.entries[known_id(speaker, entry_id)])


@command('pause', optional=[boolean])
def pause(speaker, paused=None):
    speaker.player.pause(paused)


@command('stop')
def stop(speaker):
    speaker.player.stop()


@command('next')
def next_song(speaker):
    not_stopped(speaker)
    speaker.player.next()


@command('previous')
def previous(speaker):
    not_stopped(speaker)
    speaker.player.previous()


@command('seek', number, milliseconds)
def seek(speaker, place, time):
    speaker.player.seek(speaker.queue.entries[known_place(speaker, place)], time)


@command('seekid', number, milliseconds)
def seekid(speaker, entry_id, time):
    speaker.player.seek(speaker.queue.entries[known_id(speaker, entry_id)], time)


@command('seekcur', signed(milliseconds))
def seekcur(speaker, where):
    not_stopped(speaker)
    sign, time = where
    player = speaker.player
    if sign:
        time = player.elapsed + time if sign == '+' else player.elapsed - time
    player.seek(player.entry, time)


@command('repeat', boolean)
def repeat(speaker, on):
    speaker.order.repeat = on


@command('random', boolean)
def random(speaker, on):
    speaker.order.turn_random(on, speaker.queue.entries, speaker.player.current)


@command('single', one_of('0', '1', 'oneshot'))
def single(speaker, mode):
    speaker.order.single = mode


@command('consume', one_of('0', '1', 'oneshot'))
def consume(speaker, mode):
    speaker.order.consume = mode


@command('crossfade', number_up_to(3600))
def crossfade(speaker, time):
    speaker.player.fade_seconds = time


@command('setvol', number_up_to(100))
def setvol(speaker, volume):
    speaker.player.volume = volume


@command('getvol')
def getvol(speaker):
    return ['volume: %d' % speaker.player.volume]


@command('clearerror')
def clearerror(speaker):
    speaker.player.error = None


def entry_lines(speaker, entry, place_name, id_name):
    if entry is None:
        return []
    return ['%s: %d' % (place_name, speaker.queue.place_of(entry.id)), '%s: %d' % (id_name, entry.id)]


def time_lines(speaker):
    """The lines about the player's position in its song, if it is not stopped."""
    player = speaker.player
    if player.state == 'stop':
        return []
    lines = ['elapsed: ' + seconds(player.elapsed), 'duration: ' + span_of(player.entry), 'audio: %d:16:2' % RATE]
    if speaker.world.everyday:
        lines.insert(0, 'time: %d:%d' % (whole_seconds(player.elapsed), whole_seconds(player.entry.song.milliseconds)))
    return lines


@command('status')
def status(speaker):
    player, order = speaker.player, speaker.order
    lines = ['volume: %d' % player.volume, 'repeat: %d' % order.repeat, 'random: %d' % order.random, 'single: ' + order.single,
             'consume: ' + order.consume, 'partition: ' + speaker.partition.name, 'playlist: %d' % speaker.queue.version,
             'playlistlength: %d' % len(speaker.queue), 'state: ' + player.state]
    lines += entry_lines(speaker, player.entry, 'song', 'songid')
    lines += entry_lines(speaker, player.peek(), 'nextsong', 'nextsongid')
    lines += time_lines(speaker)
    if player.fade_seconds:
        lines.append('xfade: %d' % player.fade_seconds)
    if speaker.world.scan is not None:
        lines.append('updating_db: %d' % speaker.world.scan)
    if player.error is not None:
        lines.append('error: ' + player.error)
    return lines


@command('currentsong')
def currentsong(speaker):
    place = speaker.queue.place_of(speaker.player.current)
    return [] if place is None else shown_places(speaker, [place])


# Outputs.

@command('outputs')
def outputs(speaker):
    return [line for output in speaker.world.outputs_of(speaker.client.partition)
            for line in ('outputid: %d' % output.number, 'outputname: ' + output.name, 'plugin: raw', 'outputenabled: %d' % output.enabled)]


def set_output(speaker, output_number, wanted):
    """Switches an output of the client's partition on or off; toggles it if `wanted` is None."""
    for output in speaker.world.outputs_of(speaker.client.partition):
        if output.number == output_number:
            on = not output.enabled if wanted is None else wanted
            if on and output.has_failed:
                raise Ack(SYSTEM, 'output has failed')
            output.enabled = on
            return
    raise Ack(NOT_THERE, 'no such output')


@command('enableoutput', number)
def enableoutput(speaker, output_number):
    set_output(speaker, output_number, True)


@command('disableoutput', number)
def disableoutput(speaker, output_number):
    set_output(speaker, output_number, False)


@command('toggleoutput', number)
def toggleoutput(speaker, output_number):
    set_output(speaker, output_number, None)
