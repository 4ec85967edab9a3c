#!/usr/bin/env python3
"""Kills the daemon with kill -9 while clients save: after the next start, the playlist store must be as it was before the change that was being
made, or as it is after it.

    checks/serve/killed.py [PROGRAM] [--times N]      (by default 100 times)

Two clients save playlists, change them and set stickers, as fast as they get answers. The daemon is killed at a random moment and started again
with the same file. Every change that was answered must be there completely, and the one that was not answered either completely or not at all.
"""
import os
import random
import sys
import tempfile
import threading
import time

sys.dont_write_bytecode = True

from daemon import Daemon, Table, given_to, program_of, put_songs

LONGEST = 0.15  # how many seconds the clients have at most before the kill


class Saver(threading.Thread):
    """A client with its own lists and stickers: those that it knows to be saved, and what the change that is being made would turn them into."""

    def __init__(self, daemon, number, songs, seed, lists, stickers):
        super().__init__()
        self.client, self.number, self.songs, self.draw = daemon.client(), number, songs, random.Random(seed)
        self.lists, self.stickers, self.under_way, self.made = lists, stickers, None, 0

    def change(self):
        """A random change: its line, and the lists and stickers after it."""
        lists, stickers = dict(self.lists), dict(self.stickers)
        name = 'list %d %d' % (self.number, self.draw.randrange(6))
        song = self.draw.choice(self.songs)
        kind = self.draw.randrange(5)
        if kind == 0 and name in lists:
            del lists[name]
            return 'rm "%s"' % name, lists, stickers
        if kind == 1 and name in lists and name + ' old' not in lists:
            lists[name + ' old'] = lists.pop(name)
            return 'rename "%s" "%s old"' % (name, name), lists, stickers
        if kind == 2:
            value = str(self.draw.randrange(1000))
            stickers[song, 'mark %d' % self.number] = value
            return 'sticker set song "%s" "mark %d" %s' % (song, self.number, value), lists, stickers
        if kind == 3 and name not in lists:
            lists[name] = list(self.songs)
            return 'save "%s"' % name, lists, stickers
        lists[name] = lists.get(name, []) + [song]
        return 'playlistadd "%s" "%s"' % (name, song), lists, stickers

    def run(self):
        try:
            while True:
                line, lists, stickers = self.change()
                self.under_way = (lists, stickers)
                if self.client.ask(line) != ['OK']:
                    return
                self.lists, self.stickers, self.under_way = lists, stickers, None
                self.made += 1
        except OSError:
            pass

    def kept(self, client):
        """The lists and stickers of this client, as the daemon has them now."""
        names = [line[10:] for line in client.must('listplaylists') if line.startswith('playlist: list %d ' % self.number)]
        lists = {name: [line[6:] for line in client.must('listplaylist "%s"' % name)] for name in names}
        stickers, name = {}, 'mark %d' % self.number
        for line in client.must('sticker find song "" "%s"' % name):
            key, _, value = line.partition(': ')
            if key == 'file':
                song = value
            else:
                stickers[song, name] = value.partition('=')[2]
        return lists, stickers


def main():
    given = given_to('Kills the daemon with kill -9 while clients save.', times=(100, 'how many times'))
    program = program_of(given.program)
    draw = random.Random(7)
    table = Table('kill -9 while clients save', 40, 60)
    counts = {'before': 0, 'after': 0, 'no change': 0, 'WRONG': 0}
    made = 0
    with tempfile.TemporaryDirectory() as folder:
        music, shelf = os.path.join(folder, 'music'), os.path.join(folder, 'shelf.db')
        put_songs(music, 40, 100)
        known = [({}, {}), ({}, {})]
        for time_number in range(given.times + 1):
            daemon = Daemon(program, folder, music, shelf=shelf)
            client = daemon.client()
            if time_number > 0:
                for number, saver in enumerate(savers):
                    found = saver.kept(client)
                    answered = (saver.lists, saver.stickers)
                    if found == answered:
                        counts['before' if saver.under_way else 'no change'] += 1
                    elif found == saver.under_way:
                        counts['after'] += 1
                    else:
                        counts['WRONG'] += 1
                    known[number] = found
            if time_number == given.times:
                break
            songs = sorted(line[6:] for line in client.must('listall'))
            client.must('add ""')
            savers = [Saver(daemon, number, songs, 100 * time_number + number, *known[number]) for number in range(2)]
            for saver in savers:
                saver.start()
            time.sleep(draw.random() * LONGEST)
            daemon.kill()
            for saver in savers:
                saver.join()
            made += sum(saver.made for saver in savers)
        status, _ = daemon.end()
    table.row('times killed', given.times)
    table.row('changes that were answered', made, right=made > 0)
    names = {'before': 'the store was as before the change', 'after': 'the store was as after the change',
             'no change': 'no change was being made', 'WRONG': 'the store was something else'}
    for name, count in counts.items():
        table.row(names[name], count, right=name != 'WRONG' or count == 0)
    table.row('a change was being made at the kill', counts['before'] + counts['after'], right=counts['before'] + counts['after'] > 0)
    table.row('exit status of the last daemon', status, right=status == 0)
    return table.status()


if __name__ == '__main__':
    sys.exit(main())
