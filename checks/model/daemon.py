"""The daemon: runs one event after another, and finds what each has changed for `idle`, and which waiting clients it wakes."""
import copy

import client_commands
import everyday_commands
import library_commands
import playback_commands
import queue_commands
import shelf_commands
from client_commands import Close
from commands import Speaker, typed
from library import tags_of_songs
from player import LimitReached
from words import ARGUMENT, SYSTEM, Ack, NoCommand, words_of
from world import GREATEST, SUBSYSTEMS, Client, World

# Importing these modules fills the table of commands.
COMMAND_MODULES = (client_commands, everyday_commands, library_commands, playback_commands, queue_commands, shelf_commands)


class Answer:
    """The answer to a client: lines, and then `OK`, a refusal, nothing, or the end of its connection."""

    def __init__(self, lines=(), ack=None, silent=False, closed=False, command=''):
        self.lines, self.ack, self.silent, self.closed, self.command = list(lines), ack, silent, closed, command

    def ending(self, place=0):
        """The lines that end the answer."""
        if self.closed:
            return ['closed']
        if self.ack:
            return ['ACK [%d@%d] {%s} %s' % (self.ack.number, place, self.command, self.ack.text)]
        return [] if self.silent else ['OK']


class Daemon:
    def __init__(self, limits, everyday, songs):
        self.world = World(limits, everyday, songs)
        self.window = self.events = 0
        # A script can reach this limit only if it has lowered it.
        self.can_reach_limit = limits['max_cut'] < GREATEST['max_cut']

    def event(self, act):
        """Runs one event completely, or not at all: returns its answer, and the notices to other clients, by client number."""
        if self.window == self.world.limits['history']:
            self.window = 0
        before = self.seen()
        saved = copy.deepcopy(self.world) if self.can_reach_limit else None
        try:
            answer = act(self.world)
        except LimitReached:
            self.world = saved
            raise
        self.window += 1
        self.events += 1
        for name, partition in self.world.partitions.items():
            partition.queue.note_changes(before['entries'].get(name, []))
        self.raise_changes(before)
        return answer, self.notices()

    def seen(self):
        """What is compared before and after an event."""
        world = self.world
        return {'shared': world.shared_parts(), 'parts': {name: world.parts_of(name) for name in world.partitions},
                'entries': {name: list(it.queue.entries) for name, it in world.partitions.items()},
                'clients': {number: (client.partition, bool(client.messages)) for number, client in world.clients.items()}}

    def raise_changes(self, before):
        world = self.world
        shared = world.shared_parts()
        for number, client in world.clients.items():
            if number not in before['clients']:
                continue
            partition, had_messages = before['clients'][number]
            if partition != client.partition:
                client.pending |= set(SUBSYSTEMS)
                continue
            old, new = before['parts'][partition], world.parts_of(partition)
            client.pending |= {name for name in shared if shared[name] != before['shared'][name]}
            client.pending |= {name for name in new if new[name] != old[name]}
            if client.messages and not had_messages:
                client.pending.add('message')

    def notices(self):
        """The notices to the clients that wait for something that is pending; a notice clears everything that is pending for its client."""
        found = {}
        for number, client in sorted(self.world.clients.items()):
            if client.waits and client.pending & client.waits_for:
                found[number] = ['changed: ' + name for name in SUBSYSTEMS if name in client.pending & client.waits_for]
                client.waits_for, client.pending = None, set()
        return found

    # Events of clients.

    def connect(self, number):
        def act(world):
            world.clients[number] = Client(number, tags_of_songs(world.everyday))
        return self.event(act)

    def disconnect(self, number):
        return self.event(lambda world: world.clients.pop(number, None))

    def line(self, number, line, in_list=False):
        """Runs one line of a client: its answer, and the notices to others. If the client itself gets a notice, this is its answer, to `idle`."""
        try:
            answer, notices = self.event(lambda world: self.answer(world, world.clients[number], line, in_list))
        except LimitReached:
            return Answer(ack=Ack(SYSTEM, 'player limit reached'), command=words_of(line)[0]), {}
        if number in notices:
            answer = Answer(notices.pop(number))
        return answer, notices

    def answer(self, world, client, line, in_list):
        words = []
        try:
            words = words_of(line)
        except Ack as ack:
            fault = ack
        else:
            fault = None
        if client.waits and (in_list or words != ['noidle']):
            del world.clients[client.number]
            return Answer(closed=True)
        if fault:
            return Answer(ack=fault)
        try:
            command, arguments = typed(words, world)
        except Ack as ack:
            return Answer(ack=ack, command='' if isinstance(ack, NoCommand) else words[0])
        return run(Speaker(world, client), command, arguments, in_list)


def run(speaker, command, arguments, in_list):
    if command.name in ('idle', 'noidle'):
        if in_list:
            return Answer(ack=Ack(ARGUMENT, 'not allowed in a list'), command=command.name)
        waited = speaker.client.waits
        command.run(speaker, *arguments)
        return Answer(silent=command.name == 'idle' or not waited)
    try:
        return Answer(command.run(speaker, *arguments) or [])
    except Close:
        del speaker.world.clients[speaker.client.number]
        return Answer(closed=True)
    except Ack as ack:
        return Answer(ack=ack, command=command.name)
