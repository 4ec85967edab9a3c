"""Everything that the clients of a daemon share, and which part of it each subsystem of `idle` is about."""
from entries import Queue
from library import Library
from player import LimitReached, Player
from shelf import Shelf

GREATEST = {'max_queue': 16384, 'max_version': 2147483647, 'max_id': 2147483647, 'max_cut': 2**63 - 1, 'history': 4096}
SUBSYSTEMS = ('database', 'update', 'stored_playlist', 'playlist', 'player', 'mixer', 'output', 'options', 'sticker', 'subscription',
              'message', 'partition')
SEED = 0


class Partition:
    """A queue, and its player."""

    def __init__(self, name, limits):
        self.name = name
        self.queue = Queue(limits)
        self.player = Player(self.queue, limits['max_cut'], SEED)


class Client:
    def __init__(self, number, tags):
        self.number = number
        self.partition = 'default'
        self.pending = set()
        self.waits_for = None
        self.channels = []
        self.messages = []
        self.tags = set(tags)

    @property
    def waits(self):
        return self.waits_for is not None


class Output:
    def __init__(self, number, name):
        self.number, self.name = number, name
        self.partition = 'default'
        self.enabled, self.has_failed = True, False
        self.moves = 0


class World:
    def __init__(self, limits, everyday, songs):
        self.limits, self.everyday = limits, everyday
        self.library = Library(songs)
        self.scans = 0
        self.scan = None
        self.shelf = Shelf()
        self.partitions = {'default': Partition('default', limits)}
        self.outputs = [Output(0, 'out0')]
        self.clients = {}

    def one_more(self, number):
        if number >= self.limits['max_cut']:
            raise LimitReached()
        return number + 1

    def outputs_of(self, name):
        return [output for output in self.outputs if output.partition == name]

    def clients_of(self, name):
        return [client for _, client in sorted(self.clients.items()) if client.partition == name]

    def shared_parts(self):
        """What those subsystems are about that all partitions share."""
        return {'database': self.library.songs, 'update': self.scan is not None, 'stored_playlist': dict(self.shelf.lists),
                'sticker': dict(self.shelf.stickers), 'partition': sorted(self.partitions)}

    def parts_of(self, name):
        """What the other subsystems are about in a partition. Messages are not here, since each client has its own."""
        partition = self.partitions[name]
        player, order = partition.player, partition.player.order
        return {'playlist': list(partition.queue.entries),
                'player': (player.state, player.current, player.starts, player.cuts, player.error),
                'mixer': player.volume,
                'output': [(output.number, output.enabled) for output in self.outputs_of(name)],
                'options': (order.repeat, order.random, order.single, order.consume, player.fade_seconds),
                'subscription': {client.number: sorted(client.channels) for client in self.clients_of(name) if client.channels}}
