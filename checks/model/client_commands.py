"""Commands for the connection, for messages between clients, and for partitions."""
import re

from commands import command, names
from library import EVERYDAY_TAGS
from words import ARGUMENT, EXISTS, NOT_THERE, SYSTEM, Ack, bad_argument, bad_name, text
from world import SUBSYSTEMS, Partition

MOST_CHANNELS, MOST_MESSAGES, MOST_PARTITIONS = 16, 64, 16


class Close(Exception):
    """The client's connection is closed."""


@command('ping')
def ping(speaker):
    return []


@command('close')
def close(speaker):
    raise Close()


@command('commands')
def list_commands(speaker):
    return ['command: ' + name for name in names(speaker.world)]


@command('notcommands')
def notcommands(speaker):
    return ['command: kill']


@command('tagtypes')
def tagtypes(speaker):
    return ['tagtype: ' + tag for tag in EVERYDAY_TAGS if tag in speaker.client.tags]


def subsystem_names(known):
    def read(arguments):
        for word in arguments:
            if word not in known:
                raise bad_argument(word)
        return [arguments]
    return read


@command('idle', read=subsystem_names(SUBSYSTEMS))
def idle(speaker, wanted):
    speaker.client.waits_for = set(wanted or SUBSYSTEMS)


@command('noidle')
def noidle(speaker):
    speaker.client.waits_for = None


# Messages.

def channel_name(word):
    if not re.fullmatch('[A-Za-z0-9_.:-]+', word):
        raise bad_name(word)
    return word


@command('subscribe', text)
def subscribe(speaker, channel):
    channels = speaker.client.channels
    if channel_name(channel) in channels:
        raise Ack(EXISTS, 'already subscribed')
    if len(channels) == MOST_CHANNELS:
        raise Ack(SYSTEM, 'too many subscriptions')
    channels.append(channel)


@command('unsubscribe', text)
def unsubscribe(speaker, channel):
    if channel_name(channel) not in speaker.client.channels:
        raise Ack(NOT_THERE, 'not subscribed')
    speaker.client.channels.remove(channel)


@command('channels')
def list_channels(speaker):
    here = speaker.world.clients_of(speaker.client.partition)
    return ['channel: ' + channel for channel in sorted({it for client in here for it in client.channels})]


@command('sendmessage', text, text)
def sendmessage(speaker, channel, message):
    channel_name(channel)
    here = speaker.world.clients_of(speaker.client.partition)
    subscribers = [client for client in here if channel in client.channels]
    if not subscribers:
        raise Ack(NOT_THERE, 'nobody is subscribed')
    with_room = [client for client in subscribers if len(client.messages) < MOST_MESSAGES]
    if not with_room:
        raise Ack(NOT_THERE, 'no subscriber has room')
    for client in with_room:
        client.messages.append((channel, message))


@command('readmessages')
def readmessages(speaker):
    lines = [line for channel, message in speaker.client.messages for line in ('channel: ' + channel, 'message: ' + message)]
    speaker.client.messages = []
    return lines


# Partitions.

def partition_name(word):
    if not re.fullmatch('[A-Za-z0-9_-]{1,64}', word):
        raise bad_name(word)
    return word


def known_partition(speaker, name):
    if partition_name(name) not in speaker.world.partitions:
        raise Ack(NOT_THERE, 'no such partition')
    return name


@command('partition', text)
def partition(speaker, name):
    client = speaker.client
    if known_partition(speaker, name) != client.partition:
        client.partition, client.channels, client.messages = name, [], []


@command('listpartitions')
def listpartitions(speaker):
    return ['partition: ' + name for name in sorted(speaker.world.partitions)]


@command('newpartition', text)
def newpartition(speaker, name):
    if partition_name(name) in speaker.world.partitions:
        raise Ack(EXISTS, 'partition exists')
    if len(speaker.world.partitions) == MOST_PARTITIONS:
        raise Ack(SYSTEM, 'too many partitions')
    speaker.world.partitions[name] = Partition(name, speaker.world.limits)


@command('delpartition', text)
def delpartition(speaker, name):
    if known_partition(speaker, name) == 'default':
        raise Ack(ARGUMENT, 'partition is the default')
    if speaker.world.clients_of(name) or speaker.world.outputs_of(name):
        raise Ack(SYSTEM, 'partition is in use')
    del speaker.world.partitions[name]


@command('moveoutput', text)
def moveoutput(speaker, name):
    for output in speaker.world.outputs:
        if output.name == name:
            if output.partition != speaker.client.partition:
                output.moves = speaker.world.one_more(output.moves)
                output.partition = speaker.client.partition
            return
    raise Ack(NOT_THERE, 'no such output')
