"""Tests what the installed package does for a household, in the Debian folder of checks/package.py: the queue comes back after `kill -9`, the
sound card plays by the command of its unit, the FIFOs are those of the settings, Avahi finds the daemon, and the licences are there.

The sound card is a file here (ALSA's `file` on top of `null`), which takes frames as fast as they come.
"""
import os
import re
import shutil
import signal
import struct
import subprocess
import sys
import time
import xml.etree.ElementTree

sys.dont_write_bytecode = True
sys.path.insert(0, os.path.join(os.path.dirname(os.path.abspath(__file__)), 'serve'))

import release
from daemon import ROOT, Process, wave

STATE, RUN, SETTINGS = 'var/lib/music_daemon', 'run/music_daemon', 'etc/music_daemon.toml'
SCRIPTS, DOCUMENTS = '/usr/lib/music_daemon/', 'usr/share/doc/music-daemon'
ALSA_UNIT, AVAHI = 'usr/lib/systemd/system/music_daemon_alsa@.service', 'etc/avahi/services/music_daemon.service'
# the Debian packages that these tests need in the folder
NEEDED = ('alsa-utils', 'avahi-daemon', 'avahi-utils', 'dbus')
SECONDS = 30          # how long to wait at most
KEPT = ('volume', 'repeat', 'random', 'single', 'playlistlength')
SOUND_FRAMES = 44100
TONE, ALSA_SETTINGS = STATE + '/music/tone.wav', 'etc/asound.conf'


def content(path):
    with open(path, 'rb') as file:
        return file.read()


def last_of(told):
    return told.splitlines()[-1] if told else ''


def soon(is_so, seconds=SECONDS):
    """Waits until something is so; whether it was in time."""
    end = time.monotonic() + seconds
    while not is_so():
        if time.monotonic() > end:
            return False
        time.sleep(0.2)
    return True


def put_port(debian, port):
    text = content(debian.path(SETTINGS)).decode()
    with open(debian.path(SETTINGS), 'w') as file:
        file.write(text.replace('127.0.0.1:6600', '127.0.0.1:%d' % port))


def serve(debian, port, folder, environment):
    """Starts the daemon with the settings of the package, as the package's user."""
    words = ['chroot', '--userspec=music_daemon:audio', debian.root, '/usr/bin/music_daemon', 'serve', '--config', '/' + SETTINGS]
    return Process(words, port, folder, environment=environment)


# ---- the licences

def check_licences(rows, debian):
    """Checks that the copyright file has the project's own licence word for word, and the text of each licence that it names."""
    text = content(debian.path(DOCUMENTS + '/copyright')).decode()
    words = re.sub(r'(?m)^ \.$', '', text).split()
    own = content(os.path.join(ROOT, 'LICENSE')).decode().partition('\n')[2].split('\n')
    holder = next(line for line in own if line.startswith('Copyright'))
    licence = ' '.join(own[own.index(holder) + 1:]).split()
    has_own = ' '.join(licence) in ' '.join(words) and 'Copyright: ' + holder.partition('(c) ')[2] in text
    rows.row("the project's licence", 'word for word' if has_own else 'missing', right=has_own)
    paragraphs = text.split('\n\n')
    named = {name for part in paragraphs if part.startswith('Files:') and not re.search(r'(?m)^License: .*\n ', part)
             for name in re.search(r'(?m)^License: (.*)$', part).group(1).split(' and ')}
    texts = {part.split('\n')[0][len('License: '):] for part in paragraphs if part.startswith('License:') and '\n ' in part}
    rows.row('licences that are named', ', '.join(sorted(named)), right=bool(named) and named == texts)
    missing = release.unnamed(text)
    rows.row('libraries', 'missing: ' + ', '.join(missing) if missing else '%d, each named' % len(release.libraries()), right=not missing)


# ---- the saved state

def known_of(client):
    files = [line for line in client.must('playlistinfo') if line.startswith('file: ')]
    return files, {key: client.value('status', key) for key in KEPT}


def check_state(rows, debian, daemon, folder, environment):
    """Checks that with the installed settings the queue and the modes are there again after `kill -9`. Returns the daemon that runs then."""
    client = daemon.client()
    for line in ('add "album 00/0003.wav"', 'add "album 01/0011.wav"', 'add "album 00/0001.wav"', 'prio 7 1', 'setvol 41', 'repeat 1',
                 'random 1', 'single 1'):
        client.must(line)
    before = known_of(client)
    kept = soon(lambda: os.path.exists(debian.path(STATE + '/state')) and b'0001.wav' in content(debian.path(STATE + '/state')))
    time.sleep(3)    # a change is written after two seconds at most
    client.close()
    daemon.kill()
    rows.row('the saved state', ' '.join(map(str, debian.owner(STATE + '/state') or ['is not there'])),
             right=kept and debian.owner(STATE + '/state')[0] == 'music_daemon')
    daemon = serve(debian, daemon.port, folder, environment)
    client = daemon.client()
    after = known_of(client)
    for line in ('clear', 'setvol 100', 'repeat 0', 'random 0', 'single 0'):
        client.must(line)
    client.close()
    shown = '%d songs, volume %s, repeat %s' % (len(after[0]), after[1]['volume'], after[1]['repeat'])
    rows.row('after kill -9', shown, right=after == before)
    return daemon


# ---- the sound card

def words_of_unit(debian, instance):
    """The command that the sound card's unit runs for an instance."""
    line = re.search(r'(?m)^ExecStart=(.*)$', content(debian.path(ALSA_UNIT)).decode()).group(1)
    return line.replace('%i', instance).split()


def check_fifos(rows, debian):
    """Checks that a start makes the FIFOs that the settings name, and removes those that they no longer name."""
    folder, settings = debian.path('tmp/fifos'), debian.path('tmp/fifos.toml')
    os.makedirs(folder)
    open(os.path.join(folder, 'notes'), 'w').close()
    seen = []
    for names in (('speakers', 'kitchen'), ('kitchen', 'a.b-c_1', 'living room'), ()):
        with open(settings, 'w') as file:
            file.write(''.join('[[output]]\nname = "%s"\n  path="/tmp/fifos/%s" # a room\n' % (name, name) for name in names)
                       + '# path = "/tmp/fifos/remark"\npath = "/tmp/elsewhere"\n')
        status, told = debian.run(SCRIPTS + 'fifos', '/tmp/fifos.toml', '/tmp/fifos')
        modes = {debian.owner('tmp/fifos/' + name)[2] for name in names}
        seen.append((status, told, sorted(os.listdir(folder)) == sorted(names + ('notes',)) and modes <= {'prw-r-----'}))
    open(os.path.join(folder, 'speakers'), 'w').close()
    with open(settings, 'w') as file:
        file.write("path = '/tmp/fifos/speakers'\n")
    refused = debian.run(SCRIPTS + 'fifos', '/tmp/fifos.toml', '/tmp/fifos')
    rows.row('a plain file in place of a FIFO', last_of(refused[1]), right=refused[0] == 1 and 'File exists' in refused[1])
    shutil.rmtree(folder)
    right = seen == [(0, '', True)] * 3
    rows.row('just the FIFOs that the settings name', 'yes' if right else seen, right=right)


def check_rate(rows, debian):
    """Checks that aplay gets the rate of the settings; a program in its place prints its arguments."""
    os.makedirs(debian.path('tmp/bin'))
    with open(debian.path('tmp/bin/aplay'), 'w') as file:
        file.write('#!/bin/sh\necho "$*"\n')
    os.chmod(debian.path('tmp/bin/aplay'), 0o755)
    told = []
    for line in ('rate = 48000\n', '# rate = 8000\n', 'rate=96_000 # a remark\n'):
        with open(debian.path('tmp/rate.toml'), 'w') as file:
            file.write(line)
        told.append(debian.run('env', 'PATH=/tmp/bin:/usr/bin:/bin', SCRIPTS + 'alsa', '/tmp/rate.toml', '/tmp/fifo')[1])
    shutil.rmtree(debian.path('tmp/bin'))
    rates = [re.search(r'-r (\d+) ', it + ' ').group(1) if '-r ' in it else it for it in told]
    rows.row('the rate of the settings', ' '.join(rates), right=rates == ['48000', '44100', '96000'])
    rows.row('the arguments of aplay', told[0], right=told[0] == '-q -t raw -f S16_LE -c 2 -r 48000 --period-time=25000 /tmp/fifo')


def play_tone(debian, daemon):
    """Adds a song to the music, and plays it to its end: the bytes that should be heard, and whether the output is still on."""
    frames = [((7 * at) % 65536 - 32768, (-11 * at) % 65536 - 32768) for at in range(SOUND_FRAMES)]
    with open(debian.path(TONE), 'wb') as file:
        file.write(wave(frames, tags=[(b'INAM', 'Tone')]))
    client = daemon.client()
    client.must('update')
    soon(lambda: client.value('status', 'updating_db') is None)
    client.must('add tone.wav')
    client.must('play')
    soon(lambda: client.value('status', 'state') == 'stop')
    is_on = client.value('outputs', 'outputenabled') == '1'
    client.close()
    return b''.join(struct.pack('<hh', *frame) for frame in frames), is_on


def ended_with(daemon, card):
    """How aplay ends when the daemon does."""
    daemon.process.send_signal(signal.SIGTERM)
    daemon.process.wait(SECONDS)
    try:
        told = card.communicate(timeout=SECONDS)[0].decode(errors='replace').strip()
    except subprocess.TimeoutExpired:
        card.kill()
        return 'it does not end'
    return 'status %d' % card.returncode + (': ' + last_of(told) if card.returncode else '')


def check_sound(rows, debian, daemon):
    """Checks that the unit's command, run as the package's user, plays a song on the sound card. The daemon is ended here."""
    with open(debian.path(ALSA_SETTINGS), 'w') as file:
        file.write('pcm.!default { type file slave.pcm null file /tmp/heard.raw format raw }\n')
    words = ['chroot', '--userspec=music_daemon:audio', debian.root, *words_of_unit(debian, 'speakers')]
    card = subprocess.Popen(words, stdin=subprocess.DEVNULL, stdout=subprocess.PIPE, stderr=subprocess.STDOUT,
                            env={'PATH': '/usr/sbin:/usr/bin:/bin', 'LC_ALL': 'C'})
    wanted, is_on = play_tone(debian, daemon)
    heard = debian.path('tmp/heard.raw')
    # Frames that do not fill a period are passed on only when the FIFO ends.
    soon(lambda: os.path.exists(heard) and os.path.getsize(heard) > len(wanted) // 2)
    time.sleep(2)
    ended = ended_with(daemon, card)
    found = content(heard) if os.path.exists(heard) else b''
    front = len(os.path.commonprefix([found, wanted]))
    rows.row('the song on the sound card', '%d of %d frames, output %s' % (front // 4, SOUND_FRAMES, 'on' if is_on else 'off'),
             right=is_on and front == len(wanted) and not found[front:].strip(b'\0'))
    rows.row('aplay ends with the daemon', ended, right=ended == 'status 0')
    os.remove(debian.path(TONE))
    os.remove(debian.path(ALSA_SETTINGS))


def check_listening(rows, debian, daemon):
    """Checks how the wait for a start ends: with status 0 when the process listens, and with 1 if it ends before that."""
    status = debian.run(SCRIPTS + 'listening', str(daemon.process.pid), user='music_daemon:audio')
    rows.row('a start is complete once the daemon listens', 'status %d' % status[0], right=status == (0, ''))
    other = subprocess.Popen(['sleep', '1'])
    ask = subprocess.Popen(['chroot', debian.root, SCRIPTS + 'listening', str(other.pid)])
    other.wait()
    rows.row('a start has failed if the daemon has ended', 'status %d' % ask.wait(SECONDS), right=ask.returncode == 1)


# ---- the network

def check_avahi(rows, debian):
    """Checks that avahi-browse finds the daemon, in a network namespace that has only the loopback interface."""
    found = xml.etree.ElementTree.parse(debian.path(AVAHI)).getroot().find('service')
    told = found.findtext('type'), found.findtext('port')
    rows.row('the Avahi file', ' '.join(told), right=told == ('_mpd._tcp', '6600'))
    done = subprocess.run(['unshare', '--net', sys.executable, os.path.abspath(__file__), debian.root], stdout=subprocess.PIPE, timeout=120)
    lines = [line.split(';') for line in done.stdout.decode(errors='replace').splitlines() if line.startswith('=;')]
    shown = ' '.join([lines[0][3].replace('\\032', ' '), lines[0][4], lines[0][8]]) if lines else 'nothing'
    rows.row('avahi-browse', shown, right=bool(lines) and shown.startswith('music_daemon on ') and lines[0][8] == '6600')


def browse(root):
    """Prints what avahi-browse finds; this runs in the network namespace."""
    import fcntl
    import socket
    with socket.socket() as door:
        # bring `lo` up, with multicast
        fcntl.ioctl(door, 0x8914, struct.pack('16sh14x', b'lo', 0x1 | 0x8 | 0x40 | 0x1000))
    for name in ('dbus', 'avahi-daemon'):
        shutil.rmtree(os.path.join(root, 'run', name), ignore_errors=True)
    os.makedirs(os.path.join(root, 'run/dbus'))
    servers, quiet = [], dict.fromkeys(('stdin', 'stdout', 'stderr'), subprocess.DEVNULL)
    for words, sign in ((['dbus-daemon', '--system', '--nofork', '--nopidfile'], 'run/dbus/system_bus_socket'),
                        (['avahi-daemon', '--no-chroot', '--no-rlimits'], 'run/avahi-daemon/socket')):
        servers.append(subprocess.Popen(['chroot', root, *words], **quiet))
        soon(lambda: os.path.exists(os.path.join(root, sign)), 10)
    ask = ['chroot', root, 'avahi-browse', '--parsable', '--resolve', '--terminate', '_mpd._tcp']
    told = []

    def found():
        told[:] = [subprocess.run(ask, stdout=subprocess.PIPE, stderr=subprocess.DEVNULL).stdout.decode(errors='replace')]
        return '=;' in told[0]
    soon(found)
    for server in reversed(servers):
        server.terminate()
        server.wait()
    print(told[0], end='')


def check(rows, debian, daemon, folder, environment):
    """Makes all these tests, with the daemon that runs, and returns the one that runs at the end."""
    check_licences(rows, debian)
    check_fifos(rows, debian)
    check_rate(rows, debian)
    check_avahi(rows, debian)
    if not daemon:
        return None
    daemon = check_state(rows, debian, daemon, folder, environment)
    check_listening(rows, debian, daemon)
    check_sound(rows, debian, daemon)
    return serve(debian, daemon.port, folder, environment)


if __name__ == '__main__':
    browse(sys.argv[1])
