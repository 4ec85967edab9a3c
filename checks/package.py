#!/usr/bin/env python3
"""Tests the Debian package that packaging/deb makes, in a fresh Debian: its installation; that the daemon serves, saves its queue, plays, and
is found on the network (household.py); an upgrade; and a purge.

    checks/package.py [PROGRAM] [--suite bookworm] [--mirror URL] [--base FOLDER]

This needs root, the network, and the Debian packages debootstrap and binutils; if systemd-analyze is installed, it checks the units. FOLDER is
a folder that debootstrap has made; it is copied, instead of making a new one. Everything is done in a temporary folder, and in separate
namespaces for processes and mounts, so that nothing is left afterwards.
"""
import argparse
import hashlib
import os
import re
import shutil
import signal
import stat
import subprocess
import sys
import tempfile

sys.dont_write_bytecode = True
HERE = os.path.dirname(os.path.abspath(__file__))
sys.path.insert(0, os.path.join(HERE, 'serve'))

import household
import release
from daemon import ROOT, Table, arguments_of, free_port, program_of, put_songs
from household import ALSA_UNIT, AVAHI, DOCUMENTS, RUN, SETTINGS, STATE, content, last_of

DEB = os.path.join(ROOT, 'packaging', 'deb')
SYSTEM, USER = 'usr/lib/systemd/system/music_daemon.service', 'usr/lib/systemd/user/music_daemon.service'
# the links that enable the units
WANTED = ('multi-user.target.wants/music_daemon.service', 'music_daemon.service.wants/music_daemon_alsa@speakers.service',
          'sound.target.wants/music_daemon_alsa@speakers.service')
PAGE = 'usr/share/man/man1/music_daemon.1.gz'
SONGS = 12
MOST = 1200000   # a package must have fewer bytes than this
LONGEST = 600    # how many seconds a command in the folder may take
# the owner, group and mode of what is there after the installation
OWNERS = {
    'usr/bin/music_daemon': ('root', 'root', '-rwxr-xr-x'),
    **{'usr/lib/music_daemon/' + name: ('root', 'root', '-rwxr-xr-x') for name in ('alsa', 'fifos', 'listening')},
    SYSTEM: ('root', 'root', '-rw-r--r--'),
    ALSA_UNIT: ('root', 'root', '-rw-r--r--'),
    USER: ('root', 'root', '-rw-r--r--'),
    SETTINGS: ('root', 'root', '-rw-r--r--'),
    AVAHI: ('root', 'root', '-rw-r--r--'),
    PAGE: ('root', 'root', '-rw-r--r--'),
    DOCUMENTS + '/copyright': ('root', 'root', '-rw-r--r--'),
    DOCUMENTS + '/changelog.gz': ('root', 'root', '-rw-r--r--'),
    DOCUMENTS + '/README.Debian': ('root', 'root', '-rw-r--r--'),
    DOCUMENTS + '/examples/settings.toml': ('root', 'root', '-rw-r--r--'),
    STATE: ('music_daemon', 'audio', 'drwxr-xr-x'),
    STATE + '/music': ('root', 'root', 'drwxr-xr-x'),
    RUN: ('music_daemon', 'audio', 'drwxr-xr-x'),
    RUN + '/speakers': ('music_daemon', 'audio', 'prw-r-----'),
}
# what does not belong to the folder, and what every installation writes: records of apt and dpkg, locks, and backups of the lists of users
PASSED_OVER = ('proc', 'sys', 'dev', 'tmp', 'var/log', 'var/cache', 'var/lib/apt', 'var/lib/dpkg', 'run/adduser', 'run/dbus',
               'run/avahi-daemon', 'etc/.pwd.lock', 'etc/passwd-', 'etc/shadow-', 'etc/group-', 'etc/gshadow-')
# the lines of the service's settings, in order: what a household may want to change comes first
LINES = ('music = "/%s/music"' % STATE, 'listen = "127.0.0.1:6600"', 'rate = 44100', 'everyday = true', 'state = "/%s/state"' % STATE,
         'shelf = "/%s/shelf"' % STATE, '[[output]]', 'name = "speakers"', 'path = "/%s/speakers"' % RUN, 'patience = 5')
ENVIRONMENT = {'PATH': '/usr/sbin:/usr/bin:/sbin:/bin', 'LC_ALL': 'C', 'DEBIAN_FRONTEND': 'noninteractive'}


class Rows(Table):
    def __init__(self):
        super().__init__('The package', 51, 60)
        self.passed = 0

    def row(self, *cells, right=True):
        super().row(*cells, right=right)
        self.passed += bool(right)


class Debian:
    """A folder with a Debian system in it."""

    def __init__(self, root):
        self.root = root

    def path(self, name):
        return os.path.join(self.root, name)

    def run(self, *words, user=None):
        """Runs a command in it: its exit status, and everything that it printed."""
        ask = ['chroot'] + (['--userspec=' + user] if user else []) + [self.root, *words]
        done = subprocess.run(ask, stdin=subprocess.DEVNULL, stdout=subprocess.PIPE, stderr=subprocess.STDOUT, env=ENVIRONMENT,
                              timeout=LONGEST)
        return done.returncode, done.stdout.decode(errors='replace').strip()

    def install(self, package):
        shutil.copy(package, self.path('tmp/music-daemon.deb'))
        told = self.run('apt-get', 'install', '-y', '--no-install-recommends', '--allow-downgrades', '/tmp/music-daemon.deb')
        os.remove(self.path('tmp/music-daemon.deb'))
        return told

    def install_quietly(self, *packages):
        """Installs Debian packages without starting their services."""
        policy = self.path('usr/sbin/policy-rc.d')
        with open(policy, 'w') as file:
            file.write('#!/bin/sh\nexit 101\n')
        os.chmod(policy, 0o755)
        told = self.run('apt-get', 'install', '-y', '--no-install-recommends', *packages)
        os.remove(policy)
        return told

    def names(self, file):
        """The names of etc/passwd or etc/group, by number."""
        with open(self.path('etc/' + file)) as lines:
            return {int(line.split(':')[2]): line.split(':')[0] for line in lines}

    def owner(self, name):
        """The owner, group and mode of a file; None if it does not exist."""
        try:
            found = os.lstat(self.path(name))
        except FileNotFoundError:
            return None
        users, groups = self.names('passwd'), self.names('group')
        return users.get(found.st_uid, found.st_uid), groups.get(found.st_gid, found.st_gid), stat.filemode(found.st_mode)

    def tree(self):
        """Everything in it: modes and owners, a digest of each file in etc, and what dpkg has recorded about packages."""
        found = {}
        for folder, below, files in os.walk(self.root):
            within = os.path.relpath(folder, self.root)
            for name in list(below) + files:
                path = os.path.normpath(os.path.join(within, name))
                if path in PASSED_OVER:
                    if name in below:
                        below.remove(name)
                    continue
                full = self.path(path)
                seen = os.lstat(full)
                found[path] = [stat.filemode(seen.st_mode), seen.st_uid, seen.st_gid]
                if stat.S_ISREG(seen.st_mode) and path.startswith('etc/'):
                    with open(full, 'rb') as file:
                        found[path].append(hashlib.sha256(file.read()).hexdigest())
        for name in os.listdir(self.path('var/lib/dpkg/info')):
            found['var/lib/dpkg/info/' + name] = []
        return found


def differ(before, after):
    return sorted(name for name in before.keys() | after.keys() if before.get(name) != after.get(name))


def made(program, path, version=None):
    environment = dict(os.environ, **({'VERSION': version} if version else {}))
    done = subprocess.run([DEB, program, path], stdout=subprocess.PIPE, stderr=subprocess.STDOUT, env=environment, timeout=300)
    return done.returncode, done.stdout.decode(errors='replace').strip()


def check_made(rows, program, folder):
    """Makes the package twice, and once with a higher version."""
    paths = [os.path.join(folder, name) for name in ('one.deb', 'two.deb', 'newer.deb')]
    status, told = made(program, paths[0])
    rows.row('packaging/deb', last_of(told).replace(folder + '/', ''), right=status == 0)
    if status:
        return None
    made(program, paths[1])
    made(program, paths[2], '999')
    size = os.path.getsize(paths[0])
    rows.row('below 1.2 MB', '%d bytes' % size, right=size < MOST)
    same = content(paths[0]) == content(paths[1])
    rows.row('made again, it has the same bytes', 'yes' if same else 'no', right=same)
    words = ['dpkg-deb', '--field', paths[0], 'Architecture', 'Depends']
    fields = subprocess.run(words, stdout=subprocess.PIPE).stdout.decode().splitlines()
    rows.row('what it needs', ', '.join(fields), right=fields[0] == 'Architecture: amd64' and 'libc6 (>= ' in fields[1])
    return paths[0], paths[2]


def check_refusals(rows, folder):
    """Checks that no package is made of a script, or of a program that needs another library."""
    script = os.path.join(folder, 'script')
    with open(script, 'w') as file:
        file.write('#!/bin/sh\n')
    os.chmod(script, 0o755)
    status, told = made(script, os.path.join(folder, 'no.deb'))
    rows.row('a script', last_of(told).replace(folder, '..'), right=status == 1 and 'not a program for amd64' in told)
    status, told = made('/bin/ls', os.path.join(folder, 'no.deb'))
    rows.row('a program that needs more than libc', last_of(told).replace(folder, '..'), right=status == 1 and 'which is not in' in told)


def check_installed(rows, debian):
    for name, wanted in OWNERS.items():
        found = debian.owner(name)
        rows.row('/' + name, ' '.join(map(str, found)) if found else 'is not there', right=found == wanted)
    status, told = debian.run('dpkg', '--verify', 'music-daemon')
    rows.row('the files are as packed', told or 'yes', right=(status, told) == (0, ''))
    status, told = debian.run('id', 'music_daemon')
    rows.row('the user', told, right=status == 0 and 'groups=29(audio)' in told and int(told[4:told.index('(')]) < 1000)
    links = [debian.path('etc/systemd/system/' + name) for name in WANTED]
    to = [os.readlink(link) if os.path.islink(link) else 'no' for link in links]
    rows.row('the units are enabled', ', '.join(map(os.path.basename, to)), right='no' not in to)
    rows.row('nothing runs', 'yes' if not running(debian) else 'no', right=not running(debian))
    lines = [line for line in content(debian.path(SETTINGS)).decode().splitlines() if line and not line.startswith('#')]
    rows.row('the settings of a service', 'yes' if lines == list(LINES) else ', '.join(lines), right=lines == list(LINES))


def running(debian):
    """The processes that run the packaged program."""
    found = []
    for number in filter(str.isdigit, os.listdir('/proc')):
        try:
            if os.readlink('/proc/%s/exe' % number).startswith(debian.path('usr/bin/music_daemon')):
                found.append(int(number))
        except OSError:
            pass
    return found


def check_units(rows, debian):
    """Lets this machine's systemd-analyze check the installed units, with paths into the folder."""
    for name, words in ((SYSTEM, []), (ALSA_UNIT, []), (USER, ['--user'])):
        case = 'systemd-analyze verify, ' + ('of a user' if words else 'of a sound card' if name == ALSA_UNIT else 'of the system')
        if not shutil.which('systemd-analyze'):
            rows.row(case, 'left out: systemd-analyze is not installed')
            continue
        # It looks for the program at the unit's path on this machine, so the path is changed to the one in the folder.
        copy = os.path.join(debian.path('tmp'), os.path.basename(name).replace('@', '@speakers'))
        with open(debian.path(name)) as file, open(copy, 'w') as unit:
            unit.write(re.sub(r'/usr/(?:bin|lib)/music_daemon', lambda found: debian.path(found.group()[1:]), file.read()))
        done = subprocess.run(['systemd-analyze', *words, '--man=no', 'verify', copy], stdout=subprocess.PIPE, stderr=subprocess.STDOUT,
                              env=dict(os.environ, XDG_RUNTIME_DIR=debian.path('tmp')), timeout=60)
        # It reports on every unit that it loads; only ours matter here.
        lines = [line for line in done.stdout.decode(errors='replace').splitlines() if 'music_daemon' in line]
        rows.row(case, lines[0] if lines else 'nothing to say', right=not lines)
        os.remove(copy)


def check_program(rows, debian, folder):
    """Runs the program in a Debian without a toolchain, as the package's user, and leaves the daemon running."""
    status, told = debian.run('/usr/bin/music_daemon', '--version')
    rows.row('--version', told, right=status == 0 and told == 'music_daemon ' + release.version())
    put_songs(debian.path(STATE + '/music'), SONGS, 100)
    status, told = debian.run('/usr/bin/music_daemon', 'scan', '/%s/music' % STATE, user='music_daemon:audio')
    count = sum(line.startswith('file: ') for line in told.splitlines())
    rows.row('scan', '%d songs, status %d' % (count, status), right=(status, count) == (0, SONGS))
    port = free_port()
    household.put_port(debian, port)
    try:
        daemon = household.serve(debian, port, folder, ENVIRONMENT)
    except AssertionError as fault:
        rows.row('serve', fault, right=False)
        return None
    client = daemon.client()
    answer = ' '.join(client.ask('ping'))
    client.close()
    rows.row('serve, and a ping', '%s, %s' % (client.greeting, answer), right=client.greeting.startswith('OK MPD ') and answer == 'OK')
    found = debian.owner(STATE + '/shelf')
    shown = ' '.join(map(str, found)) if found else 'is not there'
    rows.row('the playlist store that it made', shown, right=bool(found) and found[0] == 'music_daemon')
    return daemon


def check_upgrade(rows, debian, newer, daemon):
    edited = content(debian.path(SETTINGS))
    status, told = debian.install(newer)
    told = debian.run('dpkg-query', '-W', '-f', '${Version} ${Status}', 'music-daemon')[1]
    rows.row('an upgrade to a newer version', told, right=status == 0 and told == '999 install ok installed')
    rows.row('edited settings stay as they are', 'yes' if content(debian.path(SETTINGS)) == edited else 'no',
             right=content(debian.path(SETTINGS)) == edited)
    if daemon:
        rows.row('the daemon goes on running', 'yes' if daemon.process.poll() is None else 'no', right=daemon.process.poll() is None)


def check_removed(rows, debian, daemon):
    status, told = debian.run('apt-get', 'remove', '-y', 'music-daemon')
    rows.row('apt-get remove', 'status %d' % status, right=status == 0)
    if daemon:
        try:
            ended = 'status %d' % daemon.process.wait(15)
        except subprocess.TimeoutExpired:
            ended = None
        rows.row('the daemon has ended', ended or 'no', right=ended is not None)
    files = (SETTINGS, STATE + '/shelf', STATE + '/state', STATE + '/music')
    kept = [name for name in files if os.path.lexists(debian.path(name))]
    rows.row('settings, playlists, state and music are kept', ' '.join(kept), right=len(kept) == len(files))
    files = ('usr/bin/music_daemon', 'usr/lib/music_daemon', SYSTEM, ALSA_UNIT, USER, PAGE, DOCUMENTS, RUN)
    gone = [name for name in files if os.path.lexists(debian.path(name))]
    rows.row('program, units and documents are gone', ' '.join(gone) or 'yes', right=not gone)


def check_purged(rows, debian, case, before, kept):
    status, told = debian.run('apt-get', 'purge', '-y', 'music-daemon')
    rows.row('apt-get purge, ' + case, 'status %d' % status, right=status == 0)
    left = differ(dict(before, **kept), debian.tree())
    rows.row('nothing else is left over or changed', ', '.join(left[:4]) or 'yes', right=not left)
    names = [name for file in ('passwd', 'group') for name in debian.names(file).values() if 'music' in name]
    rows.row('no user and no group', ' '.join(names) or 'yes', right=not names)


def check_under_systemd(rows, debian, package, newer):
    """Checks what the package asks systemd to do; a program in place of systemctl records it. The music from before is still there."""
    asked, systemctl = debian.path('tmp/asked'), debian.path('usr/bin/systemctl')
    os.makedirs(debian.path('run/systemd/system'))
    with open(systemctl, 'w') as file:
        file.write('#!/bin/sh\necho "$*" >> /tmp/asked\n')
    os.chmod(systemctl, 0o755)

    def row(case, told, wanted):
        words = content(asked).decode().splitlines() if os.path.exists(asked) else []
        # These are the calls by which deb-systemd-helper makes the links of an enabled unit.
        words = [line for line in words if not line.startswith('--root=/ ')]
        rows.row('under systemd: ' + case, ', '.join(words), right=told[0] == 0 and words == wanted)
        if os.path.exists(asked):
            os.remove(asked)

    row('a first installation', debian.install(package), ['--system daemon-reload'])
    found = [debian.owner(name) for name in (STATE, STATE + '/music', RUN)]
    rows.row('the folders, when the music is there already', ' '.join(found[0]), right=found == [OWNERS[STATE], OWNERS[STATE + '/music'], None])
    row('an upgrade', debian.install(newer), ['--system daemon-reload', 'try-restart music_daemon.service'])
    row('a removal', debian.run('apt-get', 'remove', '-y', 'music-daemon'), ['stop music_daemon.service', '--system daemon-reload'])
    row('a purge', debian.run('apt-get', 'purge', '-y', 'music-daemon'), ['--system daemon-reload'])
    os.remove(systemctl)
    os.rmdir(debian.path('run/systemd/system'))


def make_debian(given, root):
    """Makes a folder with debootstrap, or copies one."""
    if given.base:
        subprocess.run(['cp', '-a', given.base, root], check=True)
        return
    words = ['debootstrap', '--variant=minbase', given.suite, root, given.mirror]
    done = subprocess.run(words, stdout=subprocess.PIPE, stderr=subprocess.STDOUT)
    if done.returncode:
        sys.exit('debootstrap: ' + last_of(done.stdout.decode(errors='replace')))


def check_package(given, folder):
    rows = Rows()
    packages = check_made(rows, program_of(given.program), folder)
    check_refusals(rows, folder)
    if packages:
        root = os.path.join(folder, 'debian')
        make_debian(given, root)
        subprocess.run(['mount', '-t', 'proc', 'proc', os.path.join(root, 'proc')], check=True)
        debian = Debian(root)
        try:
            if not given.base:
                debian.run('apt-get', 'update')
            # These stay installed after the package is gone. In Debian 13 the smallest system does not have adduser.
            status, told = debian.install_quietly('adduser', *household.NEEDED)
            rows.row('what these tests need', 'status %d' % status, right=status == 0)
            before = debian.tree()
            status, told = debian.install(packages[0])
            rows.row('apt-get install', last_of(told), right=status == 0)
            check_installed(rows, debian)
            check_units(rows, debian)
            check_purged(rows, debian, 'no music', before, {})
            status, told = debian.install(packages[0])
            rows.row('apt-get install again', last_of(told), right=status == 0)
            daemon = household.check(rows, debian, check_program(rows, debian, folder), folder, ENVIRONMENT)
            music = {name: seen for name, seen in debian.tree().items() if name.startswith(STATE + '/music')}
            sums = {name: content(debian.path(name)) for name in music if name.endswith('.wav')}
            check_upgrade(rows, debian, packages[1], daemon)
            check_removed(rows, debian, daemon)
            check_purged(rows, debian, 'with music', before, {STATE: ['drwxr-xr-x', 0, 0], **music})
            check_under_systemd(rows, debian, *packages)
            kept = [name for name in sums if os.path.exists(debian.path(name)) and content(debian.path(name)) == sums[name]]
            rows.row("the household's music is untouched", '%d songs' % len(kept), right=len(kept) == SONGS)
            for number in running(debian):
                os.kill(number, 9)
        finally:
            subprocess.run(['umount', os.path.join(root, 'proc')])
    print('\n%d passed, %d failed' % (rows.passed, rows.failed))
    return 1 if rows.failed else 0


def main():
    parser = arguments_of('Tests the Debian package in a fresh Debian.')
    parser.add_argument('--suite', default='bookworm', help='the release of Debian (default: bookworm)')
    parser.add_argument('--mirror', default='http://deb.debian.org/debian', help='where debootstrap downloads it from')
    parser.add_argument('--base', metavar='FOLDER', help='copy this folder, which debootstrap has made, instead of making a new one')
    parser.add_argument('--within', help=argparse.SUPPRESS)
    given = parser.parse_args()
    if given.within:
        return check_package(given, given.within)
    if os.geteuid() != 0:
        sys.exit('checks/package.py: only root can install a Debian in a folder and run programs in it')
    for tool in ('dpkg-deb', 'unshare') + (() if given.base else ('debootstrap',)):
        if not shutil.which(tool):
            sys.exit('checks/package.py: %s is not installed; it is in the Debian package of that name, or in dpkg or util-linux' % tool)
    program_of(given.program)
    signal.signal(signal.SIGTERM, lambda *_: sys.exit(1))
    with tempfile.TemporaryDirectory() as folder:
        # With separate namespaces for mounts and processes, none of them is left, however this ends.
        words = ['unshare', '--mount', '--pid', '--fork', '--kill-child', '--mount-proc', sys.executable, os.path.abspath(__file__)]
        return subprocess.run(words + sys.argv[1:] + ['--within', folder]).returncode


if __name__ == '__main__':
    sys.exit(main())
