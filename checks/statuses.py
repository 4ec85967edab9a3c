"""Checks the exit status for each command line: on empty input, success prints nothing; help and the version are shown; and arguments
that are refused say why. The launcher `music_daemon` must have the same texts of help and the same version, since it shows them until
the program is built."""
import os
import re
import subprocess

import release

LAUNCHER = os.path.join(os.path.dirname(os.path.dirname(os.path.abspath(__file__))), 'music_daemon')
TEXTS = {'help': ('--help',), 'help_serve': ('serve', '--help'), 'help_scan': ('scan', '--help'), 'help_script': ('script', '--help')}

SUCCESS, SHOWN, REFUSED = range(3)

WANTED = [
    (('script',), SUCCESS),
    (('--help',), SHOWN), (('-h',), SHOWN), (('help',), SHOWN), (('help', 'scan'), SHOWN), (('scan', '--help'), SHOWN),
    (('help', 'serve'), SHOWN), (('serve', '--help'), SHOWN), (('script', '-h'), SHOWN), (('--version',), SHOWN), (('-V',), SHOWN),
    ((), REFUSED), (('nosuch',), REFUSED), (('script', 'x'), REFUSED), (('',), REFUSED), ((b'\xff',), REFUSED),
    (('serve',), REFUSED), (('serve', 'x'), REFUSED), (('serve', '--config'), REFUSED), (('serve', '--config', 'x', 'y'), REFUSED),
    (('serve', '--config', 'x', '--config', 'x'), REFUSED), (('--config', 'x', 'serve'), REFUSED),
    (('scan',), REFUSED), (('scan', 'a', 'b'), REFUSED), (('scan', '--rate', '7999', '.'), REFUSED), (('scan', '--rate', '192001', '.'), REFUSED),
    (('scan', '--rate', 'x', '.'), REFUSED), (('scan', '--rate', '-8000', '.'), REFUSED), (('scan', '--rate', '8000'), REFUSED),
    (('scan', '.', '--rate'), REFUSED), (('scan', '--rate', '8000', '--rate', '9000', '.'), REFUSED),
    (('scan', '--everyday'), REFUSED), (('scan', '--everyday', '--everyday', '.'), REFUSED), (('scan', '--everyday=1', '.'), REFUSED),
    (('--rate', '8000', 'scan', '.'), REFUSED), (('--everyday', 'scan', '.'), REFUSED), (('script', '--version'), REFUSED), (('--', 'script'), REFUSED),
]

VERSION = b'music_daemon %s\n' % release.version().encode()


def is_right(run, words, wanted):
    if wanted == SUCCESS:
        return run.status == 0 and not run.output and not run.errors
    if wanted == SHOWN:
        text = run.output == VERSION if words[0] in ('--version', '-V') else b'Usage: ' in run.output
        return run.status == 0 and text and not run.errors
    return run.status == 2 and not run.output and run.errors.startswith(b'error: ')


def check_launcher(program):
    """Checks that the launcher has the texts that the program prints."""
    with open(LAUNCHER, encoding='utf-8') as launcher:
        text = launcher.read()
    found = re.search(r'^version\(\) \{\n.*?^\}$', text, re.MULTILINE | re.DOTALL)
    shows = 'echo "music_daemon $(version)"'
    words = ['bash', '-c', 'top=$1\n%s\n%s' % (found.group(0) if found else '', shows), 'bash', release.TOP]
    told = subprocess.run(words, stdout=subprocess.PIPE).stdout
    wrong = [] if told == VERSION and shows in text else ['version']
    for name, words in TEXTS.items():
        found = re.search(r"^%s\(\) \{\n  cat <<'TEXT'\n(.*?)^TEXT$" % name, text, re.MULTILINE | re.DOTALL)
        if not found or found.group(1).encode() != program.run(b'', words).output:
            wrong.append(name)
    print('  the texts of the launcher: %s' % ('FAILED: these differ: ' + ', '.join(wrong) if wrong else 'the same'))
    return len(wrong)


def check(program):
    """Prints a table, and returns the number of failures."""
    print('Exit statuses, on empty input')
    print('  %-44s %8s %7s' % ('arguments', 'expected', 'status'))
    failed = 0
    for words, wanted in WANTED:
        run = program.run(b'', words)
        right = is_right(run, words, wanted)
        failed += not right
        shown = ' '.join(repr(word) for word in words) or '(none)'
        print('  %-44s %8d %7s%s' % (shown, 2 if wanted == REFUSED else 0, run.status, '' if right else '  FAILED: ' + run.told()))
    return failed + check_launcher(program)
