#!/usr/bin/env python3
"""Measures how many seconds `rt check` takes after one line of code, and no contract, has been changed.

    checks/one_line.py

The changed line means the same as before, so that the crate can still be proved; afterwards the line is put back. This is done with a line
in a command's handler, in a step of a session, and in a rule of play order. If one of their crates is not proved yet in this checkout, its
first check takes long. The exit status is 1 if a check fails.
"""
import os
import subprocess
import sys
import time

TOP = os.path.dirname(os.path.dirname(os.path.abspath(__file__)))
# what is changed, the crate, the file, a line of it, and the same line written in another way
CHANGES = (
    ("a command's handler", 'status_commands', 'src/options.rt', 'answer.pair("volume", part.volume.percent())?;',
     'let volume = part.volume.percent(); answer.pair("volume", volume)?;'),
    ("a session's step", 'mpd_session', 'src/conversation.rt', 'let notice = house.outbox(rt, self.asker.client);',
     'let client = self.asker.client; let notice = house.outbox(rt, client);'),
    ('a rule of play order', 'play_order', 'src/round.rt',
     'queue);\n        let consume = consume_after(modes.consume);',
     'queue);\n        let mode = modes.consume; let consume = consume_after(mode);'),
)


def check(folder):
    """Whether the crate can be proved, and how many seconds that takes."""
    start = time.time()
    ran = subprocess.run(['rt', 'check'], cwd=folder, stdout=subprocess.PIPE, stderr=subprocess.STDOUT, text=True, errors='replace')
    if ran.returncode:
        print(ran.stdout)
    return ran.returncode == 0, time.time() - start


def check_changed(folder, name, old, new):
    """Like `check`, with a text in a file changed meanwhile."""
    path = os.path.join(folder, name)
    with open(path, encoding='utf-8') as file:
        text = file.read()
    if text.count(old) != 1:
        sys.exit('%s should have this text once, but has it %d times: %s' % (path, text.count(old), old))
    try:
        with open(path, 'w', encoding='utf-8') as file:
            file.write(text.replace(old, new))
        return check(folder)
    finally:
        with open(path, 'w', encoding='utf-8') as file:
            file.write(text)


def main():
    failed = 0
    for what, crate, name, old, new in CHANGES:
        folder = os.path.join(TOP, 'crates', crate)
        is_whole, _ = check(folder)
        is_proved, seconds = check_changed(folder, name, old, new) if is_whole else (False, 0)
        print('%-22s %4.0f s%s' % (what, seconds, '' if is_proved else ', NOT PROVED'), flush=True)
        failed += not is_proved
    return 1 if failed else 0


if __name__ == '__main__':
    sys.exit(main())
