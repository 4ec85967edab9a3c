"""Compares what the model and a program answer to a script: where they first differ, and the fewest lines that show it."""
import difflib

from program import NotRun
from script import answer_of


def is_same(printed, wanted):
    return not isinstance(printed, NotRun) and printed == wanted


def lines_of(text):
    return text.split(b'\n')[:-1]


def joined(lines):
    return b''.join(line + b'\n' for line in lines)


def readable(text):
    return [line.decode('utf-8', 'backslashreplace') for line in lines_of(text)]


def cut_behind_difference(text, printed):
    """The beginning of a script, up to the first line with a different answer, and what the program printed for it. This needs no run, since
    what a line prints depends only on the lines before it."""
    if isinstance(printed, NotRun):
        return text, printed
    wanted, found = lines_of(answer_of(text)), lines_of(printed)
    alike = 0
    while alike < min(len(wanted), len(found)) and wanted[alike] == found[alike]:
        alike += 1
    lines = lines_of(text)
    for count in range(1, len(lines)):
        front = joined(lines[:count])
        printed_lines = answer_of(front).count(b'\n')
        if printed_lines > alike:
            return front, joined(found[:printed_lines])
    return text, printed


class Shrinking:
    """Removes lines from a script as long as the answers still differ. Each round runs many scripts at once, since a build, if one is
    needed, takes longer than a run."""

    def __init__(self, program, text, printed):
        self.program, self.text, self.printed = program, text, printed

    def differing(self, scripts):
        """Those of these scripts to which the answers differ, with what the program printed."""
        if not scripts:
            return []
        return [(text, printed) for text, printed in zip(scripts, self.program.run_all(scripts)) if not is_same(printed, answer_of(text))]

    def run(self, rounds):
        """The shortest script that was found, and what the program prints for it."""
        for _ in range(rounds):
            lines = lines_of(self.text)
            without = {joined(lines[:n] + lines[n + 1:]): n for n in range(len(lines)) if len(lines) > 1}
            single = self.differing(list(without))
            if not single:
                break
            self.take_the_shortest(single + self.differing(self.without_several(lines, [without[text] for text, _ in single])))
        return self.text, self.printed

    @staticmethod
    def without_several(lines, removable):
        """Scripts without several of the lines that can be removed one by one: without all of these, and without the first or the last of
        them."""
        sizes = {len(removable) * part // 8 for part in range(2, 9)}
        parts = [part for size in sizes if size > 1 for part in (removable[:size], removable[-size:])]
        return list({joined([line for n, line in enumerate(lines) if n not in part]) for part in parts})

    def take_the_shortest(self, found):
        self.text, self.printed = min(found, key=lambda it: it[0].count(b'\n'))


def shrunk(program, text, printed, rounds=40):
    return Shrinking(program, *cut_behind_difference(text, printed)).run(rounds)


def report(title, text, printed):
    """A difference, as it is printed: the script, and a diff from the model's answers to what the program printed."""
    lines = ['== ' + title, *('  > ' + line for line in readable(text))]
    if isinstance(printed, NotRun):
        return '\n'.join([*lines, '  the program: %s' % printed])
    diff = difflib.unified_diff(readable(answer_of(text)), readable(printed), 'model', 'program', n=3, lineterm='')
    return '\n'.join(lines + ['  ' + line for line in diff])
