"""Runs the program, by itself or with the preload library that makes its calls fail (faulty.c)."""
import os
import subprocess
from subprocess import PIPE

LIMIT = 20          # how many seconds a run may take
MOST_FAILURES = 20  # after so many failures a session is not run any more
SOURCE = os.path.join(os.path.dirname(os.path.abspath(__file__)), 'faulty.c')


def build_library(folder):
    """Builds the preload library, and says where it is."""
    library = os.path.join(folder, 'faulty.so')
    subprocess.run(['gcc', '-shared', '-fPIC', '-O2', '-Wall', '-Wextra', '-Werror', '-o', library, SOURCE, '-ldl'], check=True)
    return library


def counts_in(report):
    """What the library counted; empty if the program did not get as far as its exit."""
    if not os.path.exists(report):
        return {}
    with open(report, encoding='ascii') as file:
        return {name: int(count) for name, count in (line.split() for line in file)}


class Run:
    """How a run ended: its status (None if it was stopped at the limit), what it wrote, and what the library counted."""

    def __init__(self, status, output, errors, counts):
        self.status, self.output, self.errors, self.counts = status, output, errors, counts

    def told(self, wanted=b''):
        """How it ended, and the first line that differs from the expected output."""
        if self.status is None:
            return 'still running after %d s' % LIMIT
        if self.status < 0:
            return 'killed by signal %d' % -self.status
        told = 'status %d, %d bytes written' % (self.status, len(self.output))
        lines = wanted.splitlines()
        for number, line in enumerate(self.output.splitlines()):
            if lines[number:number + 1] != [line]:
                told += ', output line %d is %r' % (number + 1, line[:80])
                break
        return told + (', standard error %r' % self.errors[-200:] if self.errors else '')


class Program:
    def __init__(self, path, library, folder):
        self.path, self.library = path, library
        self.input, self.report = os.path.join(folder, 'input'), os.path.join(folder, 'report')

    def run(self, data, words=('script',)):
        """A run without the library."""
        return self.run_on_file(data, words, None)

    def run_with(self, data, **faults):
        """A run of `script` with the library. The comment at the top of faulty.c explains `allocation`, `read`, `write` and `piece`."""
        environment = dict(os.environ, LD_PRELOAD=self.library, FAULTY_REPORT=self.report)
        for name, number in faults.items():
            environment['FAULTY_' + name.upper()] = str(number)
        if os.path.exists(self.report):
            os.remove(self.report)
        return self.run_on_file(data, ('script',), environment)

    def run_on_file(self, data, words, environment):
        """The program reads its input from a file, since a pipe would split the input at different places in each run."""
        with open(self.input, 'wb') as script:
            script.write(data)
        with open(self.input, 'rb') as script:
            return self.run_on(script, PIPE, words, environment)

    def run_on(self, source, sink, words=('script',), environment=None):
        """A run that reads one open file and writes to another."""
        try:
            done = subprocess.run([self.path, *words], stdin=source, stdout=sink, stderr=PIPE, env=environment, timeout=LIMIT)
        except subprocess.TimeoutExpired as stopped:
            return Run(None, stopped.stdout or b'', stopped.stderr or b'', {})
        return Run(done.returncode, done.stdout or b'', done.stderr, counts_in(self.report) if environment else {})


def show_failures(failures):
    for failure in failures:
        print('    ' + failure)
    if len(failures) >= MOST_FAILURES:
        print('    stopped after so many failures')
    return len(failures)
