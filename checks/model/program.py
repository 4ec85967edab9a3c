"""Runs scripts, through a built program, or through one that was compiled without proofs; one build then runs many scripts."""
import concurrent.futures
import os
import re
import shutil
import subprocess
import sys
import tempfile

HERE = os.path.dirname(os.path.abspath(__file__))
TOP = os.path.dirname(os.path.dirname(HERE))
LOOK = os.path.join(TOP, 'checks', 'look', 'script_look')
LOOKED_AT = ('daemon_script', 'counted_devices')
SECONDS_FOR_ONE = 60


class NotRun(Exception):
    """The program did not run a script to its end."""


class Built:
    """A built program, which is called with `script`."""

    def __init__(self, path):
        self.path = os.path.abspath(path)

    def run(self, text):
        try:
            done = subprocess.run([self.path, 'script'], input=text, capture_output=True, timeout=SECONDS_FOR_ONE)
        except subprocess.TimeoutExpired:
            raise NotRun('still running after %d seconds' % SECONDS_FOR_ONE) from None
        if done.returncode:
            raise NotRun('exit status %d: %s' % (done.returncode, done.stderr.decode('utf-8', 'backslashreplace')[-400:]))
        return done.stdout

    def run_all(self, texts):
        """What each of these scripts prints, or the fault with which it ended, in the same order."""
        with concurrent.futures.ThreadPoolExecutor(os.cpu_count()) as pool:
            return list(pool.map(self.run_or_fault, texts))

    def run_or_fault(self, text):
        try:
            return self.run(text)
        except NotRun as fault:
            return fault


class Unproved:
    """The program of this repository, compiled without proofs by `rt try`, with all checks at run time. The build takes minutes and is not
    kept; each script takes seconds."""

    def run_all(self, texts):
        work = tempfile.mkdtemp(prefix='model-')
        try:
            return self.run_in(work, texts)
        finally:
            shutil.rmtree(work, ignore_errors=True)

    def run_in(self, work, texts):
        cases = os.path.join(work, 'cases')
        os.mkdir(cases)
        names = ['%06d' % number for number in range(len(texts))]
        for name, text in zip(names, texts):
            with open(os.path.join(cases, name), 'wb') as case:
                case.write(text)
        copy = os.path.join(work, 'copy')
        subprocess.run([sys.executable, os.path.join(TOP, 'checks', 'crates.py'), TOP, *LOOKED_AT, '--sources-for', LOOK, copy], check=True)
        crate = os.path.join(copy, 'crates', 'script_look')
        done = subprocess.run(['rt', 'try', '--cases', cases], cwd=crate, capture_output=True)
        errors = done.stderr.decode('utf-8', 'backslashreplace')
        outputs = outputs_of_cases(done.stdout)
        if not outputs:
            raise SystemExit('model: rt try ran nothing: ' + errors[-2000:])
        ended = set(re.findall(r'^case=(\d{6}) run=ended status=0 ', errors, re.MULTILINE))
        return [outputs[name] if name in ended and name in outputs else NotRun('rt try did not run it to its end') for name in names]


def outputs_of_cases(printed):
    """The output of each case, by the case's name; it follows a line `== NAME`."""
    pieces = re.split(rb'^== (\d{6})\n', printed, flags=re.MULTILINE)
    return {name.decode(): output for name, output in zip(pieces[1::2], pieces[2::2])}
