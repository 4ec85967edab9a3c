#!/usr/bin/env python3
"""Makes examples/music: three small WAVE files with tags, and a text file that is only named like one.

    checks/example_music.py            writes the files
    checks/example_music.py --check    checks that they are what this script writes; if not, the exit status is 1
"""
import math
import os
import sys

sys.dont_write_bytecode = True
sys.path.insert(0, os.path.join(os.path.dirname(os.path.abspath(__file__)), 'serve'))

from daemon import wave

FOLDER = os.path.join(os.path.dirname(os.path.dirname(os.path.abspath(__file__))), 'examples', 'music')
RATE = 44100
NAMES = {'Title': b'INAM', 'Artist': b'IART', 'Album': b'IPRD', 'Date': b'ICRD', 'Genre': b'IGNR', 'Comment': b'ICMT'}


def song(channels, bits, samples, texts):
    """A file with these samples, which are between -1 and 1; the samples of a frame follow one another."""
    whole = [round(128 + 100 * sample) if bits == 8 else round(25000 * sample) for sample in samples]
    return wave(zip(*[iter(whole)] * channels), channels, bits, RATE, tags=[(NAMES[name], text) for name, text in texts])


def tone(pitch, frames):
    """A sine wave that fades out."""
    return [math.sin(2 * math.pi * pitch * n / RATE) * (1 - n / frames) for n in range(frames)]


def files():
    """The files by name."""
    chord = [sample for pair in zip(tone(440, 400), tone(660, 400)) for sample in pair]
    return {
        'bell.wav': song(1, 8, tone(1760, 1700), [('Title', 'Bell'), ('Artist', 'Ann'), ('Album', 'Small sounds'), ('Date', '2026')]),
        'chord.wav': song(2, 16, chord, [('Title', 'Two voices'), ('Artist', 'Ann and Bob'), ('Genre', 'Exercise')]),
        'evening/hum.wav': song(1, 16, tone(110, 882), [('Title', 'Hum'), ('Comment', 'one hundred and ten a second')]),
        'notes.wav': b'These are notes, and no music.\n',
    }


def main(words):
    wrong = []
    for name, data in files().items():
        path = os.path.join(FOLDER, name)
        if words == ['--check']:
            if not os.path.exists(path) or open(path, 'rb').read() != data:
                wrong.append(name)
            continue
        os.makedirs(os.path.dirname(path), exist_ok=True)
        with open(path, 'wb') as file:
            file.write(data)
    for name in wrong:
        print('examples/music/%s is not what this script writes' % name)
    return 1 if wrong else 0


if __name__ == '__main__':
    sys.exit(main(sys.argv[1:]))
