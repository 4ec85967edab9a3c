"""Reads a file with each allocation refused in turn, with each read failing in turn, and by reads of a few bytes.

Usage: faults.py PROGRAM LIBRARY     (wave_show, and the preload library of faulty.c; faults.sh builds both)
The program must print the whole output; or the beginning of it and then NoMemory or ReadFault; or the beginning of it, and exit with status 1.
"""
import os
import subprocess
import sys
import tempfile

# ffmpeg 5.1.9: -f s24le -ar 8000 -ac 2 -i IN -c:a pcm_s24le, with all tags
FILE = bytes.fromhex(
    '52494646c200000057415645666d742028000000feff0200401f000080bb000006001800160018000300000001000000'
    '00001000800000aa00389b714c49535472000000494e464f494152540a000000416e206172746973740049434d540700'
    '00005361792068690000494352440500000032303236000049474e5205000000546573740000494e414d050000005a6f'
    'c3ab000049505244040000004f646400495346540e0000004c61766635392e32372e31303000646174610c0000000000'
    '010000ffff0000fffeff')
# behind it an ID3v2.4 tag: Album in UTF-16, AlbumArtist in ISO-8859-1, Track in UTF-8, and two frames that are not read
TAG = bytes.fromhex(
    '69643320530000004944330400000000004954454e430000000400000345766554414c4200000009000001fffe4e0065'
    '007700545045320000000500000042f46d6554504f53000000010000035452434b00000004000003332f3400')
WHOLE = '''2 channels, 24 bits, 2 frames
Title: Zo\u00eb
Artist: An artist
Album: New
Date: 2026
Genre: Test
Comment: Say hi
AlbumArtist: B\u00f4me
Track: 3/4
[[256, -256], [0, -2]]
'''


def run(program, folder, library, **faults):
    """The exit status, the output, and how many calls there were."""
    report = os.path.join(folder, 'report')
    environment = dict(os.environ, LD_PRELOAD=library, FAULTY_REPORT=report)
    environment.update({'FAULTY_' + name.upper(): str(number) for name, number in faults.items()})
    done = subprocess.run([program], cwd=folder, env=environment, capture_output=True, timeout=20)
    counts = dict(line.split() for line in open(report)) if os.path.exists(report) else {}
    return done.returncode, done.stdout.decode(), counts


def is_right(status, output, fault):
    front = output[:-len(fault) - 1] if output.endswith(fault + '\n') else output
    return WHOLE.startswith(front) and (status == 1 or status == 0 and (output == WHOLE or front != output))


def each_in_turn(program, folder, library, kind, counted, fault):
    wrong, number, refused = 0, 0, 0
    while True:
        number += 1
        status, output, counts = run(program, folder, library, **{kind: number})
        if counts and int(counts[counted]) < number:
            break
        refused += 1
        if not is_right(status, output, fault):
            wrong += 1
            print('WRONG at %s %d: status %d, %r' % (kind, number, status, output))
    if (status, output) != (0, WHOLE):
        wrong += 1
        print('WRONG without a fault: status %d, %r' % (status, output))
    print('%-12s %4d runs with one fault, %d wrong' % (kind, refused, wrong))
    return wrong


def main(program, library):
    with tempfile.TemporaryDirectory() as folder:
        with open(os.path.join(folder, 'in.wav'), 'wb') as file:
            file.write(FILE + TAG)
        wrong = each_in_turn(program, folder, library, 'allocation', 'allocations', 'NoMemory')
        wrong += each_in_turn(program, folder, library, 'read', 'reads', 'ReadFault')
        for piece in (1, 3, 7):
            if run(program, folder, library, piece=piece)[:2] != (0, WHOLE):
                wrong += 1
                print('WRONG with reads of %d bytes' % piece)
        print('also read in pieces of 1, 3 and 7 bytes')
    return 1 if wrong else 0


if __name__ == '__main__':
    sys.exit(main(*map(os.path.abspath, sys.argv[1:3])))
