#!/usr/bin/env python3
"""write.py FOLDER: has mido, a MIDI library, write .syx files into a folder, and puts the bodies that it was given beside each,
as the program bodies prints them.

Four of them are those that are stored here: mido 1.2.10 wrote them. The others have random bodies, the same ones every time."""
import pathlib
import random
import sys

import mido

FOLDER = pathlib.Path(sys.argv[1])
RANDOM_FILES = 200
STORED = {
    'one': [bytes.fromhex('7E 7F 06 01')],
    'several': [bytes.fromhex('7E 7F 09 01'), bytes.fromhex('00'), bytes.fromhex('7F'), bytes(range(128)),
                bytes.fromhex('43 10 4C 00 00 7E 00')],
    'empty_body': [b''],
    'long': [bytes(i * 7 % 128 for i in range(600))],
}


def write(name, bodies):
    mido.write_syx_file(str(FOLDER / f'{name}.syx'), [mido.Message('sysex', data=body) for body in bodies])
    lines = [' '.join(f'{byte:02X}' for byte in body) for body in bodies] + ['torn: 0']
    (FOLDER / f'{name}.txt').write_text('\n'.join(lines) + '\n', encoding='ascii')


def any_body(numbers):
    """Short, long, or with a length around a power of two."""
    length = numbers.choice((numbers.randrange(8), numbers.randrange(3000), numbers.choice((64, 128, 256)) + numbers.randint(-2, 2)))
    return bytes(numbers.randrange(128) for _ in range(length))


for stored, its_bodies in STORED.items():
    write(stored, its_bodies)
seeded = random.Random(1)
for k in range(RANDOM_FILES):
    write(f'random{k}', [any_body(seeded) for _ in range(seeded.randrange(12))])
