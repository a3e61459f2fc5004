#!/usr/bin/env python3
"""check.py PROGRAM CALLS SEED: tries the program tape with the stored tape (tape.py) and with long ones, handed over in many ways. CALLS is a
program that makes a tape's calls one by one (bench/tape_calls.c)."""
import concurrent.futures
import contextlib
import itertools
import os
import pathlib
import random
import re
import select
import socket
import subprocess
import sys
import tempfile
import threading

import tape

PROGRAM, CALLS, SEED = sys.argv[1], sys.argv[2], int(sys.argv[3])
STORED = pathlib.Path(__file__).resolve().parents[3] / 'crates' / 'tape'
TAPE, TEXT = tape.stored_files().values()
ROUNDS = 40
SECONDS = 20  # that the program may be silent
MEGABYTES = 64


def same(what, wanted, came):
    """Names the first line that differs."""
    if wanted != came:
        lines = itertools.zip_longest(wanted.splitlines(True), came.splitlines(True))
        number, line, other = next((n, line, other) for n, (line, other) in enumerate(lines, 1) if line != other)
        sys.exit(f'Failed: {what}. Line {number}: {line!r} was wanted, {other!r} came.')


# ---- The program, and ways to hand it a tape ----

@contextlib.contextmanager
def started(given):
    """What it says on standard error comes with its lines."""
    with subprocess.Popen([PROGRAM], bufsize=0, stdin=given, stdout=subprocess.PIPE, stderr=subprocess.STDOUT) as process:
        try:
            yield process
        finally:
            process.kill()  # where the test has failed


def more(process, most):
    """What it prints next: b'' at its end, None where it is silent too long."""
    return os.read(process.stdout.fileno(), most) if select.select([process.stdout], [], [], SECONDS)[0] else None


def line_of(process):
    line = b''
    while not line.endswith(b'\n') and (byte := more(process, 1)):
        line += byte
    return line


def rest_of(process):
    """What it prints from the tape's end to its own, which has to be a good one."""
    if process.stdin:
        process.stdin.close()
    came = b''
    while piece := more(process, 65536):
        came += piece
    if piece is None or process.wait() != 0:
        sys.exit(f'Failed: the program does not end, or not with 0. It printed, at the end: {came[-80:]!r}')
    return came


def from_file(file):
    """The file from its beginning."""
    file.seek(0)
    with started(file) as process:
        return rest_of(process)


def from_bytes(given):
    with tempfile.TemporaryFile(buffering=0) as file:
        file.write(given)
        return from_file(file)


def in_pieces(pieces):
    """Each piece is what one read gets: they are packets of a socket. What is printed has to fit into a pipe."""
    ours, its = socket.socketpair(socket.AF_UNIX, socket.SOCK_SEQPACKET)
    ours.settimeout(SECONDS)
    with ours, started(its) as process:
        its.close()
        with contextlib.suppress(OSError):  # it reads nothing behind r36
            for piece in pieces:
                ours.sendall(piece)
            ours.shutdown(socket.SHUT_WR)
        return rest_of(process)


# ---- The stored tape ----

def stored_files():
    for name, contents in tape.stored_files().items():
        if (STORED / name).read_bytes() != contents:
            sys.exit(f'Failed: crates/tape/{name} is not what `python3 c/test/tape/tape.py crates/tape` writes.')


def same_calls():
    """A C program that makes the same calls one by one prints the same lines."""
    with tempfile.TemporaryFile(buffering=0) as file:
        file.write(tape.played(tape.STORED))
        file.seek(0)
        ended = subprocess.run([CALLS, 'print'], stdin=file, stdout=subprocess.PIPE, timeout=SECONDS, check=True)
    same('the calls of the stored tape, from C', tape.text(tape.STORED), ended.stdout)


def as_they_come(ahead):
    """Each command's line comes when so many bytes of the next one are written."""
    with started(subprocess.PIPE) as process:
        at = end = 0
        for command, line, what in tape.STORED:
            end += len(command)
            process.stdin.write(TAPE[at:end + ahead])
            at = end + ahead
            same(f'{what}: the line before the next command', line.encode('ascii') + b'\n', line_of(process))
        process.stdin.write(tape.UNKNOWN[ahead:])
        same('an unknown command', b'r36\n', line_of(process))
        if more(process, 1) != b'':
            sys.exit('Failed: behind an unknown command the program does not end while the input is open.')


def text_up_to():
    """What the tape prints that is cut behind so many bytes, for each number of bytes."""
    texts, whole = [b''], b''
    for command, line, _ in tape.STORED:
        texts += [whole + b'r37\n'] * (len(command) - 1)
        whole += line.encode('ascii') + b'\n'
        texts.append(whole)
    return texts + [whole + b'r36\n'] * len(tape.UNKNOWN + tape.BEHIND)


def cut_from(begin, end, texts):
    with tempfile.TemporaryFile(buffering=0) as file:
        file.write(TAPE[:begin])
        for length in range(begin, end):
            same(f'the stored tape cut behind {length} bytes', texts[length], from_file(file))
            file.seek(length)
            file.write(TAPE[length:length + 1])


def cut_everywhere():
    texts, parts = text_up_to(), os.cpu_count() or 1
    ends = [len(texts) * k // parts for k in range(parts + 1)]
    with concurrent.futures.ThreadPoolExecutor(parts) as pool:
        list(pool.map(cut_from, ends[:-1], ends[1:], [texts] * parts))


def in_many_pieces():
    same('the stored tape byte by byte', TEXT, in_pieces(TAPE[i:i + 1] for i in range(len(TAPE))))
    pick = random.Random(SEED)
    for _ in range(ROUNDS):
        places = sorted(pick.sample(range(1, len(TAPE)), pick.choice((1, 10, 100, 1000))))
        pieces = [TAPE[begin:end] for begin, end in zip([0] + places, places + [len(TAPE)])]
        same(f'the stored tape in {len(pieces)} pieces', TEXT, in_pieces(pieces))


def short_tapes():
    same('an empty tape', b'', from_bytes(b''))
    for byte in range(256):
        same(f'the byte {byte:02X} by itself', b'r37\n' if 1 <= byte <= 4 else b'r36\n', from_bytes(bytes([byte])))
    for byte in (0x00, 0xFF):
        same(f'a command behind the byte {byte:02X}', b'r36\n', from_bytes(bytes([byte]) + tape.poll(0)))


# ---- Long tapes ----

LONGEST = (tape.feed(tape.A, 0, tape.chunk(1, 1, 1, bytes(16383), bytes(16383)) + bytes(32760)), '1 1', 'the longest command: bytes are left over')
EDGES = [
    (tape.feed(tape.A, 1, tape.chunk(1, 2, 2, b'b' * 4000)), '1 0', 'a long chunk'),
    (tape.feed(tape.A, 2, tape.chunk(1, 1, 2, b'a' * 96, b'h' * 256)), '1 w 256 4096', 'the longest list'),
    (tape.feed(tape.B, 3, tape.chunk(2, 1, 1, b'a' * 4097)), '1 5', 'a body of one byte more closes its list'),
    (tape.feed(tape.B, 4, tape.chunk(2, 1, 1, b'a' * 16383, b'h' * 16383)), '1 4', 'the longest chunk opens its list'),
    (tape.drop(tape.B), '3 1', 'one list'),
]


def command_of(length):
    """A feed of so many bytes that is turned down: its chunk is too short, or has bytes above 7F."""
    fed = b'\x80' * (length - 15)
    return tape.feed(tape.A, 0, fed), '1 1' if len(fed) >= 9 else '1 2', f'a command of {length} bytes'


def text_cut(steps, end):
    """What commands print that are cut behind so many bytes."""
    text = b''
    for command, line, _ in steps:
        if end < len(command):
            break
        end -= len(command)
        text += line.encode('ascii') + b'\n'
    return text + (b'r37\n' if end else b'')


def try_across(block, place):
    """A longest command begins so many bytes before a block's end; others follow."""
    first = block - place
    lengths = [first] if first <= len(LONGEST[0]) else [first // 2, first - first // 2]
    steps = [command_of(length) for length in lengths] + [LONGEST] + EDGES + [LONGEST] * 3
    what = f'longest commands, the first {place} bytes before the end of {block}'
    same(what, tape.text(steps + EDGES), from_bytes(tape.played(steps + EDGES)))
    given = tape.played(steps)
    for end in (block, len(given) - 1):
        same(f'{what}, cut behind {end}', text_cut(steps, end), from_bytes(given[:end]))


def long_commands():
    for block in (65536, 131072):
        for place in (0, 1, 14, 15, 16, 30000, 65520):
            try_across(block, place)
    for place in (65549, 65550, 65551):
        try_across(131072, place)


def short_commands():
    """No command has a longer line for its bytes: the lines of a block take more bytes than the block."""
    steps = [(tape.drop(tape.NO_PEER), '3 r28', 'no peer')] * 120000
    same('120,000 short commands', tape.text(steps), from_bytes(tape.played(steps)))


# ---- Input and output that fail ----

UNREAD = b'tape: standard input cannot be read\n'
UNWRITTEN = b'tape: standard output cannot be written\n'


def failing_input():
    """No last line is printed: whether the tape ends there is not known."""
    folder = os.open('/', os.O_RDONLY)
    with started(folder) as process:
        os.close(folder)
        same('a folder as input', UNREAD, rest_of(process))
    its, ours = os.pipe()
    os.set_blocking(its, False)
    os.write(ours, tape.poll(0) + tape.poll(0)[:-1])
    with started(its) as process:
        os.close(its)
        same('a read that fails inside a command', b'4 0\n' + UNREAD, rest_of(process))
    os.close(ours)


def failing_output():
    for what, given in ('a line', tape.poll(0)), ('the last line', tape.UNKNOWN), ('a line before the last', tape.poll(0) + tape.UNKNOWN):
        with open('/dev/full', 'wb') as full:
            ended = subprocess.run([PROGRAM], input=given, stdout=full, stderr=subprocess.PIPE, timeout=SECONDS, check=True)
        same(f'{what} that cannot be written', UNWRITTEN, ended.stderr)


# ---- Memory ----

UNIT = [LONGEST] + 1000 * [
    (tape.feed(tape.A, 1000, tape.chunk(1, 1, 2, b'a' * 20, b'{}')), '1 0', 'a list'),
    (tape.feed(tape.B, 1000, tape.chunk(1, 1, 2)), '1 0', 'one of the other peer'),
    (tape.feed(tape.A, 1001, tape.chunk(1, 2, 2, b'b' * 20)), '1 w 2 40', 'the first is whole'),
    (tape.poll(4000), '4 1', 'the other one'),
    (tape.cancel(tape.A, 1), '2 0', 'nothing is open'),
    (tape.drop(tape.B), '3 0', 'nothing is open'),
]


def write_units(process, count):
    given = tape.played(UNIT)
    for _ in range(count):
        process.stdin.write(given)


def peak_memory(process):
    """In kilobytes, up to now."""
    status = pathlib.Path(f'/proc/{process.pid}/status').read_text(encoding='ascii')
    return int(re.search(r'^VmHWM:\s+(\d+) kB$', status, re.M).group(1))


def memory_of(megabytes):
    """The program's peak memory when it has printed the lines of so many megabytes, the input still open."""
    count = megabytes * 1000000 // len(tape.played(UNIT))
    wanted, came = tape.text(UNIT) * count, bytearray()
    with started(subprocess.PIPE) as process:
        writer = threading.Thread(target=write_units, args=(process, count), daemon=True)
        writer.start()
        while len(came) < len(wanted) and (piece := more(process, 65536)):
            came += piece
        same(f'{megabytes} megabytes', wanted, bytes(came))
        peak = peak_memory(process)
        writer.join()
        same(f'behind {megabytes} megabytes', b'', rest_of(process))
        return peak


def same_memory():
    few, many = memory_of(1), memory_of(MEGABYTES)
    if many > few + 1000:  # the kernel's count is some hundred KB more or less
        sys.exit(f'Failed: a tape of {MEGABYTES} MB takes {many:,} KB of memory, one of 1 MB {few:,} KB.')
    return f'a tape of {MEGABYTES} MB takes {many:,} KB of memory, one of 1 MB {few:,} KB'


def main():
    stored_files()
    same_calls()
    as_they_come(0)
    as_they_come(1)
    in_many_pieces()
    short_tapes()
    cut_everywhere()
    print(f'tape plays the stored tape ({len(tape.STORED)} commands, {len(TAPE):,} bytes) as documents 01 and 02 say and as calls from C '
          f'answer: each line before the next command, cut at every byte, byte by byte, in {ROUNDS} other ways (seed {SEED}).', flush=True)
    long_commands()
    short_commands()
    failing_input()
    failing_output()
    print(f'So it does the longest commands, wherever its blocks end; it says where its input or output fails; {same_memory()}.')


main()
