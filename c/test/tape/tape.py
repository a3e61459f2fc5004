#!/usr/bin/env python3
"""tape.py FOLDER: writes the stored run of the program tape: FOLDER/stdin, the commands below, and FOLDER/stdout, their lines.

Each line is what documents 01 and 02 ask for, in the order of their questions, on a table of 2 peers, headers of up to 256 bytes,
bodies of up to 4,096 and 64 chunks for a list."""
import pathlib
import sys

A, B, C = 5, 0x0FFFFFFF, 7  # peers; B is the largest
NO_PEER = 0x10000000
LATEST = 2 ** 64 - 1


# ---- Commands ----

def low_first(number, width):
    return number.to_bytes(width, 'little')


def feed(peer, time, fed):
    return b'\x01' + low_first(peer, 4) + low_first(time, 8) + low_first(len(fed), 2) + fed


def cancel(peer, request_id):
    return b'\x02' + low_first(peer, 4) + low_first(request_id, 1)


def drop(peer):
    return b'\x03' + low_first(peer, 4)


def poll(time):
    return b'\x04' + low_first(time, 8)


def field(number):
    """14 bits in two bytes."""
    return bytes((number % 128, number // 128))


def chunk(request_id, number, count, body=b'', header=b''):
    return bytes([request_id]) + field(len(header)) + header + field(count) + field(number) + field(len(body)) + body


def raw(text):
    return bytes.fromhex(text)


# ---- The stored tape: each command, its line, and what it shows ----

EXAMPLE = [
    (feed(A, 1000, raw('05 02 00 7B 7D 01 00 01 00 00 00')), '1 w 2 0', "document 02's own bytes"),
    (poll(4000), '4 0', 'nothing is open'),
]

LISTS = [
    (feed(A, 5000, chunk(1, 3, 3, b'ef')), '1 0', 'the last of three chunks comes first'),
    (feed(A, 5001, chunk(1, 1, 3, b'ab', b'{"a":1}')), '1 0', 'the first'),
    (feed(A, 5002, chunk(1, 2, 3, b'cd')), '1 w 7 6', 'all three are there'),
    (feed(A, 5003, chunk(2, 2, 2, b'a' * 900)), '1 0', 'two peers have a list of the same request id'),
    (feed(B, 5003, chunk(2, 1, 0, b'', b'h' * 256)), '1 0', 'the longest header; the count is not told yet'),
    (feed(A, 5004, chunk(2, 1, 2, b'a' * 123, b'h' * 200)), '1 w 200 1023', 'the list of one peer'),
    (feed(B, 5005, chunk(2, 2, 2, b'b' * 10)), '1 w 256 10', 'that of the other'),
    (feed(B, 5006, chunk(127, 1, 1, b'x')), '1 w 0 1', 'a list without a header'),
    (feed(B, 5007, chunk(0, 1, 1)), '1 w 0 0', 'a list of nothing, with request id 0'),
]

NO_CHUNK = [
    (feed(NO_PEER, 6000, b''), '1 28', 'the peer is asked before the chunk'),
    (feed(0xFFFFFFFF, 6000, chunk(5, 1, 1)), '1 28', 'a peer of 32 bits'),
    (feed(A, 6000, b''), '1 2', 'no byte'),
    (feed(A, 6000, raw('80 00 00 01 00 01 00 00')), '1 2', 'eight bytes: asked before the request id'),
    (feed(A, 6000, raw('80 00 00 01 00 01 00 00 00')), '1 1', 'a request id above 7F'),
    (feed(A, 6000, raw('05 80 00 01 00 01 00 00 00')), '1 1', 'the low byte of the header length above 7F'),
    (feed(A, 6000, raw('05 00 80 01 00 01 00 00 00')), '1 1', 'its high byte'),
    (feed(A, 6000, raw('05 03 00 7B FF 01 00 01 00 00 00')), '1 2', 'a header that is not all there: asked before its bytes'),
    (feed(A, 6000, raw('05 02 00 7B FF 01 00 01 00 00 00')), '1 1', 'a header byte above 7F'),
    (feed(A, 6000, raw('05 00 00 80 00 01 00 00 00')), '1 1', 'a byte of the count above 7F'),
    (feed(A, 6000, raw('05 00 00 01 00 01 80 00 00')), '1 1', 'one of the chunk number'),
    (feed(A, 6000, raw('05 00 00 01 00 01 00 00 80')), '1 1', 'one of the property length'),
    (feed(A, 6000, raw('05 00 00 01 00 01 00 02 00 FF')), '1 2', 'a property that is not all there: asked before its bytes'),
    (feed(A, 6000, raw('05 02 00 7B 7D 01 00 01 00 00 00 00')), '1 1', 'a byte left over'),
    (feed(A, 6000, raw('05 00 00 01 00 01 00 01 00 FF')), '1 1', 'a property byte above 7F'),
    (feed(A, 6000, raw('05 01 00 7B 02 00 02 00 00 00')), '1 8', 'a header on chunk 2'),
    (feed(A, 6000, chunk(5, 5, 2)), '1 8', 'chunk 5 of 2'),
    (cancel(A, 5), '2 0', 'none of these has opened a list'),
]

REFUSED = [
    (feed(A, 7000, chunk(1, 1, 1, b'', b'h' * 257)), '1 4', 'a header over 256 bytes'),
    (cancel(A, 1), '2 1', 'that has opened its list'),
    (feed(A, 7001, chunk(1, 1, 2, b'ab', b'{}')), '1 0', 'a list begins'),
    (feed(A, 7002, chunk(1, 1, 2, b'ab', b'[]')), '1 8', 'another header'),
    (feed(A, 7003, chunk(1, 2, 3, b'cd')), '1 8', 'another count'),
    (feed(A, 7004, chunk(1, 3, 0, b'cd')), '1 8', 'a number above the count that is known'),
    (feed(A, 7005, chunk(1, 1, 2, b'ab', b'{}')), '1 8', 'a chunk that is there already'),
    (feed(A, 7006, chunk(1, 2, 2, b'cd')), '1 w 2 4', 'the list went on'),
    (feed(A, 7007, chunk(2, 3, 0, b'c')), '1 0', 'a list whose count is not told'),
    (feed(A, 7008, chunk(2, 1, 2, b'a', b'{}')), '1 8', 'a first count below a number that is held'),
    (feed(A, 7009, chunk(2, 1, 3, b'a', b'[]')), '1 8', 'the header of the chunk before was taken'),
    (feed(A, 7010, chunk(2, 1, 3, b'a', b'{}')), '1 0', 'its count was not'),
    (feed(A, 7011, chunk(2, 2, 0, b'b')), '1 w 2 3', 'the list went on'),
    (feed(A, 7012, chunk(3, 1, 2, b'a')), '1 0', 'a list begins'),
    (feed(A, 7013, chunk(3, 0, 3, b'b')), '1 8', 'chunk number 0 with another count: the count is asked first'),
    (feed(A, 7014, chunk(3, 0, 2, b'b')), '1 8', 'the list was still open; now chunk number 0 closes it'),
    (cancel(A, 3), '2 0', 'it is closed'),
    (feed(A, 7015, chunk(4, 1, 2, b'a' * 4000)), '1 0', 'a long list begins'),
    (feed(A, 7016, chunk(4, 2, 2, b'a' * 97)), '1 5', 'a body over 4,096 bytes closes it'),
    (cancel(A, 4), '2 0', 'it is closed'),
]

RECORDS = [(feed(A, 8000 + number, chunk(1, number, 0)), '1 0', f'chunk {number} of a list whose count is not told') for number in range(2, 66)] + [
    (feed(A, 8066, chunk(1, 1, 0)), '1 5', 'a chunk beyond 64'),
    (cancel(A, 1), '2 1', 'the list stayed open'),
]

PLACES = [(feed(A, 10000, chunk(request_id, 1, 2)), '1 0', f'list {request_id} of a peer') for request_id in range(1, 5)] + [
    (feed(A, 10001, chunk(5, 1, 1)), '1 6', 'a fifth'),
    (feed(B, 10002, chunk(1, 1, 2)), '1 0', 'the second peer'),
    (feed(C, 10003, chunk(1, 1, 1)), '1 7', 'a third, while both others are busy'),
    (cancel(A, 2), '2 1', 'a list is cancelled'),
    (cancel(A, 2), '2 0', 'it is gone'),
    (cancel(A, 0), '2 0', 'a closed list has no request id'),
    (cancel(A, 255), '2 0', 'a request id that no list has'),
    (cancel(C, 1), '2 0', 'a peer that has no list'),
    (cancel(NO_PEER, 1), '2 r28', 'no peer'),
    (feed(A, 10004, chunk(5, 1, 2)), '1 0', 'the fifth takes the place that is free'),
    (drop(C), '3 0', 'a peer that is not known'),
    (drop(NO_PEER), '3 r28', 'no peer'),
    (drop(B), '3 1', 'a peer with one list'),
    (drop(B), '3 0', 'it is gone'),
    (feed(C, 10005, chunk(1, 1, 2)), '1 0', 'the third peer takes its record'),
    (feed(C, 10006, chunk(2, 1, 2)), '1 0', 'its second list'),
    (drop(C), '3 2', 'two lists'),
    (drop(A), '3 4', 'four lists'),
    (feed(A, 11000, chunk(1, 1, 1)), '1 w 0 0', 'a peer that then has nothing open'),
    (feed(B, 11001, chunk(1, 1, 1)), '1 w 0 0', 'another one'),
    (feed(C, 11002, chunk(1, 1, 2)), '1 0', 'a third takes an idle record'),
    (feed(A, 11003, chunk(1, 1, 2)), '1 0', 'the first takes the other one'),
    (feed(B, 11004, chunk(1, 1, 1)), '1 7', 'none is left'),
]

POLLS = [
    (poll(14001), '4 0', 'nobody has waited for 3,000 ms'),
    (poll(14002), '4 1', 'one list has'),
    (poll(14003), '4 1', 'then the other one'),
    (poll(14003), '4 0', 'both are closed'),
] + [(feed(peer, 20000, chunk(request_id, 1, 2)), '1 0', f'list {request_id} of four') for peer in (A, B) for request_id in range(1, 5)] + [
    (poll(22999), '4 0', 'nobody has waited for 3,000 ms'),
    (poll(23000), '4 8', 'every list has'),
    (feed(A, 30000, chunk(1, 1, 2)), '1 0', 'a list'),
    (feed(A, 30001, chunk(2, 1, 2)), '1 0', 'a second'),
    (feed(A, 30002, chunk(3, 1, 2)), '1 0', 'a third'),
    (feed(B, 40000, chunk(1, 1, 2)), '1 0', 'that of the other peer'),
    (poll(500), '4 0', 'the clock went back'),
    (feed(B, 1000, chunk(1, 1, 2)), '1 8', 'a chunk that is there already sets the time of its list, here back'),
    (poll(4000), '4 1', 'that list; the others have times to come'),
    (poll(33002), '4 3', 'the others'),
    (feed(A, 0, chunk(1, 1, 2)), '1 0', 'the earliest time'),
    (feed(B, LATEST, chunk(1, 1, 2)), '1 0', 'the latest'),
    (poll(LATEST), '4 1', 'the first of them'),
    (poll(0), '4 0', 'the clock went back'),
    (drop(B), '3 1', 'the second was still open'),
]

STORED = EXAMPLE + LISTS + NO_CHUNK + REFUSED + RECORDS + PLACES + POLLS + [(feed(A, 50000, chunk(1, 1, 2)), '1 0', 'a list is open at the end')]
UNKNOWN = b'\x05'
BEHIND = cancel(A, 1) + drop(A) + poll(LATEST) + b'\x01'  # not played


def played(steps):
    return b''.join(command for command, _, _ in steps)


def text(steps):
    return ''.join(line + '\n' for _, line, _ in steps).encode('ascii')


def stored_files():
    return {'stdin': played(STORED) + UNKNOWN + BEHIND, 'stdout': text(STORED) + b'r36\n'}


if __name__ == '__main__':
    for name, contents in stored_files().items():
        (pathlib.Path(sys.argv[1]) / name).write_bytes(contents)
