#!/usr/bin/env python3
"""compare.py PROGRAM SEED CASES LONGEST: holds midici_pe_header_find, which PROGRAM (answers.c) asks, against python's own json.

The headers are so many changed ones, and every text of up to LONGEST bytes over an alphabet of JSON's characters, by itself and in
braces; one byte less inside of strings, values and between pairs. What python reads more than document 02's K2 lets in is turned
down here: bytes above 7F, values that are nested, floats, constants, numbers below 0 or above 65,535."""
import collections
import itertools
import json
import random
import re
import struct
import subprocess
import sys

KINDS = ('absent', 'string', 'number', 'true', 'false', 'null')
ANSWER = struct.Struct('<BBQQ')
LENGTH = struct.Struct('<I')
BATCH = 20000


class Pairs(list):
    """An object, as python reads it: its pairs in their order."""


DECODER = json.JSONDecoder(strict=True, object_pairs_hook=Pairs)


# ---- What python says ----

def read(text):
    """The object that a text is, and where each of its values begins and ends. ValueError where it is none."""
    pairs, spans = DECODER.decode(text), []
    if not isinstance(pairs, Pairs):
        raise ValueError

    def scan_once(string, begin):
        value, end = DECODER.scan_once(string, begin)
        spans.append((begin, end))
        return value, end

    walked, _ = json.decoder.JSONObject((text, text.index('{') + 1), True, scan_once, None, Pairs)
    if [name for name, _ in walked] != [name for name, _ in pairs]:
        sys.exit(f"python's json reads {text!r} in two ways")
    return pairs, spans


def kind_of(value, text):
    """The kind of a value with this text, 0 where it is of no kind that is let in."""
    if isinstance(value, str):
        return 1
    if type(value) is int and text[0] != '-' and value <= 65535:
        return 2
    return 3 if value is True else 4 if value is False else 5 if value is None else 0


def units(name):
    return name.encode('utf-16-le', 'surrogatepass')


def expected(header, name):
    """The four fields of the answer."""
    if len(header) > 4096:
        return 33, 0, 0, 0
    try:
        text = header.decode('ascii')
        pairs, spans = read(text)
    except (ValueError, RecursionError):
        return 34, 0, 0, 0
    kinds = [kind_of(value, text[begin:end]) for (_, value), (begin, end) in zip(pairs, spans)]
    if 0 in kinds:
        return 34, 0, 0, 0
    names = [units(its_name) for its_name, _ in pairs]
    if len(set(names)) < len(names):
        return 35, 0, 0, 0
    wanted = units(name.decode('ascii')) if name.isascii() else None
    if wanted not in names:
        return 0, 0, 0, 0
    k = names.index(wanted)
    (begin, end), quotes = spans[k], int(kinds[k] == 1)
    return 0, kinds[k], begin + quotes, end - begin - 2 * quotes


# ---- Headers ----

def many(count, pair):
    return b'{' + b','.join(pair(i) for i in range(count)) + b'}'


GOOD = [header.encode('ascii') for header in (
    '{}', ' { } ', '{"a":1}', '{"resource":"SceneList"}', '{"status":200,"resource":"SceneList","total":40}',
    '{"resource":"X-SceneList","resId":"7","mutualEncoding":"ASCII","offset":0,"limit":65535}',
    '{"a":true,"b":false,"c":null,"d":"","":0}', '\n{\t"a" :\r\n true ,\n "b":"x" , "c" : 12 }\n',
    r'{"\u0061":1,"b\u0062":"\u0041\n","\"\\\/\b\f\n\r\t":"\"\\\/\b\f\n\r\t","\uD83D\uDE00":null}',
    r'{"\uD83D":1,"\uDE00":2,"\uDE00\uD83D":3,"\u00e9":"\u00E9","\u0000":0,"/":"\/"}',
    '{"a":"}{][,:","}":"\\"a\\":1","true":"false","1":65535}', '{"subscribeId":"sub1","command":"partial","setPartial":true,"n":9}',
)] + [many(40, lambda i: b'"n%d":%d' % (i, i * 1600)), many(12, lambda i: b'"\\u%04x" : "%d"' % (i * 5461, i))]
LONG = [many(575, lambda i: b'"%c%c":0' % (35 + i // 50, 35 + i % 50)), many(372, lambda i: b'"\\u%04X":1' % (i * 176)),
        b'{"a":"' + b'x' * 4080 + b'"}', b'{"' + b'n' * 4089 + b'":0}', b'{"a":1' + b' ' * 4089 + b'}',
        b'{"a":' + b'1' * 4000 + b'}', b' ' * 4090 + b'{"a":1', b'{"a":"' + b'\\u0041' * 681 + b'"}']
NAMES = [b'', b'a', b'b', b'resource', b'status', b'n7', b'\n', b'/', b'"', b'\\', b'\\u0061', b'A', b'\xe9', b'\xc3\xa9', b'a\x80',
         b'resourc', b'resources', b'##', b'n' * 4089]
STRING = re.compile(rb'"((?:[^"\\]|\\.)*)"', re.S)
VALUE = re.compile(rb'(?<=:)(?:"(?:[^"\\]|\\.)*"|[^\s",:{}]+)', re.S)
PART = re.compile(rb'"(?:[^"\\]|\\.)*"|[{}:,]|[^\s",:{}]+|.', re.S)
SPACES = [b' ', b'\n', b'\t', b'\r', b'  ', b' \r\n\t']
VALUES = [b'0', b'1', b'65535', b'true', b'false', b'null', b'""', b'"a"', b'"\\u0061\\""', b'"SceneList"', b'200',
          b'65536', b'01', b'-1', b'1.0', b'1e1', b'[]', b'{}', b'NaN', b'tru', b'99999999999999999999', b'"\t"', b'"\xe9"']
PIECES = SPACES + VALUES + [bytes([byte]) for byte in b'{}[]":,\\0123456789-+.eE tfnu/abx\x00\x1f\x7f\x80\xff'] + [
    b'\\n', b'\\u0062', b'\\ud83d', b'\\"', b'\\a', b'\\x41', b'\\U0061', b'\\u006', b'\\u00g1', b'\\u00@1', b'\\u+061', b'\\u1_23', b'"a":1,', b',"b":2',
    b'//', b'\xef\xbb\xbf']


def respell(pick, header):
    """A byte of a string as a \\u escape."""
    found = pick.choice(STRING.findall(header) or [b''])
    places = [i for i, byte in enumerate(found) if byte != 0x5C and (i == 0 or found[i - 1] != 0x5C)]
    if not places:
        return header
    i = pick.choice(places)
    escape = pick.choice((b'\\u%04x', b'\\u%04X')) % found[i]
    return header.replace(b'"' + found + b'"', b'"' + found[:i] + escape + found[i + 1:] + b'"', 1)


def add_pair(pick, header):
    """A new pair, or one of the header once more, behind the first brace."""
    names = STRING.findall(header) if pick.random() < 0.2 else []
    name = b'"' + pick.choice(names) + b'"' if names else b'"%d"' % pick.randrange(100000)
    return header.replace(b'{', b'{' + name + b':' + pick.choice(VALUES[:11]) + b',', 1)


def change_value(pick, header):
    spans = [found.span() for found in VALUE.finditer(header)] or [(0, 0)]
    begin, end = pick.choice(spans)
    return header[:begin] + pick.choice(VALUES if pick.random() < 0.3 else VALUES[:11]) + header[end:]


def add_space(pick, header):
    parts = PART.findall(header)
    parts.insert(pick.randint(0, len(parts)), pick.choice(SPACES))
    return b''.join(parts)


def change_parts(pick, header):
    """A part goes, or stands twice, or two change places."""
    parts = PART.findall(header) or [b'']
    i, k = pick.randrange(len(parts)), pick.randrange(len(parts))
    parts[i], parts[k] = pick.choice(((b'', parts[k]), (parts[i], parts[i] + parts[k]), (parts[k], parts[i])))
    return b''.join(parts)


def change_bytes(pick, header):
    """Some bytes go, stand elsewhere or twice, or something stands for them."""
    begin, to = pick.randint(0, len(header)), pick.randint(0, len(header))
    end = min(len(header), begin + pick.choice((0, 0, 1, 1, 2, 5, pick.randint(0, 40))))
    cut, rest = header[begin:end], header[:begin] + header[end:]
    return pick.choice((rest, rest[:to] + cut + rest[to:], header[:to] + cut + header[to:], header[:begin] + pick.choice(PIECES) + header[end:],
                        header[:begin] + bytes([pick.randrange(256)]) + header[end:]))


CHANGES = (respell, respell, add_pair, add_pair, add_pair, change_value, change_value, add_space, add_space, change_parts, change_bytes,
           change_bytes, change_bytes)


def any_name(pick, header):
    """One that the header has, as it is spelled there or resolved, or one that it may not have."""
    names = STRING.findall(header)
    if not names or pick.random() < 0.2:
        return pick.choice(NAMES)
    name = pick.choice(names)
    try:
        return json.loads(b'"' + name + b'"').encode('latin-1') if pick.random() < 0.8 else name
    except ValueError:
        return name


def changed_headers(seed, count):
    pick = random.Random(seed)
    for _ in range(count):
        header = pick.choice(LONG if pick.random() < 0.003 else GOOD)
        for _ in range(pick.choice((0, 1, 1, 1, 2, 2, 3, 5))):
            header = pick.choice(CHANGES)(pick, header)
        yield header, any_name(pick, header)


ALPHABET = b'{}[]":,\\ \n019-.etrunl'
FRAMES = ((b'', b'', 0), (b'{', b'}', 0), (b'{"a":', b'}', 1), (b'{"a":"', b'"}', 1), (b'{"a":1', b'}', 1), (b'{"a":655', b'}', 1),
          (b'{"', b'":1}', 1), (b'{"\\u', b'":1}', 1), (b'{"1":0,"', b'":1}', 1), (b'{"a":1', b'"b":2}', 1), (b'{"a":1}', b'', 1))


def count_texts(longest):
    return sum(len(ALPHABET) ** length for _, _, less in FRAMES for length in range(longest - less + 1))


def every_text(longest):
    for before, behind, less in FRAMES:
        for length in range(longest - less + 1):
            for letters in itertools.product(ALPHABET, repeat=length):
                text = bytes(letters)
                yield before + text + behind, b'a' if before != b'{"' else text


# ---- The comparison ----

def difference(header, name, wanted, answered):
    fields = ('refusal', 'kind', 'place', 'length')
    said = [', '.join(f'{field} {number}' for field, number in zip(fields, numbers)) for numbers in (wanted, answered)]
    return f"NOT THE SAME.\nheader: {header!r}\nname: {name!r}\npython's json: {said[0]}\nmidici_pe_header_find: {said[1]}"


def compare(program, cases):
    """How often each answer was given."""
    seen = collections.Counter()
    cases = iter(cases)
    while batch := list(itertools.islice(cases, BATCH)):
        wanted = [expected(header, name) for header, name in batch]
        given = b''.join(LENGTH.pack(len(part)) + part for case in batch for part in case)
        answered = subprocess.run([program], input=given, stdout=subprocess.PIPE, check=True).stdout
        if answered != b''.join(itertools.starmap(ANSWER.pack, wanted)):
            for case, mine, its in itertools.zip_longest(batch, wanted, ANSWER.iter_unpack(answered)):
                if mine != its:
                    sys.exit(difference(*case, mine, its))
        seen.update(KINDS[kind] if refusal == 0 else str(refusal) for refusal, kind, _, _ in wanted)
    return seen


def told(seen):
    return ', '.join(f'{answer} {seen[answer]:,}' for answer in KINDS + ('33', '34', '35'))


def main(program, seed, cases, longest):
    if json.decoder.c_scanstring is None:  # the other one takes \u+123 for an escape
        print("python's json is not compared: it has no part in C here.")
        return
    seconds = cases // 28000 + count_texts(longest) // 200000
    if seconds > 10:
        print(f"Comparing with python's json: about {seconds} seconds.", flush=True)
    changed = compare(program, changed_headers(seed, cases))
    print(f"python's json reads {cases:,} changed headers (seed {seed}) as midici_pe_header_find does: {told(changed)}.", flush=True)
    texts = compare(program, every_text(longest))
    print(f'So it does {count_texts(longest):,} short texts, among them all of up to {longest} bytes over {len(ALPHABET)} characters: '
          f'{told(texts)}.')


main(sys.argv[1], *map(int, sys.argv[2:]))
