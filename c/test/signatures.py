#!/usr/bin/env python3
"""signatures.py: prints a C file that is an error wherever include/midici_pe.h and the Rattle source disagree.

It reads the exports from crates/hub_c and hub_message, their structs and the numbers of kinds from hub, the structs of a shape and
of a list that is to leave, the refusals' numbers and the sizes from the crates below them.
For each export it prints a pointer of the type that the source says, set to the function that the header declares; for
each struct, refusal, kind and size an assertion. What a compiler does not see is compared here: the names of parameters,
and that neither side has a function, a refusal or a kind that the other lacks."""
import pathlib
import re
import sys

ROOT = pathlib.Path(__file__).resolve().parent.parent.parent
HEADER = ROOT / 'include' / 'midici_pe.h'
TYPES = {'u8': ('uint8_t', 1), 'u16': ('uint16_t', 2), 'u32': ('uint32_t', 4), 'u64': ('uint64_t', 8), 'usize': ('size_t', 8)}
STRUCTS = {'Answer': 'midici_pe_answer', 'CutAnswer': 'midici_pe_cut', 'FedAnswer': 'midici_pe_fed', 'StatsAnswer': 'midici_pe_stats',
           'SyxAnswer': 'midici_pe_syx', 'FoundAnswer': 'midici_pe_found', 'RequestId': 'midici_pe_request_id',
           'Shape': 'midici_pe_shape', 'Outgoing': 'midici_pe_outgoing', 'TurnAnswer': 'midici_pe_turn'}


def wrong(what):
    sys.exit(f'signatures.py: {what}')


def source(path):
    return re.sub(r'//[^\n]*', '', (ROOT / 'crates' / path).read_text(encoding='utf-8'))


def fields(text):
    """NAME: TYPE, NAME: TYPE, .. as pairs."""
    return [tuple(part.strip() for part in item.split(':', 1)) for item in text.split(',') if item.strip()]


def c_parameters(text):
    """Each parameter as C has it: a slice is a pointer and a length."""
    for name, kind in fields(text):
        part = re.fullmatch(r'&(mut )?\[(\w+)\]', kind)
        if part:
            yield f"{'' if part.group(1) else 'const '}{TYPES[part.group(2)][0]} *{name}"
            yield f'size_t {name}_len'
        elif kind in TYPES:
            yield f'{TYPES[kind][0]} {name}'
        elif kind in STRUCTS:
            yield f'{STRUCTS[kind]} {name}'
        else:
            wrong(f'parameter {name} has type {kind}, for which no C type is known here')


def check(condition):
    print(f'static_assert({condition}, "{condition}");')


def exports(text):
    found = re.findall(r'#\[unsafe\(no_mangle\)\]\s*pub extern "C" fn (\w+)\(([^)]*)\) -> (\w+)', text)
    if len(found) != text.count('#[unsafe(no_mangle)]'):
        wrong('an export is not of the form that is read here')
    return {name: (STRUCTS[result], list(c_parameters(parameters))) for name, parameters, result in found}


def print_structs(text):
    """Fields follow one another, each at the next multiple of its size; a struct with one more lacks a value here."""
    for name, body in re.findall(r'#\[repr\(C\)\]\s*(?:#\[derive\([^)]*\)\]\s*)?pub struct (\w+) \{([^}]*)\}', text):
        struct, at, widest = STRUCTS[name], 0, 1
        members = fields(re.sub(r'\bpub ', '', body))
        for field, kind in members:
            kind, size = TYPES[kind]
            at = -(-at // size) * size
            check(f'offsetof({struct}, {field}) == {at}')
            print(f'{kind} *check_{struct}_{field}({struct} *s) {{ return &s->{field}; }}')
            at, widest = at + size, max(widest, size)
        check(f'sizeof({struct}) == {-(-at // widest) * widest}')
        print(f"{struct} check_{struct} = {{{', '.join('0' for _ in members)}}};")


def print_numbers(path, enum, prefix):
    """The numbers of an enum's cases: refusals, or kinds."""
    cases = re.findall(rf'{enum}::(\w+)(?:\(_\))? => (\d+),', source(path).split('fn value')[0])
    for name, number in cases:
        check(f"{prefix}{re.sub(r'(?<=[a-z0-9])(?=[A-Z])', '_', name).upper()} == {number}")
    return len(cases)


def enumerators(enum):
    """How many of the header's enumerators are not 0."""
    return len(re.findall(r'\bMIDICI_PE_\w+ = [1-9]', header.split(f'enum {enum} {{')[1].split('}')[0]))


def number(name):
    """A constant of the source: a number, or an expression of numbers and such constants. Wherever it stands, it is the same."""
    every = '\n'.join(source(path.relative_to(ROOT / 'crates')) for path in sorted((ROOT / 'crates').glob('*/src/*.rt')))
    values = set()
    for expression in re.findall(rf'\bconst {name}: \w+ = ([^;]+);', every):
        names = re.sub(r'(?:\w+::)*\b([A-Z]\w*)', lambda m: str(number(m.group(1))), expression)
        if not re.fullmatch(r'[\d_x\sA-Fa-f+*()-]+', names):
            wrong(f'{name} is {expression}, which is not read here')
        values.add(eval(names))
    if len(values) != 1:
        wrong(f'the source has no constant {name}, or more than one')
    return values.pop()


def print_sizes():
    peers = 'MIDICI_PE_MAX_PEERS'
    for macro, name in (('HEADER_BYTES', 'MAX_HEADER_BYTES'), ('TX_BYTES', 'MAX_TX_BYTES'),
                        ('FRAGMENT_RECORDS', 'MAX_FRAGMENT_RECORDS'), ('TIMEOUT_MS', 'INACTIVITY_TIMEOUT_MS')):
        check(f'MIDICI_PE_{macro} == {number(name)}')
    check(f"MIDICI_PE_NUMBERS_LEN({peers}) == 1 + {peers} * {number('PEER_WORDS')}")
    check('(size_t)PEER_WORDS == MIDICI_PE_NUMBERS_LEN(1) - MIDICI_PE_NUMBERS_LEN(0)')
    check(f"SLOT_WORDS == {number('SLOT_WORDS')}")
    check(f"MIDICI_PE_STAGE_PLACES == {number('PLACES')}")
    check(f"MIDICI_PE_STAGE_LEN == {number('STAGE_WORDS')}")
    check(f"PLACE_WORDS == {number('PLACE_WORDS')}")
    check(f"MIDICI_PE_MESSAGE_LEN + 2 == {number('MAX_SYSEX_MAX')}")
    check('MIDICI_PE_CHUNK_LEN + MIDICI_PE_CI_HEADER_LEN == MIDICI_PE_MESSAGE_LEN')


hub = '\n'.join(source(path.relative_to(ROOT / 'crates')) for path in sorted((ROOT / 'crates').glob('hub*/src/*.rt')))
header = ' '.join(re.sub(r'/\*.*?\*/', '', HEADER.read_text(encoding='utf-8'), flags=re.S).split())
functions = exports(hub)

print('#include <assert.h>')
print('#include "midici_pe.h"')
print('#include "layout.h"')
for function, (result, parameters) in functions.items():
    listed = ', '.join(parameters)
    print(f'{result} (*check_{function})({listed}) = {function};')
    if f'{result} {function}({listed});' not in header:
        wrong(f'{HEADER.name} lacks\n{result} {function}({listed});')
for function in re.findall(r'\b(\w+)\([^()]*\);', header):
    if function not in functions:
        wrong(f'{HEADER.name} declares {function}, which neither crates/hub_c nor hub_message exports')
print_structs(hub + source('pe_reassembler/src/shape.rt') + source('pe_stage/src/place.rt'))
refusals = print_numbers('pe_wire/src/error.rt', 'PeError', 'MIDICI_PE_')
refusals += print_numbers('midici_core/src/error.rt', 'CiError', 'MIDICI_PE_CI_')
refusals += print_numbers('syx/src/lib.rt', 'SyxError', 'MIDICI_PE_SYX_')
refusals += print_numbers('pe_header/src/lib.rt', 'JsonError', 'MIDICI_PE_JSON_')
refusals += print_numbers('pe_tape/src/error.rt', 'TapeError', 'MIDICI_PE_TAPE_')
refusals += print_numbers('pe_stage/src/error.rt', 'StageError', 'MIDICI_PE_STAGE_')
if enumerators('midici_pe_refusal') != refusals:
    wrong(f'{HEADER.name} has other refusals than the source')
if enumerators('midici_pe_kind') != print_numbers('hub/src/header.rt', 'Kind', 'MIDICI_PE_'):
    wrong(f'{HEADER.name} has other kinds than the source')
print_sizes()
