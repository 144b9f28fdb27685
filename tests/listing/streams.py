#!/usr/bin/env python3
"""streams.py write: the streams of this folder (.in) and their listings (.out), by reference.py; `kinds` is the program's stored run too.
streams.py compare PROGRAM N: lists long streams, the small rig with a lamp renamed, and N random and damaged ones, by PROGRAM and by
reference.py; they must agree, and a lamp named by a backslash and four digits must not be listed as one named by the character."""
import pathlib
import random
import struct
import subprocess
import sys

sys.dont_write_bytecode = True
sys.path.insert(0, str(pathlib.Path(__file__).resolve().parent.parent))
from listing.reference import listing


def packet(layer, type_, body=b'', hint=7, request_index=0, count=1, part=0, minor=0, size=None):
    """A packet; its content type is a number or four letters, or none."""
    type_ = type_.to_bytes(4, 'little') if isinstance(type_, int) else type_
    rest = type_ + (struct.pack('<I', hint) if layer == b'FPTC' and type_ else b'') + body
    size = 20 + len(rest) if size is None else size
    return b'CITP' + struct.pack('<BBHIHH', 1, minor, request_index, size, count, part) + layer + rest


def u16s(*numbers):
    return struct.pack('<H%dH' % len(numbers), len(numbers), *numbers)


def ucs2(text):
    return text.encode('utf-16-le') + b'\0\0'


def identifier(type_, data):
    return struct.pack('<BH', type_, len(data)) + data


def fixture(number, names, identifiers, data):
    """Its data: six numbers of the patch and the channel, three strings, six floats by their bits."""
    patched, universe, universe_channel, unit, channel, circuit, note, *floats = data
    return (struct.pack('<I', number) + b''.join(map(ucs2, names)) + struct.pack('<HBB', 16, 1, len(identifiers)) + b''.join(identifiers)
            + struct.pack('<BBH', patched, universe, universe_channel) + ucs2(unit) + struct.pack('<H', channel) + ucs2(circuit) + ucs2(note)
            + struct.pack('<6I', *floats))


def feed_list(source_key, *names):
    return struct.pack('<IB', source_key, len(names)) + b''.join(map(ucs2, names))


def frame(source_key, feed_index, frame_sequence, *points):
    """A point: x_low_byte, y_low_byte, xy_high_nibbles, color."""
    head = struct.pack('<IBIH', source_key, feed_index, frame_sequence, len(points))
    return head + b''.join(struct.pack('<BBBH', *point) for point in points)


def lamp(names, unit='', circuit='', note='', type_=0, identifiers=()):
    """A fixture list of one fixture that has nothing but names, and perhaps identifiers."""
    return struct.pack('<BH', type_, 1) + fixture(1, names, identifiers, (0, 0, 0, unit, 0, circuit, note, *[0] * 6))


def named(length):
    """For each string of each kind a packet in which it has so many bytes or units, and the kind's other strings few or none."""
    text = 'x' * length
    string = text.encode() + b'\0'
    alone = [[''] * i + [text] + [''] * (2 - i) for i in range(3)]
    return [
        packet(b'PINF', b'PNam', string),
        *[packet(b'PINF', b'PLoc', bytes(2 + i) + string + bytes(2 - i)) for i in range(3)],
        packet(b'SDMX', b'UNam', b'\0' + string),
        packet(b'SDMX', b'SXUS', b'\0' + string),
        *[packet(b'FPTC', b'Ptch', struct.pack('<HBBHH', i + 1, 0, 0, i, 1) + bytes(i) + string + bytes(1 - i)) for i in range(2)],
        packet(b'FINF', b'Fram', bytes(4) + string),
        packet(b'CAEX', 0x00020100, ucs2(text)),
        *[packet(b'CAEX', 0x00020201, lamp(names)) for names in alone],
        *[packet(b'CAEX', 0x00020201, lamp([''] * 3, *names)) for names in alone],
        packet(b'CAEX', 0x00030101, feed_list(0, 'A', text)),
    ]


FIXTURES = [
    fixture(1, ('Maker', 'Fresnel 1 kW', '1 channel'), [identifier(0, b'\x12\x34'), identifier(2, bytes(range(16))), identifier(5, b'')],
            (1, 0, 0, '1', 101, 'A1', 'gel L201', 0x3F800000, 0xC0200000, 0, 0x80000000, 0x42B40000, 0x7F800000)),
    fixture(0xFFFFFFFF, ('', 'Scheinwerfer Größe \\ "3"', ''), [], (0, 255, 65535, '', 65535, 'é', '\n\x7f~', 0x7FC00000, 0x7F800001, 0xFFFFFFFF, 1, 0, 0xFF800000)),
]

MESSAGES = [
    packet(b'PINF', b'PNam', b'desk\0'),
    packet(b'PINF', b'PLoc', struct.pack('<H', 4809) + b'LightingConsole\0desk\0Running\0', request_index=65535),
    packet(b'SDMX', b'Capa', u16s(1, 2, 104)),
    packet(b'SDMX', b'UNam', b'\x03' + bytes(range(1, 256)) + b'\0'),
    packet(b'SDMX', b'ChBk', b'\x01\x02' + struct.pack('<H', 511) + struct.pack('<H', 4) + b'\x00\x09\x0a\xff'),
    packet(b'SDMX', b'ChLs', struct.pack('<HBHBBHB', 2, 0, 511, 255, 9, 10, 99)),
    packet(b'SDMX', b'SXUS', b'\x00ArtNet/0/0/1\0'),
    packet(b'FPTC', b'Ptch', struct.pack('<HBBHH', 1, 2, 3, 4, 512) + b'Maker\0\0', hint=0xFFFFFFFF),
    packet(b'FPTC', b'UPtc', u16s(), hint=0),
    packet(b'FPTC', b'SPtc', u16s(65535, 0)),
    packet(b'FSEL', b'Sele', b'\x01\x00' + u16s(100, 1000, 10000)),
    packet(b'FSEL', b'DeSe', u16s(9)),
    packet(b'FINF', b'SFra', u16s(1, 2, 3)),
    packet(b'FINF', b'Fram', struct.pack('<HBB', 7, 2, 1) + b'L201\nL202\nStar\0'),
    packet(b'CAEX', 0x00020100, ucs2('Gala é')),
    packet(b'CAEX', 0x00020201, struct.pack('<BH', 2, 2) + b''.join(FIXTURES)),
    packet(b'CAEX', 0x00020201, b'\0\0\0'),
    packet(b'CAEX', 0x00020203, struct.pack('<H2I', 2, 0, 4294967295)),
    packet(b'CAEX', 0x00030102, b'\x05\x19'),
    packet(b'CAEX', 0x00030101, feed_list(0x01020304, 'Bühne links', '', '\n~\x7f€')),
    packet(b'CAEX', 0x00030101, feed_list(0)),
    packet(b'CAEX', 0x00030200, frame(0x01020304, 2, 0xFFFFFFFF, (0, 9, 10, 100), (255, 254, 253, 65535), (1, 2, 3, 256))),
    packet(b'CAEX', 0x00030200, frame(0xFFFFFFFF, 255, 0)),
]

OTHERS = [
    packet(b'SDMX', b'UNam', b'\x03A\0added', minor=9),  # added bytes
    packet(b'CAEX', 0x00030101, feed_list(1, 'A') + ucs2('B')),
    packet(b'CAEX', 0x00030200, frame(1, 0, 2, (3, 4, 5, 6)) + b'added'),
    packet(b'MSEX', b'CInf', b'\1\2'),  # an unknown layer
    packet(b'\x00\xff\xfe\x0a', b''),
    packet(b'SDMX', b'EnId', b'x\0'),  # an unknown kind
    packet(b'CAEX', 0x00030100, b'\0'),
    packet(b'CAEX', 0x00020201, b'?', count=3, part=1),  # fragments
    packet(b'NONE', b'', count=0, part=65535),
    packet(b'SDMX', b'', b'abc'),  # 6
    packet(b'FPTC', b'', b'Ptch' + b'abc'),
    packet(b'SDMX', b'Capa', b'\1\0e'),  # 7
    packet(b'CAEX', 0x00030101, feed_list(1)[:-1]),
    packet(b'CAEX', 0x00030200, frame(1, 0, 2)[:-1]),
    packet(b'CAEX', 0x00030200, frame(1, 0, 2, (3, 4, 5, 6), (7, 8, 9, 10))[:-1]),
    packet(b'SDMX', b'UNam', b'\3A'),  # 8
    packet(b'CAEX', 0x00020100, b'A\0\0'),
    *[packet(b'CAEX', 0x00030101, feed_list(1, 'A', 'B')[:-cut]) for cut in (1, 2, 3, 4)],
    packet(b'CAEX', 0x00020201, b'\3\0\0'),  # 9
    packet(b'CAEX', 0x00020201, lamp(('', '', ''), identifiers=[identifier(6, b'')])),  # 10
    packet(b'PINF', b'PNam', b'x' * 256 + b'\0'),  # 19
]

LIMITS = [
    *named(255),
    *named(256),  # 19, but for Fram
    packet(b'FINF', b'Fram', bytes(4) + b'x' * 9999 + b'\0'),
    packet(b'PINF', b'PNam', b'x' * 256),  # 8: the end comes first
    packet(b'CAEX', 0x00020100, ucs2('x' * 256)[:-1]),
    packet(b'PINF', b'PLoc', bytes(2) + b'x' * 256 + b'\0'),  # 19: in the order of the fields
    packet(b'PINF', b'PLoc', bytes(3) + b'x' * 256),  # 8
    packet(b'CAEX', 0x00020201, lamp(('x' * 256, '', ''))[:530]),  # 19, before the 7 of what is cut off
    packet(b'CAEX', 0x00020201, lamp(('x' * 256, '', ''), type_=3)),  # 9
    packet(b'CAEX', 0x00020201, lamp(('', '', 'x' * 256), identifiers=[identifier(6, b'')])),  # 19
    packet(b'CAEX', 0x00020201, lamp(('', '', ''), 'x' * 256, identifiers=[identifier(6, b'')])),  # 10
]

# names that a wrong escape could list alike: é, a backslash and the digits 00E9, escapes of these, and parts of them; two in units alone
LOOKALIKES = ['é', '\\00E9', '\\005C00E9', '\\005C005C00E9', '\\', '\\\\', '\\005C', '\\005C005C', '\\0E9', '\x0e9', '\\000E9', '\\5C', '00E9', 'É']
NAMES = [
    *[packet(b'CAEX', 0x00020201, lamp(('', name, ''))) for name in [*LOOKALIKES, 'Ā0', '\u1000']],
    *[packet(b'PINF', b'PNam', name.encode('latin-1') + b'\0') for name in LOOKALIKES],
]

ALL = b''.join(MESSAGES + OTHERS)
SHORT = MESSAGES[2]

STREAMS = {
    'example': bytes.fromhex('43495450 01000000 1B000000 01000000 53444D58 554E616D 034100'),
    'empty': b'',
    'kinds': ALL + SHORT[:-1],
    'limits': b''.join(LIMITS),
    'names': b''.join(NAMES),
    'end_0': SHORT + SHORT,
    'end_1': SHORT + bytes(19),
    'end_2': SHORT + b'CITp' + SHORT[4:],
    'end_3': SHORT + b'CITP\2' + SHORT[5:],
    'end_4_small': packet(b'SDMX', b'', size=19),
    'end_4_large': packet(b'SDMX', b'', size=16777217),
    'end_5': SHORT + packet(b'SDMX', b'', size=16777216),
}


def renamed(name):
    """The small rig with another name for its first lamp."""
    rig = pathlib.Path('../../venues/small-rig.citp').read_bytes()
    old, new = ucs2('Source Four 26deg'), ucs2(name)
    at = rig.index(old)
    start = rig.rindex(b'CITP', 0, at)
    size = int.from_bytes(rig[start + 8:start + 12], 'little') + len(new) - len(old)
    return rig[:start + 8] + size.to_bytes(4, 'little') + rig[start + 12:at] + new + rig[at + len(old):]


def long_streams():
    """Streams of 65,536 bytes and more, of which no more are read."""
    yield packet(b'SDMX', b'ChBk', bytes(4) + struct.pack('<H', 65506) + b'\xff' * 65506)
    yield packet(b'SDMX', b'UNam', b'\x01' + b'\xff' * (65536 - 26) + b'\0')  # 19
    yield packet(b'FINF', b'Fram', bytes(4) + b'\xff' * (65536 - 29) + b'\0')
    yield packet(b'FPTC', b'UPtc', u16s(*[65535] * 32753))
    yield packet(b'CAEX', 0x00030101, feed_list(0, *[''] * 254, '\uffff' * 32498) + b'?')  # 19
    yield packet(b'CAEX', 0x00030101, feed_list(0, *['\uffff' * 255] * 127, *[''] * 128) + b'?' * 227)
    yield packet(b'CAEX', 0x00030200, frame(0, 0, 0, *[(255, 255, 255, 65535)] * 13100) + b'?')
    yield packet(b'MSEX', b'') * 4000
    yield (ALL * 42)[:65536]


def damaged(rng, packets):
    """Packets with bytes changed, cut out or put in; or bytes that look like one."""
    s = bytearray(b''.join(packets))
    for _ in range(rng.choice((0, 1, 1, 2, 8))):
        i = rng.randrange(len(s))
        change = rng.randrange(4)
        if change == 0:
            s[i] = rng.choice((0, 1, 2, 255, rng.randrange(256)))
        elif change == 1:
            s[rng.randrange(20, max(21, len(s))) % len(s)] ^= 1 << rng.randrange(8)
        elif change == 2:
            del s[i:i + rng.randrange(1, 9)]
            s = s or bytearray(b'C')
        else:
            s[i:i] = rng.randbytes(rng.randrange(1, 9))
    if rng.random() < 0.5 and len(s) >= 20:  # a size field that fits
        s[8:12] = len(s).to_bytes(4, 'little')
    return bytes(s)


def write():
    for name, stream in STREAMS.items():
        pathlib.Path(name + '.in').write_bytes(stream)
        pathlib.Path(name + '.out').write_text(listing(stream), encoding='ascii')
    program = pathlib.Path('../../crates/citp_list')
    (program / 'stdin').write_bytes(STREAMS['kinds'])
    (program / 'stdout').write_text(listing(STREAMS['kinds']), encoding='ascii')


def compare_all(command, streams, reference):
    """Lists streams by a program with its arguments and by a reference; the first one that differs is written to differs.in."""
    for stream in streams:
        got = subprocess.run(command, input=stream, stdout=subprocess.PIPE, stderr=subprocess.DEVNULL, check=True).stdout
        if got != reference(stream).encode('ascii'):
            pathlib.Path('differs.in').write_bytes(stream)
            sys.exit('a listing differs: differs.in')
    print('%d streams by both: alike' % len(streams))


def compare(program, n):
    rng = random.Random(6)
    some = [damaged(rng, [rng.choice(MESSAGES + OTHERS + LIMITS + NAMES) for _ in range(rng.randrange(1, 6))]) for _ in range(n)]
    rigs = [renamed('Source Four \\00E9'), renamed('Source Four é')]
    compare_all([program], [*long_streams(), *rigs, *some], lambda stream: listing(stream[:65536]))
    first, second = ([line for line in listing(rig).splitlines() if line.startswith('fixture_name=')] for rig in rigs)
    if first == second:
        sys.exit('a lamp named by a backslash and four digits is listed as one named by the character')


if __name__ == '__main__':
    write() if sys.argv[1:] == ['write'] else compare(sys.argv[2], int(sys.argv[3]))
