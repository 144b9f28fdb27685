#!/usr/bin/env python3
"""streams.py write: the streams of this folder (.in), the levels of some universes after them (.out), the program's stored run and the
small rig's levels, by reference.py.
streams.py compare PROGRAM N: lists the levels after long streams, and after N random and damaged ones, by PROGRAM and by reference.py: they
must agree; and the small rig's levels must be those of its channel blocks, as its stored listing has them."""
import collections
import pathlib
import random
import re
import struct
import subprocess
import sys

sys.dont_write_bytecode = True
sys.path.insert(0, str(pathlib.Path(__file__).resolve().parent.parent))
from book.reference import LONGEST, packets
from levels.reference import levels_listing, numbers
from listing.streams import MESSAGES, OTHERS, compare_all, damaged, packet
from unsupported.reference import kind
from unsupported.streams import chls

VENUES = pathlib.Path('../../venues')


def block(blind, universe, first, levels):
    return struct.pack('<BBHH', blind, universe, first, len(levels)) + levels


def chbk(*fields, **header):
    return packet(b'SDMX', b'ChBk', block(*fields), **header)


BLOCKS = [
    chbk(0, 3, 0, bytes(range(200, 212))),
    chbk(0, 3, 4, b'\1\2\3'),  # over the first
    chbk(1, 3, 0, b'\xFF' * 512),  # blind
    chbk(255, 3, 0, b'\xFF' * 513),  # blind, and past the last channel
    chbk(0, 4, 0, b'\x40' * 512),
    chbk(0, 4, 500, b'\x41' * 20),  # universe 4: 20
    chbk(0, 3, 511, b'\x07'),
    chbk(0, 3, 511, b'\x08\x09'),  # 20
    chbk(0, 3, 512, b'\x09'),  # 20
    chbk(0, 3, 0, b'\xEE' * 513),  # 20
    chbk(0, 3, 65535, b'\xEE' * 2),  # 20
    chbk(0, 3, 65535, b''),
    chbk(0, 3, 600, b''),
    packet(b'SDMX', b'ChBk', block(0, 3, 20, b'\x1E') + b'\xFF\xFF'),  # added bytes are no levels
    chbk(0, 3, 30, bytes(range(33)), minor=9, request_index=7),
]

LISTS = [
    chls((3, 0, 5), (4, 600, 9), (3, 0, 6)),  # the later wins; another universe's channel is past the last
    chls((3, 1, 99), (3, 512, 1)),  # 20, and channel 1 stays
    chls((3, 65535, 1), (3, 1, 99)),  # 20
    chls((4, 512, 1), (4, 2, 98)),  # universe 4: 20
    chls(),
    chls((3, 511, 0), (3, 510, 255), added=b'\3\0\0\1'),
    chls(*[(3, 100 + i % 7, i) for i in range(256)]),
]

NO_LEVELS = [
    packet(b'SDMX', b'ChBk', block(0, 3, 0, b'\xDD' * 9)[:-1]),  # 7
    packet(b'SDMX', b'ChBk', block(0, 3, 0, b'')[:5]),
    packet(b'SDMX', b'ChBk'),
    packet(b'SDMX', b'ChLs', struct.pack('<HBHB', 2, 3, 0, 0xDD)),  # 7
    packet(b'SDMX', b'ChLs', b'\1'),
    packet(b'SDMX', b'', b'ChB'),  # 6
    chbk(0, 3, 0, b'\xDD', count=2),  # fragments
    chls((3, 0, 0xDD), part=1),
    packet(b'SDMX', b'CHBK', block(0, 3, 0, b'\xDD')),  # unknown
    packet(b'MSEX', b'ChBk', block(0, 3, 0, b'\xDD')),
    packet(b'PINF', b'PLoc', b'\0\0ChBk\0ChLs\0\0'),
]

FIRST = [  # for universe 0
    chbk(0, 0, 0, bytes(range(1, 30))),
    chbk(0, 0, 508, b'\5\6\7\x08'),
    chbk(0, 0, 509, b'\xDD' * 4),  # 20
    chbk(1, 0, 0, b'\xDD'),
    chls((0, 7, 70), (1, 512, 1), (0, 7, 71), (0, 300, 99)),
    chls((0, 7, 0xDD), (0, 512, 1)),  # 20
]

STREAMS = {
    'empty': b'',
    'first': b''.join(FIRST),
    'blocks': b''.join(BLOCKS),
    'lists': b''.join([*BLOCKS[:2], *LISTS]),
    'others': b''.join([BLOCKS[0], *MESSAGES, *OTHERS, *NO_LEVELS]),
    'cut': b''.join([*BLOCKS, *LISTS])[:-1],
}
STORED = [('empty', 0), ('first', 0), ('blocks', 3), ('blocks', 4), ('lists', 3), ('lists', 4), ('others', 3), ('cut', 3), ('cut', 5)]


def long_streams():
    """Streams of about as many bytes as are taken."""
    full = chbk(0, 3, 0, bytes(i % 256 for i in range(512)))
    yield (full * 121)[:LONGEST]
    yield full * 120 + chls(*[(3, i % 512, i % 251) for i in range(200)])
    yield packet(b'SDMX', b'ChLs', struct.pack('<H', 16377) + b''.join(struct.pack('<BHB', 3, i % 512, i % 256) for i in range(16377)))
    yield packet(b'SDMX', b'ChLs', struct.pack('<H', 16377) + b''.join(struct.pack('<BHB', 3, i // 32, 9) for i in range(16377)))  # 511
    yield packet(b'SDMX', b'ChLs', struct.pack('<H', 16377) + b''.join(struct.pack('<BHB', 3, i // 31, 9) for i in range(16377)))  # 20
    yield packet(b'SDMX', b'ChBk', block(0, 3, 0, bytes(65000)))  # 20
    for length in (LONGEST, LONGEST + 1):
        yield full + packet(b'MSEX', b'', bytes(length - len(full) - 20))


def drawn(rng):
    """Blocks and lists for few universes, at the ends of the channels more often than elsewhere, among other packets."""
    def channel():
        return rng.choice((rng.randrange(512), rng.randrange(512), rng.randrange(500, 512), rng.choice((511, 512, 513, 65535))))

    def universe():
        return rng.choice((3, 3, 3, 0, 255))
    for _ in range(rng.randrange(1, 40)):
        test = rng.random()
        if test < 0.5:
            first = rng.choice((0, 0, channel()))
            levels = rng.randbytes(rng.choice((0, 1, 5, 32, 512, max(0, 512 - first), rng.randrange(600))))
            yield chbk(rng.choice((0, 0, 0, 0, 1, 255)), universe(), first, levels)
        elif test < 0.9:
            few = [rng.randrange(512) for _ in range(3)]  # named again and again
            yield chls(*((universe(), rng.choice((*few, rng.randrange(512))) if rng.random() < 0.97 else channel(), rng.randrange(256))
                         for _ in range(rng.choice((0, 1, 2, 7, 30)))))
        else:
            yield rng.choice([*BLOCKS, *LISTS, *NO_LEVELS, *MESSAGES, *OTHERS])


def write():
    for name, stream in STREAMS.items():
        pathlib.Path(name + '.in').write_bytes(stream)
    for name, universe in STORED:
        pathlib.Path('%s-%d.out' % (name, universe)).write_text(levels_listing(STREAMS[name], universe), encoding='ascii')
    program = pathlib.Path('../../crates/citp_levels')
    every = b''.join([*BLOCKS, *LISTS, *MESSAGES, *OTHERS, *NO_LEVELS])
    (program / 'args').write_text('3\n', encoding='ascii')
    (program / 'stdin').write_bytes(every)
    (program / 'stdout').write_text(levels_listing(every, 3), encoding='ascii')
    rig = (VENUES / 'small-rig.citp').read_bytes()
    (VENUES / 'small-rig.levels.txt').write_text(levels_listing(rig, 0), encoding='ascii')


def compare(program, n):
    rng, refused, lit = random.Random(8), collections.Counter(), 0
    some = [list(drawn(rng)) for _ in range(n)]
    streams = [*long_streams(), *(b''.join(each) if rng.random() < 0.7 else damaged(rng, each) for each in some)]

    def expected(universe):
        def reference(stream):
            nonlocal lit
            listed = levels_listing(stream, universe)
            refused.update(re.findall(r'^kind=(\w+)$', listed, re.M))
            lit += bool(re.search(r'^levels=[1-9]', listed, re.M))
            return listed
        return reference
    for universe in (3, 0, 255):
        compare_all([program, str(universe)], streams, expected(universe))
    print('with 20 are refused %s; after %d of %d no level is set'
          % (' and '.join('%d %s' % (refused[name], name) for name in sorted(refused)), 3 * len(streams) - lit, 3 * len(streams)))


def compare_rig(program):
    """The small rig's levels beside its channel blocks, as its stored listing has them, none over another."""
    due = collections.defaultdict(lambda: [0] * 512)
    for report in packets((VENUES / 'small-rig.txt').read_text(encoding='ascii')):
        if kind(report) == 'ChBk':
            (universe, first), levels = numbers(report, 'universe_index', 'first_channel'), numbers(report, 'channel_levels')
            due[universe][first:first + len(levels)] = levels
    for universe in (*sorted(due), max(due) + 1):
        with open(VENUES / 'small-rig.citp', 'rb') as rig:
            run = subprocess.run([program, str(universe)], stdin=rig, stdout=subprocess.PIPE, check=True)
        if [int(level) for level in re.findall(rb'^levels=(\d+)$', run.stdout, re.M)] != due[universe]:
            sys.exit("universe %d of the small rig: the levels are not what its listing says" % universe)
    print("the small rig's levels: those of its channel blocks, %s" % ', '.join(
        '%d channels of universe %d' % (sum(map(bool, levels)), universe) for universe, levels in sorted(due.items()) if any(levels)))


if __name__ == '__main__':
    if sys.argv[1:] == ['write']:
        write()
    else:
        compare(sys.argv[2], int(sys.argv[3]))
        compare_rig(sys.argv[2])
