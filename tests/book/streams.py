#!/usr/bin/env python3
"""streams.py write: the streams of this folder (.in) and their books (.out), the books of three streams of tests/listing (.out), the
program's stored run and the small rig's book, by reference.py.
streams.py compare PROGRAM N: lists the books of long streams, and of N random and damaged ones, by PROGRAM and by reference.py: they must
agree; then the books of streams that end in the same entries by other messages, which must be listed alike; and the small rig's book must
have the lamps of its fixture list."""
import collections
import pathlib
import random
import re
import struct
import sys

sys.dont_write_bytecode = True
sys.path.insert(0, str(pathlib.Path(__file__).resolve().parent.parent))
from book.reference import LONGEST, NAMES, book_listing, fed, packets
from listing.streams import STREAMS as LISTED, compare_all, damaged, packet, u16s

VENUES = pathlib.Path('../../venues')


def patch(identifier, universe, channel, channel_count, names=b'\0\0'):
    return struct.pack('<HBBHH', identifier, universe, 0, channel, channel_count) + names


def ptch(*fields, **header):
    return packet(b'FPTC', b'Ptch', patch(*fields), **header)


def uptc(*identifiers, **header):
    return packet(b'FPTC', b'UPtc', u16s(*identifiers), **header)


OLD = [ptch(identifier, 0, 3 * i, 3) for i, identifier in enumerate((1, 2, 3, 40, 50))]  # on the channels that SMALL takes, and behind

CLEARED = [
    *OLD,
    uptc(),  # none listed: all are dropped
    uptc(),  # of an empty book
    ptch(60, 0, 0, 512),
    packet(b'FPTC', b'UPtc', u16s() + u16s(1)),  # the added bytes are no list: 60 is dropped
]

SMALL = [
    ptch(1, 0, 0, 4, b'Maker\0Spot\0'),
    ptch(2, 0, 4, 1),
    ptch(3, 0, 3, 2),  # 17
    ptch(1, 0, 5, 4),  # moves
    ptch(3, 0, 3, 1),
    ptch(4, 0, 511, 2),  # 16
    uptc(2, 9),
]

HUNG = [  # listed 5, 7, 6, 3, 2, 1, 4
    ptch(4, 255, 0, 512),
    ptch(1, 10, 0, 1),
    ptch(6, 9, 20, 3),
    ptch(2, 9, 511, 1),
    ptch(7, 0, 300, 1),
    ptch(3, 9, 100, 2),
    ptch(5, 0, 2, 1),
]

REHUNG = [  # ends in the entries of HUNG
    ptch(5, 0, 2, 3),
    ptch(8, 9, 0, 512),
    ptch(6, 9, 20, 3),  # 17
    ptch(3, 10, 0, 1),
    ptch(2, 255, 511, 1),
    uptc(8),
    *HUNG[2:4],  # 2 moves down
    ptch(4, 255, 0, 512),
    ptch(1, 10, 0, 1),  # 17
    ptch(3, 9, 100, 2),  # moves down
    *HUNG[4:],  # 5 has fewer channels
    ptch(1, 11, 0, 1),
    ptch(1, 10, 0, 1),
]

UNPATCHED = [
    uptc(*range(20000, 65000, 5000)),  # 9, none held
    *[ptch(identifier, 2, i, 1) for i, identifier in enumerate((21886, 21887, 21889, 43774, 43776, 43777, 65534, 65535))],
    uptc(21887, 21888, 43775, 43776, 65535, 0, 21891, 43773, 43779, 65533, 65535, 5),  # 12: 21887, 43776 and 65535 held
    *[ptch(identifier, 2, i, 1) for i, identifier in ((1, 21888), (4, 43775), (7, 65533))],  # in their channels
    uptc(43775, 65535, 43776, 21887, *range(10, 17), 21888),  # 12: 43775 and 21888 held
    uptc(65534, 2, 4, 6, 8, 21885, 43778, 43774),  # 8: 65534 and 43774 held
]

EDGES = [
    *[ptch(10, 1, *span) for span in ((0, 0), (0, 513), (1, 512), (511, 2), (512, 1), (65535, 1), (65535, 65535))],  # 16
    ptch(10, 1, 511, 1),
    ptch(11, 1, 510, 1),
    ptch(12, 1, 510, 2),  # 17
    ptch(11, 1, 510, 2),  # 17, and keeps its channel
    ptch(11, 1, 509, 3),
    ptch(11, 1, 509, 2),  # over its own channels
    ptch(12, 255, 0, 512),
    ptch(12, 1, 510, 0),  # 16 before 17; its entry stays
    ptch(13, 255, 511, 1),  # 17
    ptch(13, 254, 0, 512),
    ptch(13, 253, 0, 512),  # out of its universe
    ptch(65535, 3, 1, 511),
    ptch(0, 3, 0, 1),  # the universe is full
]

OTHERS = [
    uptc(60000, 60001, 60000),  # not held
    packet(b'FPTC', b'Ptch', patch(20, 9, 0, 1, b'A\0\0added')),
    packet(b'FPTC', b'UPtc', u16s(20) + u16s(0, 10)),  # added bytes drop nothing
    packet(b'FPTC', b'Ptch', patch(21, 9, 1, 1)[:-1]),  # 8
    packet(b'FPTC', b'Ptch', patch(21, 9, 1, 1)[:7]),  # 7
    packet(b'FPTC', b'UPtc', u16s(0, 10)[:-1]),  # 7
    packet(b'FPTC', b'UPtc', u16s()[:-1]),  # 7: it clears nothing
    packet(b'FPTC', b'SPtc', u16s()),
    packet(b'FPTC', b'Ptch', patch(21, 9, 1, 1, b'x' * 255 + b'\0\0')),
    packet(b'FPTC', b'Ptch', patch(22, 9, 2, 1, b'x' * 256 + b'\0\0')),  # 19
    packet(b'FPTC', b'Ptch', patch(22, 9, 2, 1, b'\0' + b'x' * 256 + b'\0')),  # 19
    packet(b'FPTC', b'', b'Ptch'),  # 6
    packet(b'FPTC', b'SPtc', u16s(0, 10)),
    packet(b'SDMX', b'Ptch', patch(21, 9, 1, 1)),  # unknown
    packet(b'SDMX', b'UPtc', u16s()),
    packet(b'MSEX', b'Ptch', patch(21, 9, 1, 1)),
    ptch(21, 9, 1, 1, count=2),  # fragments
    ptch(21, 9, 1, 1, count=2, part=1),
    uptc(count=2),
    packet(b'PINF', b'PLoc', b'\0\0UPtc\0Ptch\0\0'),
]


def full(held):
    """As many more fixtures as a book holds, and messages to the full book."""
    return [
        *[ptch(1000 + i, 7 + i // 200, i % 200, 1) for i in range(256 - held)],
        ptch(500, 7, 300, 1),  # 18
        ptch(500, 7, 0, 1),  # 17 before 18
        ptch(500, 7, 0, 0),  # 16 before both
        ptch(1000, 7, 300, 1),  # moves
        uptc(1001),
        ptch(500, 7, 0, 1),
        ptch(501, 7, 1, 1),  # 18
    ]


STREAMS = {
    'empty': b'',
    'small': b''.join(SMALL),
    'cut': b''.join(SMALL)[:-1],
    'cleared': b''.join([*CLEARED, *SMALL]),
    'emptied': b''.join([*SMALL, uptc()]),
    'hung': b''.join(HUNG),
    'rehung': b''.join(REHUNG),
}

OF_LISTING = ('kinds', 'limits', 'end_4_small')  # streams of tests/listing


def long_streams():
    """Streams of about as many bytes as are listed."""
    fixtures = b''.join(full(0))
    yield fixtures + uptc(*range(900, 20000, 2), *[7] * 10000)
    yield (fixtures + b''.join(ptch(i, i % 9, i % 512, 1) for i in range(1500)))[:LONGEST]
    for length in (LONGEST, LONGEST + 1, LONGEST + 38):
        yield fixtures + packet(b'MSEX', b'', bytes(length - len(fixtures) - 20))


def mixed(rng):
    """Messages over few or many fixtures in few universes, and packets that are none."""
    identifiers, most = rng.choice(((3, 400), (20, 30), (300, 2), (65536, 9)))
    universes = rng.sample(range(256), rng.choice((1, 2, 5)))
    for _ in range(rng.randrange(1, 600)):
        kind = rng.random()
        if kind < 0.8:
            channel = rng.randrange(512) if rng.random() < 0.97 else rng.choice((0, 511, 512, 65535))
            count = rng.randrange(1, most + 1) if rng.random() < 0.97 else rng.choice((0, 512, 513, 65535))
            yield ptch(rng.randrange(identifiers), rng.choice(universes), channel, count)
        elif kind < 0.9:
            yield uptc(*(rng.randrange(identifiers) for _ in range(rng.choice((1, 1, 2, 5, 50)))))
        else:
            yield rng.choice(OTHERS)


def filled(rng):
    """About as many fixtures as a book holds, a channel each; then some that move, come and go."""
    identifiers = rng.sample(range(65536), 300)
    channels = rng.sample([(universe, channel) for universe in (0, 8, 255) for channel in range(512)], 400)
    held = rng.choice((255, 256, 257, 300))
    yield from (ptch(identifier, *channel, 1) for identifier, channel in zip(identifiers[:held], channels))
    for _ in range(rng.randrange(200)):
        if rng.random() < 0.9:
            yield ptch(rng.choice(identifiers), *rng.choice(channels), rng.choice((1, 1, 1, 2, 0)))
        else:
            yield uptc(*rng.sample(identifiers, rng.choice((1, 2, 9, 100))))


def full_book(rng):
    """As many fixtures as a book holds, and more; then some go, and others come in their place."""
    identifiers = rng.sample(range(65536), 400)
    channels = rng.sample([(universe, channel) for universe in (0, 8, 255) for channel in range(512)], 400)
    patches = [ptch(identifier, *channel, rng.choice((1, 1, 2))) for identifier, channel in zip(identifiers, channels)]
    yield from patches
    for _ in range(rng.randrange(15)):
        yield uptc(*rng.sample(identifiers, rng.choice((1, 2, 8, 9, 30))))
        yield from rng.sample(patches, 60)


def full_universes(rng):
    """Universes with no channel free, by one fixture or many; then messages, of which few change that."""
    *identifiers, other = rng.sample(range(65536), 769)
    universes = rng.sample(range(256), rng.choice((1, 2, 3)))
    patches = []
    for universe in universes:
        ends = [0, *sorted(rng.sample(range(1, 512), rng.choice((0, 1, 5, 50, 255)))), 512]
        patches += [(identifiers.pop(), universe, channel, end - channel) for channel, end in zip(ends, ends[1:])]
    rng.shuffle(patches)
    yield from (ptch(*fields) for fields in patches)
    for _ in range(rng.choice((0, 10, 50))):
        yield rng.choices((
            ptch(other, rng.choice(universes), rng.randrange(512), 1),
            ptch(*rng.choice(patches)),
            uptc(rng.choice(patches)[0]),
        ), (60, 37, 3))[0]


def entries_of(book):
    """The entries that a book lists, each as numbers."""
    return [tuple(map(int, entry)) for entry in re.findall('\n'.join(r'%s=(\d+)' % name for name in NAMES), book)]


def listed_of(book):
    """The lines of a book's entries and universes."""
    return book[book.index('entries='):book.index('packets=')]


def rehung(rng, book):
    """Other messages that end in a book's entries: after some that are cleared, its fixtures in any order, a few of them at first with
    their last channel alone."""
    entries = entries_of(book)
    few = [(i, universe, channel + count - 1, 1) for i, universe, channel, count in rng.sample(entries, len(entries) // 4)]
    rng.shuffle(entries)
    return b''.join([*mixed(rng), uptc(), *(ptch(*fields) for fields in [*few, *entries])])


def some_cleared(rng, messages):
    """The messages; of three lists about one gets one or two clearing messages."""
    for _ in range(rng.choice((0, 0, 0, 0, 1, 2))):
        messages.insert(rng.randrange(len(messages) + 1), uptc())
    return messages


def write():
    for name, stream in STREAMS.items():
        pathlib.Path(name + '.in').write_bytes(stream)
    for name, stream in [*STREAMS.items(), *((name, LISTED[name]) for name in OF_LISTING)]:
        pathlib.Path(name + '.out').write_text(book_listing(stream), encoding='ascii')
    program = pathlib.Path('../../crates/citp_book')
    some = b''.join([*CLEARED, *SMALL, *UNPATCHED, *EDGES, *OTHERS])
    every = some + b''.join(full(len(fed(some)[0].entries)))
    (program / 'stdin').write_bytes(every)
    (program / 'stdout').write_text(book_listing(every), encoding='ascii')
    (VENUES / 'small-rig.book.txt').write_text(book_listing((VENUES / 'small-rig.citp').read_bytes()), encoding='ascii')


def compare(program, n):
    rng, books = random.Random(2), []

    def expected(stream):
        books.append(book_listing(stream))
        return books[-1]
    some = [some_cleared(rng, list(rng.choice((mixed, filled, full_book, full_universes))(rng))) for _ in range(n)]
    compare_all([program], [*long_streams(), *(b''.join(each) if rng.random() < 0.7 else damaged(rng, each) for each in some)], expected)
    refused = collections.Counter(number for book in books for number in re.findall(r'^refusal=(\d+)$', book, re.M))
    print('of their messages %s' % ', '.join('%d are refused with %s' % (refused[number], number) for number in sorted(refused)))
    full_ends = (sum(line in book for book in books) for line in ('first_free=none\n', 'entries=256\n'))
    print('%d of the random streams were given a clearing message; %d of all streams end with a full universe, %d with a full book'
          % (sum(uptc() in each for each in some), *full_ends))
    compare_rehung(program, rng, [book for book in books if book])


def compare_rehung(program, rng, books):
    """The entries of each book are listed in their order; and streams that end in them are listed with the lines of that book."""
    for book in books:
        places = [entry[1:3] for entry in entries_of(book)]
        if any(place >= behind for place, behind in zip(places, places[1:])):
            sys.exit('a book is not listed by universe, then by channel, both rising')
    of = {rehung(rng, book): book for book in books}

    def expected(stream):
        book = book_listing(stream)
        return book.replace(listed_of(book), listed_of(of[stream]))
    compare_all([program], of, expected)


def compare_rig():
    """The small rig's book beside its fixture list."""
    lamps, lamp = {}, {}
    for report in packets((VENUES / 'small-rig.txt').read_text(encoding='ascii')):
        for key, value in report if ('kind', 'FixtureList') in report else []:
            lamp[key] = value
            if key == 'universe_channel' and lamp['patched'] == '1':
                lamps[int(lamp['fixture_identifier'])] = int(lamp['universe']), int(value), int(lamp['channel_count'])
    if fed((VENUES / 'small-rig.citp').read_bytes())[0].entries != lamps:
        sys.exit("the small rig's book is not what its fixture list says")
    print("the small rig's book: the %d lamps of its fixture list" % len(lamps))


if __name__ == '__main__':
    if sys.argv[1:] == ['write']:
        write()
    else:
        compare(sys.argv[2], int(sys.argv[3]))
        compare_rig()
