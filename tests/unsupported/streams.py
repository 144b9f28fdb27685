#!/usr/bin/env python3
"""streams.py write: the streams of this folder, of receivers and of senders (.in), what is listed of some pairs of them (.out), and the
program's stored run, by reference.py.
streams.py compare PROGRAM N: lists every pair of these streams, long ones, and N random and damaged pairs, by PROGRAM and by reference.py:
they must agree."""
import pathlib
import random
import re
import struct
import subprocess
import sys
import tempfile

sys.dont_write_bytecode = True
sys.path.insert(0, str(pathlib.Path(__file__).resolve().parent.parent))
from listing.streams import MESSAGES, OTHERS, damaged, packet, u16s
from unsupported.reference import is_whole, unsupported

LONGEST = 65536
UNREAD = "citp_unsupported: not all of the receiver's stream can be read: citp-list shows where\n"


def capa(*numbers, added=b'', **header):
    return packet(b'SDMX', b'Capa', u16s(*numbers) + added, **header)


def chls(*records, added=b'', **header):
    """A record: universe_index, channel, channel_level."""
    levels = b''.join(struct.pack('<BHB', *record) for record in records)
    return packet(b'SDMX', b'ChLs', struct.pack('<H', len(records)) + levels + added, **header)


def sxus(universe_index, connection_string, **header):
    return packet(b'SDMX', b'SXUS', bytes([universe_index]) + connection_string, **header)


PLOC = packet(b'PINF', b'PLoc', bytes(2) + b'ChLs\0Sxus\0Capa\0')

# what is no message of the kind that it looks like
NO_CAPA = [
    capa(1, 3, count=2),  # fragments
    capa(1, 3, part=1),
    packet(b'SDMX', b'CAPA', u16s(1, 3)),  # unknown
    packet(b'MSEX', b'Capa', u16s(1, 3)),
    PLOC,
]
REFUSED_CAPA = [
    packet(b'SDMX', b'Capa', u16s(1, 3)[:-1]),  # 7
    packet(b'SDMX', b'', b'Cap'),  # 6
]
NO_LIST = [
    chls((1, 2, 3), count=2),
    chls((1, 2, 3), part=1),
    packet(b'MSEX', b'ChLs', u16s()),
    packet(b'SDMX', b'ChLs', struct.pack('<HBHB', 2, 1, 2, 3)),  # 7
    packet(b'SDMX', b'ChLs', b'\0'),
    packet(b'SDMX', b'Sxus', b'\0A\0'),  # the content type is in capitals
    packet(b'SDMX', b'SXUS'),  # 7
    sxus(1, b'ArtNet'),  # 8
    sxus(1, b'x' * 256 + b'\0'),  # 19
    packet(b'SDMX', b'', b'ChL'),  # 6
    PLOC,
]
LISTS = [
    chls(),
    chls((0, 511, 255), (9, 10, 99)),
    sxus(0, b'\0'),
    sxus(3, b'BSRE1.31/2\0', minor=9, request_index=7),
    chls((255, 65535, 0), added=b'added'),
    sxus(255, b'x' * 255 + b'\0added'),
    chls(count=0),
]

RECEIVERS = {
    'none': b'',
    'lists': capa(1),
    'sources': capa(101, 3, 3),
    'both': capa(3, 2, 1),
    'others': b''.join([capa(3), *NO_CAPA]),
    'changed': b''.join([capa(3, 1), PLOC, capa(), capa(2, 1, 104, added=b'\3\0'), *NO_CAPA, *REFUSED_CAPA]),
}
SENDERS = {
    'empty': b'',
    'packets': b''.join([*MESSAGES, *LISTS, *NO_LIST, *reversed(LISTS), *OTHERS, LISTS[0]]),
    'cut': b''.join([*LISTS, *NO_LIST, *LISTS])[:-1],
}
STORED = [*((receiver, 'packets') for receiver in RECEIVERS), ('none', 'empty'), ('none', 'cut'), ('lists', 'cut')]


def long_pairs():
    """Streams of the most bytes that are taken, and of more, of which nothing is listed."""
    most = capa(*[2] * 32754, 1)
    yield most, SENDERS['packets']
    yield most + b'C', SENDERS['packets']
    yield most + b'CI', SENDERS['packets']
    for sender in (chls() * 2521, sxus(1, b'\0') * 2520 + packet(b'MSEX', b'')[:16], packet(b'MSEX', b'') * 3277, LISTS[1] * 2048):
        yield capa(3), sender[:LONGEST]
        yield RECEIVERS['none'], sender[:LONGEST]
    yield capa(3), (chls() * 2521)[:LONGEST + 1]


def drawn(rng):
    """A receiver with some Capas and a sender with some of the packets that need them, among others."""
    numbers = (1, 3, 2, 0, 257, 259, 101, 65535)
    capas = [capa(*rng.choices(numbers, k=rng.choice((0, 1, 2, 5)))) for _ in range(rng.choice((0, 1, 1, 3)))]
    receiver = [*capas, *rng.choices([*NO_CAPA, *REFUSED_CAPA, *MESSAGES, *LISTS], k=rng.choice((0, 1, 3)))]
    rng.shuffle(receiver)
    sender = rng.choices([*LISTS, *LISTS, *NO_LIST, *MESSAGES, *OTHERS], k=rng.randrange(1, 60))
    return [b''.join(each) if not each or rng.random() < 0.7 else damaged(rng, each) for each in (receiver, sender)]


def write():
    for name, stream in [*RECEIVERS.items(), *SENDERS.items()]:
        pathlib.Path(name + '.in').write_bytes(stream)
    for receiver, sender in STORED:
        pathlib.Path('%s-%s.out' % (receiver, sender)).write_text(unsupported(RECEIVERS[receiver], SENDERS[sender]), encoding='ascii')
    program = pathlib.Path('../../crates/citp_unsupported')
    run = capa(1, 3) + capa(2, 101), SENDERS['packets']
    for name, stream in zip(('receiver.citp', 'sender.citp'), run):
        (program / 'data' / name).write_bytes(stream)
    (program / 'stdout').write_text(unsupported(*run), encoding='ascii')


def listed_by(program, names):
    """What a program prints, and what it says on standard error."""
    run = subprocess.run([program, *names], capture_output=True, check=True)
    return run.stdout.decode('ascii'), run.stderr.decode()


def due(receiver, sender, names):
    """The same of the reference; of a stream that is too long the complaint alone."""
    for name, stream in zip(names, (receiver, sender)):
        if len(stream) > LONGEST:
            return '', 'citp_unsupported: %s: longer than 65536 bytes\n' % name
    return unsupported(receiver, sender), '' if is_whole(receiver) else UNREAD


def compare(program, n):
    rng, listed, unread = random.Random(6), 0, 0
    pairs = [(receiver, sender) for receiver in RECEIVERS.values() for sender in SENDERS.values()]
    pairs += [*long_pairs(), *(drawn(rng) for _ in range(n))]
    with tempfile.TemporaryDirectory() as folder:
        names = [pathlib.Path(folder, name) for name in ('receiver', 'sender')]
        for pair in pairs:
            for name, stream in zip(names, pair):
                name.write_bytes(stream)
            got = listed_by(program, names)
            if got != due(*pair, names):
                for name, stream in zip(names, pair):
                    pathlib.Path('differs.' + name.name).write_bytes(stream)
                sys.exit('what is listed differs: differs.receiver, differs.sender')
            listed += len(re.findall('^offsets=', got[0], re.M))
            unread += got[1] == UNREAD
    print('%d pairs of streams by both: alike; %d offsets; of %d receivers not all can be read' % (len(pairs), listed, unread))


if __name__ == '__main__':
    write() if sys.argv[1:] == ['write'] else compare(sys.argv[2], int(sys.argv[3]))
