#!/usr/bin/env python3
"""reference.py RECEIVER SENDER: the packets of a sender's stream that a receiver does not support, written from the request for them and
not from the program.

The packets and their fields are those of the second lister; the stored output of the program is this one's (`streams.py write`).
"""
import pathlib
import sys

sys.dont_write_bytecode = True
sys.path.insert(0, str(pathlib.Path(__file__).resolve().parent.parent))
from book.reference import packets
from listing.reference import listing

NEEDED = {'ChLs': 1, 'Sxus': 3}  # the capability that a kind needs


def kind(packet):
    """The kind of a message, its first line of that name, since a PLoc has a field kind too."""
    return next((value for key, value in packet if key == 'kind'), None)


def capabilities(stream):
    """Those of the stream's last Capa; none where it has no Capa."""
    numbers = []
    for packet in packets(listing(stream)):
        if kind(packet) == 'Capa':
            numbers = [int(value) for key, value in packet if key == 'capabilities']
    return numbers


def is_whole(stream):
    """Whether all of a stream can be read."""
    *reports, end = packets(listing(stream))
    return dict(end)['stop'] == '0' and not any(('report', 'refused') in packet for packet in reports)


def unsupported(receiver, sender):
    """What is listed of two streams."""
    supported = capabilities(receiver)
    *reports, end = packets(listing(sender))
    lacking = {name for name, number in NEEDED.items() if number not in supported}
    offsets = [dict(packet)['at'] for packet in reports if kind(packet) in lacking]
    lines = [('offsets.count', len(offsets)), *(('offsets', offset) for offset in offsets), ('stop', dict(end)['stop'])]
    return ''.join('%s=%s\n' % line for line in lines)


if __name__ == '__main__':
    sys.stdout.write(unsupported(*(pathlib.Path(name).read_bytes() for name in sys.argv[1:])))
