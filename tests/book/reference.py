#!/usr/bin/env python3
"""reference.py < STREAM: the patch book of a stream, written from the requests for the book and not from the program.

The packets and their fields are those of the second lister; the expected listings of this folder are its output (`streams.py write`).
"""
import pathlib
import sys

sys.dont_write_bytecode = True
sys.path.insert(0, str(pathlib.Path(__file__).resolve().parent.parent))
from listing.reference import listing

LONGEST = 65536
NAMES = ('fixture_identifier', 'universe', 'channel', 'channel_count')


class Book:
    """Entries, and who holds which channel."""

    def __init__(self):
        self.entries = {}  # by identifier: universe, channel, channel count
        self.holders = {}  # by universe and channel: identifier

    def patch(self, identifier, universe, channel, count):
        """The number of the refusal, or 0."""
        if not 1 <= count <= 512 or channel + count - 1 > 511:
            return 16
        channels = [(universe, c) for c in range(channel, channel + count)]
        if any(self.holders.get(c, identifier) != identifier for c in channels):
            return 17
        if identifier not in self.entries and len(self.entries) == 256:
            return 18
        self.drop(identifier)
        self.entries[identifier] = universe, channel, count
        self.holders.update(dict.fromkeys(channels, identifier))
        return 0

    def drop(self, identifier):
        universe, channel, count = self.entries.pop(identifier, (0, 0, 0))
        for c in range(channel, channel + count):
            del self.holders[universe, c]

    def feed(self, packet):
        """The number of a packet of a listing; 0 too where it is no patch message."""
        values = dict(reversed(packet))  # a PLoc has a field `kind` too
        if values.get('kind') == 'Ptch':
            return self.patch(*(int(values[name]) for name in NAMES))
        if values.get('kind') == 'UPtc':
            listed = [int(value) for key, value in packet if key == 'fixture_identifiers']
            for identifier in listed or list(self.entries):  # none listed: all
                self.drop(identifier)
        return 0

    def lines(self):
        yield 'entries', len(self.entries)
        for identifier, place in sorted(self.entries.items(), key=lambda entry: entry[1]):
            yield from zip(NAMES, (identifier, *place))
        universes = sorted({universe for universe, _, _ in self.entries.values()})
        yield 'universes', len(universes)
        for universe in universes:
            taken = {channel for other, channel in self.holders if other == universe}
            yield 'universe', universe
            yield 'taken', len(taken)
            yield 'first_free', min(set(range(512)) - taken, default='none')


def packets(text):
    """The packets of a listing and what stands behind them, each as pairs of key and value."""
    found = []
    for line in text.splitlines():
        key, _, value = line.partition('=')
        if key in ('at', 'packets'):
            found.append([])
        found[-1].append((key, value))
    return found


def fed(stream):
    """The book at a stream's end, the lines of the messages that it refused, and those of the stream's end."""
    *reports, end = packets(listing(stream))
    book, refused = Book(), []
    for packet in reports:
        number = book.feed(packet)
        if number:
            values = dict(packet)
            refused += [('at', values['at']), ('kind', values['kind']), ('refusal', number)]
    return book, refused, end


def book_listing(stream):
    """What is listed of a stream; nothing where it is too long."""
    if len(stream) > LONGEST:
        return ''
    book, refused, end = fed(stream)
    return ''.join('%s=%s\n' % line for line in [*refused, *book.lines(), *end])


if __name__ == '__main__':
    sys.stdout.buffer.write(book_listing(sys.stdin.buffer.read()).encode('ascii'))
