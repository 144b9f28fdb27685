#!/usr/bin/env python3
"""reference.py UNIVERSE < STREAM: the levels of a universe's channels after a stream, written from the request for them and not from the
program.

The packets and their fields are those of the second lister; the stored output of the program is this one's (`streams.py write`).
"""
import pathlib
import sys

sys.dont_write_bytecode = True
sys.path.insert(0, str(pathlib.Path(__file__).resolve().parent.parent))
from book.reference import LONGEST, packets
from listing.reference import listing
from unsupported.reference import kind

RECORD = ('universe_index', 'channel', 'channel_level')


def numbers(packet, *keys):
    return [int(value) for key, value in packet if key in keys]


def settings(packet, universe):
    """The channels of a universe that a packet of a listing names, each with its level, in order."""
    if kind(packet) == 'ChBk':
        (blind, to, first), levels = numbers(packet, 'blind', 'universe_index', 'first_channel'), numbers(packet, 'channel_levels')
        return [(first + i, level) for i, level in enumerate(levels) if blind == 0 and to == universe]
    if kind(packet) == 'ChLs':
        fields = iter(numbers(packet, *RECORD))
        return [(channel, level) for to, channel, level in zip(fields, fields, fields) if to == universe]
    return []


def set_levels(reports, universe):
    """The levels after the packets of a listing, and the lines of the messages that were refused."""
    levels, refused = [0] * 512, []
    for packet in reports:
        named = settings(packet, universe)
        if any(channel > 511 for channel, _ in named):
            refused += [('at', dict(packet)['at']), ('kind', kind(packet)), ('refusal', 20)]
            continue
        for channel, level in named:
            levels[channel] = level
    return levels, refused


def levels_listing(stream, universe):
    """What is listed of a stream; nothing where it is too long."""
    if len(stream) > LONGEST:
        return ''
    *reports, end = packets(listing(stream))
    levels, refused = set_levels(reports, universe)
    lines = [*refused, ('levels.count', len(levels)), *(('levels', level) for level in levels), *end]
    return ''.join('%s=%s\n' % line for line in lines)


if __name__ == '__main__':
    sys.stdout.write(levels_listing(sys.stdin.buffer.read(), int(sys.argv[1])))
