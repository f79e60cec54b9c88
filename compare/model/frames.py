"""Frames of the Debug Adapter Protocol: which bodies some bytes bring, what ends them, and how a body is written.

Written from the head of `mpd_frames` alone. A frame is a header and a body. The header is lines, each ended by CR LF, up to an empty
one, 4,096 bytes at most with that. One line is `Content-Length:`, in letters of either case, and a number of 1 to 7 digits with spaces
and tabs around it, 1,048,576 at most: so many bytes the body has. All other lines are passed over.
"""

import re

HEADER_MAX, BODY_MAX = 4_096, 1_048_576

LENGTH = re.compile(rb'content-length:', re.IGNORECASE)
NUMBER = re.compile(rb'[ \t]*([0-9]{1,7})[ \t]*')

# How an input ends: right after a frame, within one, or where there is none.
WHOLE, CUT_OFF, HEADER_TOO_LONG = 'whole', 'cut-off', 'header-too-long'
NO_LENGTH, TWO_LENGTHS, BAD_LENGTH, BODY_TOO_LONG = 'no-length', 'two-lengths', 'bad-length', 'body-too-long'


class Wrong(Exception):
    """A header that gives no length: its word says why."""

    def __init__(self, word):
        super().__init__(word)
        self.word = word


def length_in(line):
    """The length that a line gives; None if it gives none."""
    name = LENGTH.match(line)
    if not name:
        return None
    number = NUMBER.fullmatch(line, name.end())
    if not number:
        raise Wrong(BAD_LENGTH)
    if int(number[1]) > BODY_MAX:
        raise Wrong(BODY_TOO_LONG)
    return int(number[1])


def body_length(lines):
    """The length of the body: the only one that the lines of a header give. The first fault is told."""
    found = None
    for line in lines:
        if found is not None and LENGTH.match(line):
            raise Wrong(TWO_LENGTHS)
        given = length_in(line)
        found = found if given is None else given
    if found is None:
        raise Wrong(NO_LENGTH)
    return found


def header_end(data, start):
    """Where a header that begins there has ended, after its empty line; None if that hasn't come."""
    if data.startswith(b'\r\n', start):
        return start + 2
    end = data.find(b'\r\n\r\n', start)
    return None if end < 0 else end + 4


def frames_of(data):
    """The bodies of the frames with which the bytes begin, and what follows them."""
    bodies, start = [], 0
    while start < len(data):
        end = header_end(data, start)
        if end is None or end - start > HEADER_MAX:
            return bodies, HEADER_TOO_LONG if len(data) - start >= HEADER_MAX else CUT_OFF
        try:
            length = body_length(data[start:end].split(b'\r\n'))
        except Wrong as wrong:
            return bodies, wrong.word
        if len(data) - end < length:
            return bodies, CUT_OFF
        bodies.append(data[end:end + length])
        start = end + length
    return bodies, WHOLE


def frame_of(body):
    """The frame of a body, as it is written."""
    return b'Content-Length: %d\r\n\r\n%b' % (len(body), body)
