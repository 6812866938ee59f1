"""Requests and replies of `FOLDER pipe` as Python values: frames of MessagePack, as docs/FORMATS.md has them."""
import struct


def packed(item):
    """The shortest MessagePack of an integer, a text or a list of these."""
    if isinstance(item, int):
        if 0 <= item < 128:
            return bytes([item])
        if -32 <= item < 0:
            return struct.pack('b', item)
        for mark, form in ((0xcc, '>B'), (0xcd, '>H'), (0xce, '>I'), (0xcf, '>Q')) if item >= 0 else ((0xd0, '>b'), (0xd1, '>h'), (0xd2, '>i'), (0xd3, '>q')):
            try:
                return bytes([mark]) + struct.pack(form, item)
            except struct.error:
                continue
    if isinstance(item, str):
        text = item.encode()
        size = len(text)
        head = bytes([0xa0 | size]) if size < 32 else b'\xd9' + struct.pack('>B', size) if size < 256 else b'\xda' + struct.pack('>H', size) if size < 65536 else b'\xdb' + struct.pack('>I', size)
        return head + text
    return bytes([0x90 | len(item)]) + b''.join(packed(part) for part in item)


def unpacked(data, at=0):
    """The item that begins at a place, and the place behind it."""
    mark, at = data[at], at + 1
    if mark < 0x80:
        return mark, at
    if mark == 0xc0:
        return None, at
    if mark >= 0xe0:
        return mark - 256, at
    for first, form in ((0xcc, '>B'), (0xcd, '>H'), (0xce, '>I'), (0xcf, '>Q'), (0xd0, '>b'), (0xd1, '>h'), (0xd2, '>i'), (0xd3, '>q')):
        if mark == first:
            return struct.unpack_from(form, data, at)[0], at + struct.calcsize(form)
    if 0xa0 <= mark < 0xc0 or mark in (0xd9, 0xda, 0xdb):
        size = mark & 0x1f
        if mark >= 0xd9:
            form = {0xd9: '>B', 0xda: '>H', 0xdb: '>I'}[mark]
            size, at = struct.unpack_from(form, data, at)[0], at + struct.calcsize(form)
        return data[at:at + size].decode(), at + size
    count = mark & 0x0f
    if mark in (0xdc, 0xdd):
        form = {0xdc: '>H', 0xdd: '>I'}[mark]
        count, at = struct.unpack_from(form, data, at)[0], at + struct.calcsize(form)
    items = []
    for _ in range(count):
        item, at = unpacked(data, at)
        items.append(item)
    return items, at


def framed(payload):
    return struct.pack('>I', len(payload)) + payload


def frame(call):
    return framed(packed(call))


def read_frame(stream):
    """The payload of the next frame."""
    return stream.read(struct.unpack('>I', stream.read(4))[0])


def start(command, cwd='/', session='s1', hostname='h:u'):
    return frame([1, command, cwd, session, hostname])


def end(identity, duration, status):
    return frame([2, identity, duration, status])


def search(offset=0, limit=10, mode=0, past=''):
    """A search for all: a text beside the filter is read past, and the mode makes no difference."""
    return frame([4, mode, 0, past, '', 0, offset, limit])
