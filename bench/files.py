"""Layout files for the benchmark, each made for a size."""
import struct

NONE = 2**32 - 1


def chunk(kind, header, body):
    """A chunk of a layout file; `header` is what its header has after the first eight bytes."""
    return struct.pack("<HHI", kind, 8 + len(header), 8 + len(header) + len(body)) + header + body


def pool(strings):
    """A pool of ASCII strings, each shorter than 128 bytes."""
    stored = [struct.pack("BB", len(text), len(text)) + text + b"\0" for text in strings]
    offsets = []
    at = 0
    for text in stored:
        offsets.append(at)
        at += len(text)
    offsets = struct.pack("<%dI" % len(offsets), *offsets)
    header = struct.pack("<5I", len(strings), 0, 0x100, 28 + len(offsets), 0)
    return chunk(0x0001, header, offsets + b"".join(stored) + b"\0" * (-at % 4))


def equal_strings(count, length):
    """A pool in UTF-16 of `count` strings, which share one text: three bytes in UTF-8 a unit."""
    offsets = b"\0" * (4 * count)
    units = "\u4e00".encode("utf-16-le") * length
    text = struct.pack("<2H", 0x8000 + (length >> 16), length & 0xffff) + units + b"\0\0"
    header = struct.pack("<5I", count, 0, 0, 28 + len(offsets), 0)
    return chunk(0x0001, header, offsets + text + b"\0" * (-len(text) % 4))


def attribute(space, name, kind, word):
    return struct.pack("<3IHBBI", space, name, NONE, 8, 0, kind, word)


def begin_with(attributes, name=0):
    """An element that begins, with these attributes."""
    body = struct.pack("<2I6H", NONE, name, 20, 20, len(attributes), 0, 0, 0)
    return chunk(0x0102, struct.pack("<2I", 1, NONE), body + b"".join(attributes))


def begin(attributes, name=0):
    """An element that begins, with as many attributes, named by string 0."""
    return begin_with([attribute(NONE, 0, 0x10, 1)] * attributes, name)


def end(name=0):
    """An element that ends."""
    return chunk(0x0103, struct.pack("<2I", 1, NONE), struct.pack("<2I", NONE, name))


def layout_file(kib, strings, inner, first=begin(0)):
    """A layout file of `kib` KiB: a pool, and one element around `inner`, with an unknown chunk that fills it up."""
    parts = strings + first + inner
    rest = kib * 1024 - 16 - len(parts) - len(end())
    return chunk(0x0003, b"", parts + chunk(0x0200, b"", b"\0" * rest) + end())


def many_strings(kib):
    return layout_file(kib, pool([b"string number %06d" % k for k in range(37 * kib)]), b"")


def many_chunks(kib):
    return layout_file(kib, pool([b"View"]), chunk(0x0200, b"", b"") * (127 * kib))


def many_elements(kib):
    return layout_file(kib, pool([b"View"]), (begin(9) + end()) * (127 * kib // 32))


def nested_elements(kib):
    return layout_file(kib, pool([b"View"]), begin(9) * (127 * kib // 32) + end() * (127 * kib // 32))


def equal_names(kib, count, length):
    """Nested elements named by one text of this many units, each end with another string number than its start."""
    pairs = [(k % count, (k + 1 + k // count % (count - 1)) % count) for k in range(4 * kib - 1)]
    begins = b"".join(begin(0, first) for first, _ in pairs)
    ends = b"".join(end(last) for _, last in reversed(pairs))
    return layout_file(kib, equal_strings(count, length), begins + ends)


def two_equal_names(kib):
    return equal_names(kib, 2, 384 * kib)


def many_equal_names(kib):
    return equal_names(kib, 12, 112 * kib)


# what views_file names: two classes, the namespace, and attributes whose value may be a length
LENGTHS = [b"layout_width", b"layout_height", b"minWidth", b"minHeight"]
LENGTHS += [b"padding" + side for side in (b"Left", b"Top", b"Right", b"Bottom")]
LENGTHS += [b"layout_margin" + side for side in (b"Left", b"Top", b"Right", b"Bottom")]
VIEW_NAMES = [b"FrameLayout", b"View", b"http://schemas.android.com/apk/res/android"] + LENGTHS


def lengths(count, kind, words):
    """The first attributes whose value may be a length."""
    return [attribute(2, 3 + k, kind, word) for k, word in zip(range(count), words)]


# what tied_views_file names: two classes, the namespace, and the attributes of its views
TIED_NAMES = [b"RelativeLayout", b"View", b"http://schemas.android.com/apk/res/android"]
TIED_NAMES += [b"layout_width", b"layout_height", b"id", b"layout_toRightOf"]


def tied_views_file(kib, views, is_chain):
    """A layout file of `kib` KiB: a relative layout of views with the ids 1, 2, .., each right of the one before in a
    chain."""
    inner = []
    for number in range(1, views + 1):
        size = lengths(2, 0x05, [0x100 * (1 + number % 3), 0x100 * (1 + number % 9)])
        tie = [attribute(2, 5, 0x01, number), attribute(2, 6, 0x01, number - 1 if is_chain else 0)]
        inner.append(begin_with(size + tie, 1) + end(1))
    first = begin_with(lengths(2, 0x10, [NONE, NONE]))
    return layout_file(kib, pool(TIED_NAMES), b"".join(inner), first)


def views_file(kib, views, words_of, kind=0x05):
    """A layout file of `kib` KiB: a frame layout, and in it views with as many attributes as there are words."""
    inner = []
    for number in range(views - 1):
        words = words_of(number)
        inner.append(begin_with(lengths(len(words), kind, words), 1) + end(1))
    first = begin_with(lengths(2, 0x10, [NONE, NONE]))
    return layout_file(kib, pool(VIEW_NAMES), b"".join(inner), first)


def entries_type(number, count, kind):
    """A type of this number with `count` entries, each a value of a kind whose word is the entry's number."""
    header = struct.pack("<BBHII", number, 0, 0, count, 76 - 20 + 4 * count) + struct.pack("<I", 36) + bytes(32)
    offsets = struct.pack("<%dI" % count, *range(0, 16 * count, 16))
    entries = b"".join(struct.pack("<HHIHBBI", 8, 0, k, 8, 0, kind, k) for k in range(count))
    return chunk(0x0201, header, offsets + entries)


def resource_table(strings, types):
    """A resource table of a pool, if there is one, and one package with these types."""
    package = chunk(0x0200, struct.pack("<I", 0x7f) + bytes(272), b"".join(types))
    return chunk(0x0002, struct.pack("<I", 1), strings + package)


def falling_table(thousands):
    """A resource table of `thousands` times 1024 numbers, whose types come by falling numbers."""
    numbers = range(thousands // 32, 0, -1)
    return resource_table(b"", [entries_type(number, 32 * 1024, 0x10) for number in numbers])


def string_table(thousands):
    """A resource table of `thousands` times 1024 strings."""
    count = 1024 * thousands
    strings = pool([b"string number %06d" % k for k in range(count)])
    return resource_table(strings, [entries_type(1, count, 0x03)])
