"""The cells of an image in pages (docs/FORMAT.md, "Pages" and "Twin pages"), as an image of packed cells, and the other way round.

A page has three cells behind a header: a magic, its number, and XXH64 of what stands from the sum's place on, with the number as
seed. A file in pages has each of them once, one in twin pages twice, side by side, with a version under the sum: the higher one is
the page. What lies past the end of the file is zeros, and a page of zeros has three cells of zeros."""
import struct

PAGE, AREA, CELLS = 4096, 928, 3168
MAGIC, TWIN_MAGIC, PACKED_MAGIC = b"NoFSpage", b"NoFStwin", b"NoFSv001"
TWIN_SUM = 896                      # where the bytes under a twin's sum begin, with its version
PRIMES = 0x9E3779B185EBCA87, 0xC2B2AE3D27D4EB4F, 0x165667B19E3779F9, 0x85EBCA77C2B2AE63
ALL = 2**64 - 1
BLANK, BLANK_CELLS = bytes(PAGE), bytes(CELLS)


def turned(word, by):
    return (word << by | word >> 64 - by) & ALL


def taken(lane, word):
    return turned(lane + word * PRIMES[1] & ALL, 31) * PRIMES[0] & ALL


def sum_of(data, seed):
    """XXH64 of bytes whose number is a multiple of 32, at least 32."""
    first, second, third, fourth = PRIMES
    one, two, three, four = seed + first + second & ALL, seed + second & ALL, seed, seed - first & ALL
    words = struct.unpack(f"<{len(data) // 8}Q", data)
    for at in range(0, len(words), 4):
        one, two = taken(one, words[at]), taken(two, words[at + 1])
        three, four = taken(three, words[at + 2]), taken(four, words[at + 3])
    mixed = turned(one, 1) + turned(two, 7) + turned(three, 12) + turned(four, 18) & ALL
    for lane in one, two, three, four:
        mixed = (mixed ^ taken(0, lane)) * first + fourth & ALL
    mixed = mixed + len(data) & ALL
    mixed = (mixed ^ mixed >> 33) * second & ALL
    mixed = (mixed ^ mixed >> 29) * third & ALL
    return mixed ^ mixed >> 32


def page_of(number, area):
    """The page with this number and these 3,168 bytes of cells."""
    return MAGIC + struct.pack("<QQ", number, sum_of(area, number)).ljust(AREA - len(MAGIC), b"\0") + area


def twin_of(number, version, area):
    """One of the two places of a page, with this version."""
    under = struct.pack("<Q", version).ljust(AREA - TWIN_SUM, b"\0") + area
    return TWIN_MAGIC + struct.pack("<QQ", number, sum_of(under, number)).ljust(TWIN_SUM - len(TWIN_MAGIC), b"\0") + under


def is_made(magic, under, page, number):
    """Whether a page has the magic, its number and the sum of what stands from a place on."""
    own_magic, own, total = struct.unpack("<8sQQ", page[:24])
    return own_magic == magic and own == number and total == sum_of(page[under:], number)


def is_page(page, number):
    return is_made(MAGIC, AREA, page, number)


def is_paged(data):
    return bytes(data[:8]) == MAGIC


def is_twin(data):
    """Whether these are twin pages: the first place of page 0 may be blank or torn, then its second one tells."""
    first = bytes(data[:8])
    return first == TWIN_MAGIC or (first not in (MAGIC, PACKED_MAGIC) and bytes(data[PAGE:PAGE + 8]) == TWIN_MAGIC)


def area_of(page, number):
    """The bytes of the cells of a page; None where it is neither itself nor zeros."""
    if is_page(page, number):
        return page[AREA:]
    return BLANK_CELLS if page == BLANK else None


def version_of(page, number, place):
    """The version of a place of a twin page; None where it can't be told."""
    version = struct.unpack("<Q", page[TWIN_SUM:TWIN_SUM + 8])[0]
    return version if version % 2 == place and is_made(TWIN_MAGIC, TWIN_SUM, page, number) else None


def twin_area_of(both, number):
    """The bytes of the cells of a page of two places: of the one that is told with the higher version; None where none is, and none is
    zeros."""
    places = both[:PAGE], both[PAGE:]
    told = [(version, page) for place, page in enumerate(places) if (version := version_of(page, number, place)) is not None]
    if told:
        return max(told)[1][AREA:]
    return BLANK_CELLS if BLANK in places else None


def cells_of(data):
    """The bytes of the cells of an image, and the numbers of the pages that can't be told. The cells of those are zeros."""
    if is_paged(data):
        size, area = PAGE, area_of
    elif is_twin(data):
        size, area = 2 * PAGE, twin_area_of
    else:
        return data, []
    cells, bad = bytearray(), []
    for number in range(-(-len(data) // size)):
        found = area(bytes(data[number * size:(number + 1) * size]).ljust(size, b"\0"), number)
        if found is None:
            bad.append(number)
        cells += found or BLANK_CELLS
    return bytes(cells), bad


def areas(cells):
    """The bytes of the cells of each page, with its number."""
    return ((number, bytes(cells[at:at + CELLS]).ljust(CELLS, b"\0")) for number, at in enumerate(range(0, len(cells), CELLS)))


def paged(cells):
    """The file in pages of packed cells."""
    return b"".join(page_of(number, area) if any(area) or not number else BLANK for number, area in areas(cells))


def twin(cells, version=2):
    """The file in twin pages of packed cells; the other place of each page has the version before, with cells of zeros."""
    made = []
    for number, area in areas(cells):
        both = [twin_of(number, version, area), twin_of(number, version - 1, BLANK_CELLS)]
        made += both if version % 2 == 0 else reversed(both)
    return b"".join(made)
