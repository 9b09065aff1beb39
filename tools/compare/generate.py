"""Makes driver scripts. A script is a list of lines; each family is a function that yields scripts.

Nothing is left out: calls without a writer are among them. All randomness comes from the seed.
"""

import itertools
import random

FOOTER = 12
PATTERNS = ["00", "ff", "-", "01", "fe", "55", "aa", "a5", "3c", "0f5a", "c3d2e1", "fdff7f"]

# --- The two checks, for building images of blobs -------------------------------------------------------------------

TABLE = []
for _i in range(256):
    _c = _i
    for _ in range(8):
        _c = (_c >> 1) ^ 0x82F63B78 if _c & 1 else _c >> 1
    TABLE.append(_c)


def crc32c(data):
    crc = 0xFFFFFFFF
    for byte in data:
        crc = (crc >> 8) ^ TABLE[(crc ^ byte) & 255]
    return crc ^ 0xFFFFFFFF


def older_sum(data):
    return sum((k + 1) * (byte + 1) for k, byte in enumerate(data)) & 0xFFFFFFFF


CHECKS = {"crc": crc32c, "sum": older_sum}


def slot(length, number):
    return length.to_bytes(2, "big") + number.to_bytes(4, "big")


NO_SLOT = bytes(6)


# --- A builder of scripts ---------------------------------------------------------------------------------------------


def hexed(data):
    return data.hex() if data else "-"


class Script:
    """Lines of a script, with a rough count of the writer's sizes, so that sizes can be chosen around the boundaries."""

    def __init__(self, check="crc"):
        self.lines = [f"check {check}"]
        self.byte = 0
        self.page = 1
        self.capacity = 2
        self.tip = 0
        self.size = 0
        self.written = 0

    def add(self, *lines):
        self.lines.extend(lines)
        return self

    def through(self, ceiling):
        return self.add(f"blob through {ceiling}")

    def later(self, ceiling, cut, pattern):
        return self.add(f"blob later {ceiling} {cut} {pattern}")

    def blob(self, kind, ceiling):
        """`kind` is `through`, or a pair of cut and pattern."""
        if kind == "through":
            return self.through(ceiling)
        return self.later(ceiling, *kind)

    def bytes(self, image):
        return self.add(f"bytes {hexed(image)}")

    def open(self, page, wish, told="="):
        self.page = max(page, 1)
        self.capacity = max(-(-wish // self.page) * self.page, 2 * self.page)
        self.tip = self.size % self.page
        return self.add(f"open {page} {wish} {told}")

    def fill(self):
        return -self.tip % self.page

    def append(self, n):
        data = bytes((self.byte + k) * 7 % 251 + 1 for k in range(n))
        self.byte += n
        return self.append_bytes(data)

    def append_bytes(self, data):
        n = len(data)
        self.size += n
        if self.tip + n > self.capacity:
            pages = (self.tip + n) // self.page
            self.written += pages * (self.page + FOOTER)
            self.tip = (self.tip + n) % self.page
        else:
            self.tip += n
        return self.add(f"append {hexed(data)}")

    def sync(self):
        self.written += -(-self.tip // self.page) * (self.page + FOOTER)
        self.tip %= self.page
        return self.add("sync")

    def truncate(self, n):
        self.written += -(-self.tip // self.page) * (self.page + FOOTER) + 14
        self.size = min(self.size, n)
        self.tip = self.size % self.page
        return self.add(f"truncate {n}")

    def handover(self):
        return self.add("handover")

    def restart(self):
        return self.add("restart")

    def pages(self, page, count):
        return self.add(*(f"page {page} {k}" for k in range(count)))


def ending(script, page, wish, pages):
    """Looks at everything, and goes on after a restart."""
    script.pages(page, pages)
    script.restart()
    script.pages(page, pages)
    script.open(page, wish)
    script.append(page)
    script.sync()
    script.pages(page, pages)
    return script.lines


# --- Families -----------------------------------------------------------------------------------------------------------


def play(script, letter, page, wish):
    """One letter of the exhaustive families."""
    word, n = letter
    if word == "append":
        script.append(n)
    elif word == "sync":
        script.sync()
    elif word == "truncate":
        script.truncate(n)
    elif word == "handover":
        script.handover()
    elif word == "open":
        script.open(page, wish)
    elif word == "again":
        script.restart()
        script.open(page, wish)


def letters(page):
    return (
        [("append", n) for n in sorted({1, page, 2 * page + 1})]
        + [("sync", 0), ("handover", 0), ("open", 0), ("again", 0)]
        + [("truncate", n) for n in sorted({1, page, page + 1})]
    )


def short(_seed, count):
    """All rows of up to four calls (three in a small run), page sizes 1 to 4, both kinds of blob, both checks."""
    longest = 4 if count >= 500 else 3
    kinds = ["through", ("-", "00"), ("-", "ff"), ("-", "a5")]
    for page in (1, 2, 3, 4):
        alphabet = letters(page)
        for number, kind in enumerate(kinds):
            for length in range(longest + 1):
                for row in itertools.product(alphabet, repeat=length):
                    check = "sum" if (number + length + page) % 2 else "crc"
                    script = Script(check).blob(kind, 400).open(page, 2 * page)
                    for letter in row:
                        play(script, letter, page, 2 * page)
                    script.pages(page, 2)
                    if kind != "through":
                        script.restart()
                        script.open(page, 2 * page)
                    script.append(1)
                    script.sync()
                    yield script.lines


def rows(_seed, count):
    """All rows of six calls (five in a small run) over seven letters, at page size 2."""
    page = 2
    length = 6 if count >= 500 else 5
    alphabet = [("append", 1), ("append", 2), ("append", 5), ("sync", 0), ("truncate", 1), ("truncate", 3), ("again", 0)]
    for number, row in enumerate(itertools.product(alphabet, repeat=length)):
        kind = "through" if number % 4 == 0 else ("-", PATTERNS[number % len(PATTERNS)])
        script = Script("sum" if number % 2 else "crc").blob(kind, 400).open(page, 4)
        for letter in row:
            play(script, letter, page, 4)
        script.sync()
        script.pages(page, 4)
        yield script.lines


def sizes(_seed, _count):
    """All tip lengths and append lengths around fill, capacity and page size; the tip on the blob or not."""
    for page in (1, 2, 3, 4):
        for wish in (0, 2 * page + 1):
            capacity = max(-(-wish // page) * page, 2 * page)
            for tip in range(capacity + 1):
                for n in range(capacity + 2 * page + 2):
                    for synced in sorted({0, 1, min(tip, page - 1), tip}):
                        if synced > tip:
                            continue
                        check = "sum" if (tip + n) % 2 else "crc"
                        script = Script(check).through(500).open(page, wish)
                        script.append(synced)
                        script.sync()
                        script.append(tip - synced)
                        script.append(n)
                        script.append(1)
                        script.sync()
                        script.pages(page, 3)
                        yield script.lines


def truncations(_seed, _count):
    """All log sizes up to three pages, all cuts of them, behind several histories of the last page."""
    for page in (1, 2, 3, 4):
        for size in range(3 * page + 2):
            for n in range(size + 2):
                for history in range(5):
                    for kind in ("through", ("-", "00"), ("-", "5b")):
                        script = Script("sum" if (size + n + history) % 2 else "crc").blob(kind, 500)
                        script.open(page, 2 * page)
                        if history == 0:
                            script.append(size)
                        elif history == 1:
                            script.append(size).sync()
                        elif history == 2:
                            for _ in range(size):
                                script.append(1).sync()
                        elif history == 3:
                            script.append(max(size - 1, 0)).sync().append(min(size, 1))
                        else:
                            script.append(size).sync().open(page, 0)
                        script.truncate(n)
                        script.pages(page, 4)
                        if (size + n) % 3 == 0:
                            script.restart().open(page, page)
                        script.append(1 + n % 2)
                        if n % 2:
                            script.sync()
                        script.truncate(max(n - 1, 0))
                        script.append(page)
                        script.sync()
                        script.pages(page, 4)
                        yield script.lines


def ceilings(_seed, _count):
    """All ceilings up to four pages and a bit, with rows of appends that reach them by flush, direct append and sync."""
    rows_of_sizes = [[1] * 9, [2, 3, 4, 5], [3, 9], [12], [5, 1, 6], [8, 1], [4, 4, 4], [1, 11, 1]]
    for page in (1, 2, 3, 4):
        whole = page + FOOTER
        for ceiling in range(4 * whole + 2):
            for number, row in enumerate(rows_of_sizes):
                kind = "through" if (ceiling + number) % 2 else ("-", "ff")
                script = Script("sum" if ceiling % 3 else "crc").blob(kind, ceiling).open(page, 2 * page)
                for k, n in enumerate(row):
                    script.append(n)
                    if (k + number) % 3 == 0:
                        script.sync()
                script.sync()
                script.open(page, 2 * page)
                script.append(1)
                script.sync()
                script.truncate(1)
                script.append(2 * page + 1)
                script.pages(page, 5)
                yield script.lines


def inputs(seed, count):
    """Numbers at the ends of their ranges: page size, wish, size told, page number; with a writer and without."""
    rng = random.Random(f"{seed}-inputs")
    top = 18446744073709551615
    for _ in range(max(200, count)):
        page = rng.choice([1, 2, 4, 7, 65535])
        script = Script(rng.choice(["crc", "sum"]))
        kind = rng.choice(["through", ("-", "a5"), (rng.randrange(80), rng.choice(PATTERNS))])
        script.blob(kind, rng.choice([0, 1, 13, 16, 200, 200000]))
        for _ in range(rng.randrange(2, 14)):
            call = rng.randrange(10)
            if call < 4:
                told = rng.choice(["=", "=", "=", 0, 1, page + 12, top, rng.randrange(100)])
                wish = rng.choice([0, 1, page, 1048575, 1048576, 1048577, 1099511627776, top, 8])
                script.open(rng.choice([0, page, page, page]), wish, told)
            elif call < 7:
                size = rng.choice([0, page, page, page, 65535])
                whole = size + FOOTER
                at = rng.choice([0, 1, 2, top, top // whole, top // whole + 1, top // whole - 1, (top - whole) // whole])
                script.add(f"page {size} {at}")
            elif call == 7:
                script.append(rng.choice([0, 1, page % 300, 5]))
            elif call == 8:
                script.sync()
            else:
                script.add(rng.choice(["restart", "handover", f"truncate {top}", "truncate 0", "truncate 1"]))
        yield script.lines


def some_kind(rng, cuts):
    pick = rng.randrange(4)
    if pick == 0:
        return "through"
    pattern = rng.choice(PATTERNS) if rng.randrange(3) else rng.randbytes(rng.randrange(1, 9)).hex()
    return (rng.randrange(cuts) if pick == 3 else "-", pattern)


def boundary_append(rng, script):
    page, capacity, tip, fill = script.page, script.capacity, script.tip, script.fill()
    n = rng.choice(
        [
            0,
            1,
            fill - 1,
            fill,
            fill + 1,
            fill + page - 1,
            fill + page,
            fill + page + 1,
            capacity - tip - 1,
            capacity - tip,
            capacity - tip + 1,
            capacity - tip + page - 1,
            capacity - tip + page,
            page - 1,
            page,
            page + 1,
            2 * page,
            capacity + page,
            rng.randrange(4 * page + 2),
            rng.randrange(page + 1),
        ]
    )
    script.append(max(n, 0))


def boundary_truncate(rng, script):
    page, size = script.page, script.size
    k = rng.randrange(size // page + 2)
    script.truncate(max(0, rng.choice([k * page - 1, k * page, k * page + 1, size - 1, size, size + 1, size // 2, 0])))


def random_call(rng, script, page, wish):
    call = rng.randrange(100)
    if call < 45:
        boundary_append(rng, script)
    elif call < 65:
        script.sync()
    elif call < 77:
        boundary_truncate(rng, script)
    elif call < 80:
        script.handover()
    elif call < 86:
        script.add(f"page {page} {rng.randrange(6)}")
    elif call < 91:
        script.open(page, wish)
    elif call < 97:
        script.restart()
        script.open(page, wish)
    elif call < 98:
        script.restart()
    elif call < 99:
        script.add(f"check {rng.choice(['crc', 'sum'])}")
    else:
        other = rng.choice([1, 2, 3, min(page + 1, 65535)])
        script.open(other, wish)


def edges(seed, count):
    """Random calls with sizes at and beside every boundary; ceilings at and beside whole pages; some cuts."""
    rng = random.Random(f"{seed}-edges")
    for _ in range(10 * count):
        page = rng.choice([1, 1, 2, 2, 3, 4, 4, 5, 7, 8, 16, 64])
        wish = max(0, rng.choice([0, 1, page - 1, page, page + 1, 2 * page - 1, 2 * page, 2 * page + 1, 3 * page, 5 * page + 1]))
        ceiling = max(0, rng.choice([2000, 2000, rng.randrange(8) * (page + FOOTER) + rng.randrange(-1, 2)]))
        script = Script(rng.choice(["crc", "sum"])).blob(some_kind(rng, 8 * (page + FOOTER)), ceiling)
        script.open(page, wish)
        for _ in range(rng.randrange(4, 30)):
            random_call(rng, script, page, wish)
        yield ending(script, page, wish, 4)


# Images of blobs.


def some_slots(rng, check, data, length):
    """Two slots, the one of `length` valid, the other one of many kinds."""
    number = CHECKS[check]
    page = len(data)
    good = slot(length, number(data[:length]))
    less = rng.randrange(length) if length else 0
    other = rng.choice(
        [
            NO_SLOT,
            NO_SLOT,
            slot(less, number(data[:less])),
            slot(less, number(data[:less])),
            good,
            slot(length, number(data[:length]) ^ (1 << rng.randrange(32))),
            slot(min(length + 1, 65535), rng.randrange(1 << 32)),
            slot(page, rng.randrange(1 << 32)),
            slot(0, number(data[:length])),
            slot(rng.choice([page + 1, 65535, 256]) % 65536, rng.randrange(1 << 32)),
        ]
    )
    return good + other if rng.randrange(2) else other + good


def some_page(rng, check, page, partial):
    length = rng.randrange(1, page + 1) if partial else page
    kept = bytes(rng.randrange(256) for _ in range(length))
    padding = bytes(page - length) if rng.randrange(3) else rng.randbytes(page - length)
    data = kept + padding
    return data + some_slots(rng, check, data, length)


def some_image(rng, check, page, pages):
    image = b""
    for k in range(pages):
        last = k == pages - 1
        pick = rng.randrange(12)
        if pick == 0:
            image += bytes(page + FOOTER)
        elif pick == 1:
            image += rng.randbytes(page + FOOTER)
        else:
            image += some_page(rng, check, page, last or pick == 2)
    return bytearray(image)


def damage(rng, image, page):
    """Changes an image in one of several ways."""
    whole = page + FOOTER
    if not image:
        return image
    pick = rng.randrange(9)
    if pick in (0, 1):
        image[rng.randrange(len(image))] ^= 1 << rng.randrange(8)
    elif pick == 2:
        for _ in range(rng.randrange(2, 6)):
            image[rng.randrange(len(image))] = rng.choice([0, 255, rng.randrange(256)])
    elif pick == 3:
        del image[rng.randrange(len(image) + 1):]
    elif pick == 4:
        image += bytes(rng.choice([1, 11, 12, whole - 1, whole, whole + 1, 2 * whole]))
    elif pick == 5:
        at = rng.randrange(len(image) // whole) * whole + page if len(image) >= whole else None
        if at is not None:
            image[at:at + 12] = image[at + 6:at + 12] + image[at:at + 6]
    elif pick == 6:
        at = rng.randrange(len(image) // whole) * whole + page if len(image) >= whole else None
        if at is not None:
            target = at + rng.choice([0, 6])
            image[target:target + 2] = rng.choice([0, 1, page, page + 1, 65535, 256]).to_bytes(3, "big")[1:]
    elif pick == 7 and len(image) >= 2 * whole:
        image[:whole], image[whole:2 * whole] = image[whole:2 * whole], image[:whole]
    return image


def damaged(seed, count):
    """Random images with gaps, two slots, equal lengths, spoilt bytes and incomplete ends, then calls on them."""
    rng = random.Random(f"{seed}-damaged")
    for _ in range(8 * count):
        page = rng.choice([1, 1, 2, 2, 3, 4, 4, 8, 16, 255, 256])
        pages = rng.randrange(1, 5)
        check = rng.choice(["crc", "sum"])
        image = some_image(rng, check, page, pages)
        for _ in range(rng.randrange(3)):
            image = damage(rng, image, page)
        script = Script(check).blob(some_kind(rng, 6 * (page + FOOTER)), len(image) + rng.randrange(4 * page + 60))
        script.bytes(bytes(image))
        script.size = len(image) // (page + FOOTER) * page
        script.pages(page, pages + 2)
        script.open(page, rng.choice([0, page, 3 * page]))
        for _ in range(rng.randrange(1, 7)):
            random_call(rng, script, page, 0)
        yield ending(script, page, 0, pages + 1)


def alterations(_seed, count):
    """Fixed images, each byte altered in several ways, each length; every page is read, opened and cut at every place."""
    for check in ("crc", "sum"):
        number = CHECKS[check]
        for page in (1, 2, 4):
            full = bytes(range(1, page + 1))
            first = full + slot(page, number(full)) + NO_SLOT
            if page > 1:
                short_one = slot(page - 1, number(full[:page - 1]))
                second = full + short_one + slot(page, number(full))
                third = full[:page - 1] + b"\0" + NO_SLOT + short_one
                equal = full[:page - 1] + b"\0" + short_one + short_one
            else:
                second, third, equal = first, first, full + 2 * slot(1, number(full))
            for image in (first + second, first + third, second + equal, third + first):
                places = range(len(image)) if count >= 500 else range(0, len(image), 3)
                for place in places:
                    for change in (1, 128, "zero", "full"):
                        altered = bytearray(image)
                        if change == "zero":
                            altered[place] = 0
                        elif change == "full":
                            altered[place] = 255
                        else:
                            altered[place] ^= change
                        script = Script(check).through(300).bytes(bytes(altered)).pages(page, 3)
                        script.open(page, 0)
                        script.truncate(place % (2 * page + 1))
                        script.pages(page, 3)
                        script.append(page)
                        script.sync()
                        script.pages(page, 3)
                        yield script.lines
                for length in range(len(image) + 1):
                    pattern = PATTERNS[length % 4]
                    script = Script(check).later(300, "-", pattern).bytes(image[:length]).pages(page, 3)
                    script.open(page, 0)
                    script.append(length % 3)
                    script.restart()
                    script.open(page, 0)
                    script.sync()
                    script.pages(page, 3)
                    yield script.lines


def slot_menu(data, number, first):
    """Slots to try: absent, of each length, right and wrong, and too long by their right check. `first` is the First slot
    where these are for Second."""
    page = len(data)
    menu = [NO_SLOT, slot(0, number(b"")), slot(0, number(data)), slot(65535, 7)]
    for length in range(1, page + 1):
        menu.append(slot(length, number(data[:length])))
        menu.append(slot(length, number(data[:length]) ^ 256))
    for length in (page + 1, page + 2):
        menu.append(slot(length, number((data + (first or length.to_bytes(2, "big")))[:length])))
    return menu


def slots(_seed, _count):
    """All pairs of slots from a menu, page sizes 1 to 4: read, opened, gone on with, and cut."""
    for page in (1, 2, 3, 4):
        for check in ("crc", "sum"):
            number = CHECKS[check]
            data = bytes(range(3, 3 + page))
            full = data + slot(page, number(data)) + NO_SLOT
            for first in slot_menu(data, number, None):
                for k, second in enumerate(slot_menu(data, number, first)):
                    image = data + first + second
                    kind = "through" if k % 2 else ("-", "ff")
                    script = Script(check).blob(kind, 200).bytes(image).pages(page, 2)
                    script.open(page, 0)
                    script.append(1)
                    script.sync()
                    script.pages(page, 2)
                    script.restart()
                    script.add("blob through 200").bytes(image + full).open(page, 0)
                    script.truncate(1 + k % page)
                    script.pages(page, 2)
                    script.append(1)
                    script.sync()
                    script.pages(page, 2)
                    yield script.lines


def gaps(_seed, _count):
    """Blobs whose inner pages are Partial or Rejected: each is cut at each place, at each page size up to 4."""
    for page in (1, 2, 3, 4):
        for check in ("crc", "sum"):
            number = CHECKS[check]
            kinds = []
            for length in range(page + 1):
                data = bytes(range(10, 10 + page))
                good = slot(length, number(data[:length])) if length else NO_SLOT
                kinds.append(data + good + NO_SLOT)
                if 0 < length < page:
                    kinds.append(data + NO_SLOT + good)
            full = kinds[-1]
            for inner in kinds:
                for last in kinds:
                    for n in range(3 * page + 1):
                        script = Script(check).through(300).bytes(inner + full + last)
                        script.open(page, 0)
                        script.append(n % 2)
                        script.truncate(n)
                        script.pages(page, 4)
                        script.append(page + 1)
                        script.sync()
                        script.pages(page, 4)
                        yield script.lines


# Power cuts.

CUT_ROWS = [
    (2, "a1 s a1 s"),
    (4, "a3 s a1 s"),
    (4, "a3 s t2 a1 s"),
    (4, "a2 s a1 s a1 s a3 s"),
    (2, "a1 s a4 s a3"),
    (3, "a7 s t4 s t1"),
    (4, "a9 t5 a2 s t3"),
    (1, "a3 s t2 a5 s t0 a1 s"),
    (4, "a3 s h a6 a9 s"),
    (3, "a2 s a2 s a2 s t5 t4 t2"),
    (4, "a6 s o t5 a8 a2 s"),
    (2, "a1 s t0 a1 s a1 t1"),
]


def play_row(script, page, row):
    for word in row.split():
        n = int(word[1:] or 0)
        if word[0] == "a":
            script.append(n)
        elif word[0] == "s":
            script.sync()
        elif word[0] == "t":
            script.truncate(n)
        elif word[0] == "h":
            script.handover()
        else:
            script.open(page, 2 * page)


def after_cut(script, page):
    script.pages(page, 3)
    script.open(page, 2 * page)
    script.sync()
    script.open(page, 2 * page)
    script.append(1)
    script.truncate(0)
    script.restart()
    script.pages(page, 4)
    script.open(page, 2 * page)
    script.pages(page, 4)
    script.append(1)
    script.sync()
    script.truncate(page)
    script.restart()
    script.open(page, 0)
    script.pages(page, 4)
    return script.lines


def cuts(_seed, count):
    """Fixed rows cut at every count of bytes, under several patterns, then restarted, read, opened and gone on with."""
    patterns = PATTERNS if count >= 500 else PATTERNS[1:8:2]
    for page, row in CUT_ROWS:
        for check in ("crc", "sum"):
            probe = Script(check).open(page, 2 * page)
            play_row(probe, page, row)
            for cut in range(probe.written + 2):
                for pattern in patterns:
                    script = Script(check).later(400, cut, pattern).open(page, 2 * page)
                    play_row(script, page, row)
                    yield after_cut(script, page)


def random_cuts(seed, count):
    """Random rows cut at random counts, again after each restart."""
    rng = random.Random(f"{seed}-random_cuts")
    for _ in range(10 * count):
        page = rng.choice([1, 2, 3, 4, 8])
        whole = page + FOOTER
        pattern = rng.randbytes(rng.randrange(1, 12)).hex()
        script = Script(rng.choice(["crc", "sum"])).later(30 * whole, rng.randrange(6 * whole), pattern)
        for _ in range(rng.randrange(2, 5)):
            script.open(page, rng.choice([0, 3 * page]))
            for _ in range(rng.randrange(1, 9)):
                pick = rng.randrange(10)
                if pick < 4:
                    boundary_append(rng, script)
                elif pick < 7:
                    script.sync()
                elif pick < 9:
                    boundary_truncate(rng, script)
                else:
                    script.handover()
            script.add(f"page {page} {rng.randrange(3)}")
            script.restart()
            script.pages(page, 3)
        script.open(page, 0)
        script.pages(page, 4)
        yield script.lines


def long(seed, count):
    """Hundreds of calls each, at page sizes 64, 500 and others up to 65,535."""
    rng = random.Random(f"{seed}-long")
    for number in range(max(6, count // 15)):
        page = [64, 500, 64, 500, 13, 1000, 255, 4096][number % 8]
        if number % 40 == 20:
            page = 65535
        calls = 60 if page == 65535 else 300
        wish = rng.choice([0, 2 * page, 3 * page + 1, 4 * page])
        kind = some_kind(rng, 40 * (page + FOOTER))
        script = Script(rng.choice(["crc", "sum"])).blob(kind, min(90 * (page + FOOTER), 1500000))
        script.open(page, wish)
        for _ in range(calls):
            if script.size > 40 * page:
                script.truncate(rng.randrange(3 * page))
            if rng.randrange(3) == 0:
                script.append(rng.randrange(1, 40))
            else:
                random_call(rng, script, page, wish)
        yield ending(script, page, wish, 4)


def large(_seed, count):
    """Capacities up to the largest, and the largest pages: a full tip, one byte more, direct appends, cuts."""
    for page, wish in [(65535, 0), (65535, 65536), (32768, 100000), (4084, 200000), (1000, 1048576), (1, 200000), (1, 1048576), (65535, 1048576)]:
        if wish == 1048576 and count < 500:
            continue
        capacity = max(-(-wish // page) * page, 2 * page)
        for kind in ("through", ("-", "a5")):
            ceiling = 4 * (capacity // page + 2) * (page + FOOTER)
            script = Script("sum" if page % 2 else "crc").blob(kind, ceiling).open(page, wish)
            script.append(capacity - 1)
            script.append(1)
            script.append(1)
            script.sync()
            script.append(capacity - 1)
            script.append(page)
            script.append(capacity + page + 3)
            script.sync()
            script.truncate(script.size - page // 2 - 1)
            script.append(page)
            script.sync()
            script.truncate(page + page // 2)
            script.add(f"page {page} {1 if page > 1 else 0}")
            script.restart()
            script.open(page, wish)
            script.append(2)
            script.sync()
            yield script.lines


FAMILIES = [
    short,
    rows,
    sizes,
    truncations,
    ceilings,
    inputs,
    edges,
    damaged,
    alterations,
    slots,
    gaps,
    cuts,
    random_cuts,
    long,
    large,
]
