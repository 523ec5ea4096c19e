"""The session table in Python, written from the words of documents 01 and 02: its slots, what matches, what a change, a start and an end do."""

SIZE = 192
MARK = bytes([0x5A, 0x4C])
NUMBERS = {"port": 2, "address": 6, "timeout": 10, "idle": 14}  # each of four bytes, high byte first; a start is given these
RATES = {"down": 181, "up": 185}  # the same; a start writes zeros
PLACES = NUMBERS | RATES
TEXTS = {"user": (18, 1, 63), "id": (82, 1, 32), "station": (115, 0, 32), "filter": (148, 0, 32)}  # place of the length, its limits
ZEROS = 3  # at the end of a slot, zero when a session starts, not read
MARKS = 64


def number(value):
    return value.to_bytes(4, "big")


def slot_count(table):
    """R1: 0 where the length is not 192 times 1 to 64."""
    count, rest = divmod(len(table), SIZE)
    return count if rest == 0 and 1 <= count <= 64 else 0


def slot(table, k):
    return table[k * SIZE:(k + 1) * SIZE]


def with_slot(table, k, content):
    return table[:k * SIZE] + content + table[(k + 1) * SIZE:]


def live(content):
    """Exactly if mark and four lengths are as in the layout."""
    return content[:2] == MARK and all(low <= content[place] <= high for place, low, high in TEXTS.values())


def field(content, name):
    if name in PLACES:
        return content[PLACES[name]:PLACES[name] + 4]
    place = TEXTS[name][0]
    return content[place + 1:place + 1 + content[place]]


def matches(content, criteria):
    """Every criterion, a pair of name and value, equals its field."""
    return live(content) and all(field(content, name) == value for name, value in criteria)


def marks(table, criteria):
    named = [matches(slot(table, k), criteria) for k in range(slot_count(table))]
    return bytes(named) + bytes(MARKS - len(named))


def text_field(name, value):
    _, _, high = TEXTS[name]
    return bytes([len(value)]) + value + bytes(high - len(value))


def altered(content, settings):
    """Only the fields that are named."""
    for name, value in settings.items():
        place = PLACES[name] if name in PLACES else TEXTS[name][0]
        written = number(value) if name in PLACES else text_field(name, value)
        content = content[:place] + written + content[place + len(written):]
    return content


def change_marked(table, marks, settings):
    """All live slots with mark 1 altered, or ended where settings is None: how many, and the table."""
    changed = 0
    for k in range(slot_count(table)):
        content = slot(table, k)
        if marks[k] == 1 and live(content):
            changed += 1
            table = with_slot(table, k, bytes(SIZE) if settings is None else altered(content, settings))
    return changed, table


def fits(session):
    return all(low <= len(session[name]) <= high for name, (_, low, high) in TEXTS.items())


def record(session):
    """All 192 bytes of a session's slot, its fields in the layout's order."""
    numbers = b"".join(number(session[name]) for name in NUMBERS)
    return MARK + numbers + b"".join(text_field(name, session[name]) for name in TEXTS) + number(0) * len(RATES) + bytes(ZEROS)


def start(table, session):
    """The refusal number, 0 for none; the slot or None; the table."""
    slots = range(slot_count(table))
    if not slots:
        return 1, None, table
    if not fits(session):
        return 8, None, table
    if any(live(slot(table, k)) and field(slot(table, k), "id") == session["id"] for k in slots):
        return 9, None, table
    for k in slots:
        if not live(slot(table, k)):
            return 0, k, with_slot(table, k, record(session))
    return 10, None, table


def end(table, k):
    """The refusal number, 0 for none; the table."""
    if slot_count(table) == 0:
        return 1, table
    if k >= slot_count(table) or not live(slot(table, k)):
        return 11, table
    return 0, with_slot(table, k, bytes(SIZE))
