"""Keys that meet in the program's tables, worked out with the hashes as its sources have them: the kit's FoldHasher, whose seed is fixed, and
a multiplicative hash that ends of paths had. Where a hash is changed there, the attack that uses it does no more harm, and says nothing
until it is changed here too."""

WORD = 2**64 - 1
ODD = 0x9E3779B97F4A7C15
BEGIN = 0x243F6A8885A308D3
GROUP_LOAD = 9


def folded(a, b):
    product = a * b
    return (product ^ product >> 64) & WORD


def short(data):
    """Up to eight bytes as the hasher reads them."""
    if len(data) >= 4:
        return int.from_bytes(data[:4], "little") | int.from_bytes(data[-4:], "little") << 32
    return data[0] | data[len(data) // 2] << 8 | data[-1] << 16 if data else 0


def written(state, data):
    """The hasher's state after one write of at most eight bytes."""
    return folded(state ^ short(data), ODD ^ 2 * len(data))


def listed(state, data):
    """After an array of bytes: its length, and then each by itself."""
    state = written(state, len(data).to_bytes(8, "little"))
    for byte in data:
        state = written(state, bytes([byte]))
    return state


def seat_state(carrier, number, start):
    """After all of a dated seat row's key but its day."""
    state = listed(BEGIN, carrier.encode())
    state = written(state, number.to_bytes(2, "little"))
    state = listed(state, start.encode())
    return written(state, (1).to_bytes(8, "little"))


def group_of_day(state, day, groups):
    """Where the key with this day is looked for, of so many groups of a hash map."""
    hashed = written(state, day.to_bytes(4, "little"))
    return (hashed ^ hashed >> 32) & (groups - 1)


def groups_for(count):
    """How many groups a hash map has that is made for so many keys."""
    groups = 1
    while GROUP_LOAD * groups < count:
        groups *= 2
    return groups


def end_digits(place, carrier):
    """The digits by which a hash by one multiplication finds the end of a path, of its place and the carrier of its first flight."""
    letters = int.from_bytes((place + carrier).encode(), "little")
    return (letters * ODD & WORD) >> 32
