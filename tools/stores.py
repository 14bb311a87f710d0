"""What the scripts of this folder know of the store of a server: its mark, and its records."""

MARK, HEADER = b"rushowa store 1\n", b"adept 3\n"
# An image without records is begun up to this length; no record is longer than an item; no image is longer than the last.
UNBEGUN, LONGEST, LIMIT = 14, 8388608, 1 << 30


class Damaged(Exception):
    """A record is not whole; its place in the image."""


def payload_at(store, place):
    """The payload of the record behind an open gate."""
    length = int.from_bytes(store.read(4), "big")
    payload = store.read(length) if length <= LONGEST else b""
    # no record of a server is empty, so a length that is cut is told too
    if not payload or len(payload) != length:
        raise Damaged(place)
    return payload


def payloads(store):
    """The payloads of the records of a file that was opened, one after another; the first is the header line."""
    mark = store.read(len(MARK))
    if mark != MARK:
        if MARK.startswith(mark):
            return
        raise ValueError("not a store")
    place, gate = 0, store.read(1)
    if gate != b"\1" and len(store.peek(UNBEGUN)) >= UNBEGUN:
        raise Damaged(0)
    # a gate alone is what a stop may leave of the first record
    while gate == b"\1" and (place or store.peek(1)):
        payload = payload_at(store, place)
        if place == 0 and payload != HEADER:
            raise ValueError("not a store of a server")
        yield payload
        place += 5 + len(payload)
        gate = store.read(1)
        if not gate:
            raise Damaged(place)


def units(path):
    """The units of the store at a path, as far as its records are whole."""
    try:
        with open(path, "rb") as store:
            for number, payload in enumerate(payloads(store)):
                if number:
                    yield payload
    except (Damaged, ValueError):
        return
