"""Computes in Python the sums that the program `allocation_faults` prints."""
import struct


def sum_of(data):
    """Returns the 64-bit FNV-1a hash in hexadecimal."""
    total = 14695981039346656037
    for byte in data:
        total = (total ^ byte) * 1099511628211 % 2**64
    return f"{total:016x}"


def counted(data):
    """Returns bytes with their number before them."""
    return struct.pack("<Q", len(data)) + data


def beginnings(data):
    """Returns the sums of all prefixes of some bytes, up to the whole."""
    return [sum_of(counted(data[:size])) for size in range(len(data) + 1)]


def texts_of(events):
    """Returns the number of events, followed by their texts."""
    return struct.pack("<Q", len(events)) + b"".join(counted(" ".join(map(str, event)).encode()) for event in events)


def seat_sum(run, at, count):
    """Returns the sum of a live run without its state: its first `count` events, and the receipts that the actor of the event
    at a moment received of them."""
    events, workers = run["schedule"][:count], len(run["threads"])
    actors = [event[1] if event[0] == "step" else workers for event in run["schedule"]]
    receipts = [struct.pack("<QQ", actors[at], moment) + texts_of([event])
                for moment, event in enumerate(events) if actors[moment] == actors[at]]
    return sum_of(texts_of(events) + b"".join(receipts))
