"""How two texts are compared, from the words of document 02, request 02."""


def compared(a, b):
    """Whether they are the same, and the byte pairs compared: "none for unequal lengths, else through the first unequal", last bytes first."""
    if len(a) != len(b):
        return False, 0
    pairs = 0
    for x, y in zip(reversed(a), reversed(b)):
        pairs += 1
        if x != y:
            return False, pairs
    return True, pairs
