"""A type 26 read once more, byte by byte, with one thing wrong in it where that is asked for. With nothing wrong it reads as the model does."""
from tests.models.vendor_model import DOWN, GROUP, UP

ANYWHERE, IN_ONE_LIST, WITH_OTHER_VALUES, NOWHERE = range(4)  # where two of a rate are a repeat
ITEM, ITS_GROUP = "item", "group"  # after which of them it goes on where an item ends past its group


class Unfit(Exception):
    pass


class Reader:
    """deepest: groups; lengths: of a rate; others: items that are skipped; repeats, goes_on_after: see above; takes_*: what is unfit, and is taken."""

    def __init__(self, deepest=4, lengths=(6,), others=(), repeats=ANYWHERE, goes_on_after=None, least=0,
                 takes_empty_fifth=False, takes_lone_byte=False, takes_length_0=False, takes_cut_group=False):
        self.deepest, self.lengths, self.others, self.repeats, self.goes_on_after, self.least = deepest, lengths, others, repeats, goes_on_after, least
        self.takes_empty_fifth, self.takes_lone_byte, self.takes_length_0, self.takes_cut_group = (
            takes_empty_fifth, takes_lone_byte, takes_length_0, takes_cut_group)

    def length_at(self, at, end):
        """Of the item there, in a list that ends there; 0 where the rest of the list is to be left out."""
        limit = len(self.run) if self.goes_on_after else end
        if at + 1 >= limit and self.takes_lone_byte or at + 1 < limit and self.run[at + 1] == 0 and self.takes_length_0:
            return 0
        if at + 1 >= limit or self.run[at + 1] < 2:
            raise Unfit
        if self.run[at] == GROUP and self.takes_cut_group:
            return min(self.run[at + 1], limit - at)
        if at + self.run[at + 1] > limit:
            raise Unfit
        return self.run[at + 1]

    def inside(self, at, length, groups):
        """Reads a group; where it ended."""
        if groups == self.deepest and not (self.takes_empty_fifth and length == 2) or length - 2 < self.least:
            raise Unfit
        return self.read(at + 2, at + length, groups + 1)

    def read(self, start, end, groups):
        """Reads a list that stands in so many groups; where its last item ended."""
        at = start
        while at < end:
            kind, length = self.run[at], self.length_at(at, end)
            if length == 0:
                return end
            if kind == GROUP:
                ended = self.inside(at, length, groups)
                at = ended if self.goes_on_after == ITEM else at + length
                continue
            if kind in (DOWN, UP) and length in self.lengths:
                self.found.append((kind, self.run[at + 2:at + length][:4].rjust(4, b"\0"), start))
            elif kind not in self.others:
                raise Unfit
            at += length
        return at

    def has_repeat(self):
        kinds = [kind for kind, _, _ in self.found]
        apart = [(kind, start) for kind, _, start in self.found]
        values = {(kind, value) for kind, value, _ in self.found}
        return [len(set(kinds)) < len(kinds), len(set(apart)) < len(apart), len(set(kinds)) < len(values), False][self.repeats]

    def rates(self, value):
        """As vendor_model.rates."""
        self.run, self.found = value[4:], []
        try:
            if len(value) < 4 + self.least:
                return None
            self.read(0, len(self.run), 0)
        except Unfit:
            return None
        return None if self.has_repeat() else {kind: rate for kind, rate, _ in self.found}
