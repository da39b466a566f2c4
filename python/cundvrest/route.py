"""Ways for arrows: through the gaps between columns and the channels between lanes, so that none crosses a box.

Arrows that share a gap or a channel lie beside each other there; those that come from one box may lie on each other,
as a fork does.
"""
from dataclasses import dataclass, field

MOST_OFFSETS = 7                # tracks of a channel; its room is 26 and each takes 3.2
OFFSET = 3.2


@dataclass
class Wire:
    """An arrow from the box in column `a` of lane `p` to the one in column `b` of lane `q`; `net` is where it comes
    from."""
    net: object
    a: int
    p: int
    b: int
    q: int
    y_from: float
    y_to: float
    tracks: dict = field(default_factory=dict)

    @property
    def channel(self):
        """The channel that it takes, named by the lane below it: the one beside its target, on the side it comes from.
        None for a neighbour's, which needs none."""
        if self.b == self.a + 1:
            return None
        return self.q + 1 if self.p > self.q else self.q


def _assign(pieces):
    """The lowest track for each piece, (low, high, net), that no piece of another net overlaps there: (tracks, how
    many)."""
    taken, out = [], []
    for low, high, net in pieces:
        for track, row in enumerate(taken):
            if all(n == net or high < l or h < low for l, h, n in row):
                break
        else:
            track = len(taken)
            taken.append([])
        taken[track].append((low, high, net))
        out.append(track)
    return out, len(taken)


def _offset(track):
    """0, 1, -1, 2, -2 and so on: the middle of a channel first."""
    track %= MOST_OFFSETS
    return ((track + 1) // 2) * (1 if track % 2 else -1) * OFFSET


class Router:
    """`x(column)` and `top(lane)` are the left side of a column and the upper side of a lane; `box` and `gap` how wide
    boxes and gaps are."""

    def __init__(self, x, top, box, gap):
        self.x, self.top, self.box, self.gap = x, top, box, gap
        self.wires = []

    def add(self, *of):
        self.wires.append(Wire(*of))
        return self.wires[-1]

    def lay(self):
        """Gives each wire its tracks."""
        channels = {}
        for wire in self.wires:
            if wire.channel is not None:
                channels.setdefault(wire.channel, []).append(wire)
        for wires in channels.values():
            wires.sort(key=lambda w: (abs(w.b - w.a), w.a))
            tracks, _ = _assign([(min(w.a, w.b - 1), max(w.a, w.b - 1), w.net) for w in wires])
            for wire, track in zip(wires, tracks):
                wire.tracks['channel'] = track
        gaps = {}
        for wire in self.wires:
            turn = wire.y_to if wire.channel is None else self.channel_y(wire)
            if abs(turn - wire.y_from) > 1:
                gaps.setdefault(wire.a, []).append(('out', wire, *sorted((wire.y_from, turn)), wire.net))
            if wire.channel is not None:
                gaps.setdefault(wire.b - 1, []).append(('in', wire, *sorted((turn, wire.y_to)), id(wire)))
        for pieces in gaps.values():
            self._lay_gap(pieces)

    def _lay_gap(self, pieces):
        many = {}
        for side in ('out', 'in'):
            mine = sorted((piece for piece in pieces if piece[0] == side), key=lambda piece: (piece[1].p, piece[2]))
            tracks, many[side] = _assign([piece[2:] for piece in mine])
            for piece, track in zip(mine, tracks):
                piece[1].tracks[side] = track
        pitch = min(5, (self.gap - 24) / max(1, many['out'] + many['in'] - 1))
        for piece in pieces:
            piece[1].tracks['pitch ' + piece[0]] = pitch

    def channel_y(self, wire):
        return self.top(wire.channel) + _offset(wire.tracks['channel'])

    def out_x(self, wire):
        return self.x(wire.a) + self.box + 8 + wire.tracks.get('out', 0) * wire.tracks.get('pitch out', 5)

    def in_x(self, wire):
        return self.x(wire.b) - 13 - wire.tracks['in'] * wire.tracks['pitch in']

    def points(self, wire):
        sx, ex = self.x(wire.a) + self.box, self.x(wire.b)
        out = self.out_x(wire)
        if wire.channel is not None:
            y, into = self.channel_y(wire), self.in_x(wire)
            return [(sx, wire.y_from), (out, wire.y_from), (out, y), (into, y), (into, wire.y_to), (ex, wire.y_to)]
        if abs(wire.y_from - wire.y_to) <= 1:
            return [(sx, wire.y_from), (ex, wire.y_to)]
        return [(sx, wire.y_from), (out, wire.y_from), (out, wire.y_to), (ex, wire.y_to)]
