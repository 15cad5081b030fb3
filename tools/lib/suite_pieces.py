"""Files compared piece by piece with those of an earlier run. Of many cases most pieces are the same, as those of memory that
nothing was written to: such pieces are kept at hand, by their sums, and not read again."""
from __future__ import annotations

import os

# bytes of a piece: two of them stay near the processor
PIECE = 1 << 16
# so many pieces are kept at hand; of more the one that was kept first is forgotten
MOST = 64
# letters of a piece's SHA-256
SUM = 64


def sums_of_pieces(place: str) -> str:
    """The SHA-256 of each piece of a file, one behind the other."""
    import hashlib

    with open(place, "rb", buffering=0) as file:
        return "".join(hashlib.sha256(piece).hexdigest() for piece in iter(lambda: file.read(PIECE), b""))


class Pieces:
    """Pieces at hand, and the room that a piece is read into. A piece is kept when it is wanted for the second time."""

    def __init__(self) -> None:
        self.kept: dict[str, bytearray] = {}
        self.wanted: set[str] = set()
        self.room, self.room_beside = bytearray(PIECE), bytearray(PIECE)
        self.rooms = [self.room]

    def are_same(self, file: int, size: int, stored: str, sums: str) -> bool:
        """Whether an open file of so many bytes has those of the stored one, whose pieces have these sums."""
        if len(sums) != -(-size // PIECE) * SUM:
            return False
        for at in range(0, len(sums), SUM):
            sum = sums[at : at + SUM]
            wanted = self.kept.get(sum)
            if wanted is None:
                wanted = self.stored_piece(sum, stored, at // SUM)
            count = os.readv(file, self.rooms)
            if (self.room if count == PIECE else self.room[:count]) != wanted:
                return False
        return True

    def stored_piece(self, sum: str, stored: str, number: int) -> bytearray:
        """A piece as it stands in the stored file."""
        keeps, file = sum in self.wanted, os.open(stored, os.O_RDONLY)
        self.wanted.add(sum)
        try:
            room = bytearray(PIECE) if keeps else self.room_beside
            count = os.preadv(file, [room], number * PIECE)
        finally:
            os.close(file)
        piece = room if count == PIECE else room[:count]
        if keeps:
            if len(self.kept) == MOST:
                del self.kept[next(iter(self.kept))]
            self.kept[sum] = piece
        return piece
