"""The vote of an edge: docs/READER.md, The vote."""

from collections.abc import Sequence

from .frames import Told
from .times import Claim


def majority(redundancy: int) -> int:
    """f + 1 of 2f + 1 ports, of one, three or five (docs/READER.md, The vote)."""
    return redundancy // 2 + 1


def vote(told: Sequence[Told], redundancy: int) -> Claim | None:
    """The claim, second and mark both, that f + 1 ports tell (docs/READER.md, The vote)."""
    claims = [word for word in told if isinstance(word, Claim)]
    return next((claim for claim in claims if claims.count(claim) >= majority(redundancy)), None)
