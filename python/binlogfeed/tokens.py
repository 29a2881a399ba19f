"""Tokens: the places of changes."""
from __future__ import annotations

from typing import NamedTuple


class TokenParts(NamedTuple):
    """What a token is made of."""

    file: str
    position: int
    count: int


def token_parts(token: str) -> TokenParts:
    """The parts of a token that a line has."""
    place, _, file = token.partition("@")
    position, _, count = place.partition(".")
    return TokenParts(file, int(position), int(count))


def beginning(token: str) -> str:
    """The token of the place before all changes of a token's transaction."""
    position, _, rest = token.partition(".")
    return f"{position}.0@{rest.partition('@')[2]}"


def are_of_one_transaction(token: str, other: str) -> bool:
    """Whether two tokens are of one transaction: they differ in their counts alone."""
    position, _, rest = token.partition(".")
    other_position, _, other_rest = other.partition(".")
    return position == other_position and rest.partition("@")[2] == other_rest.partition("@")[2]
