"""Regions of files: what stands between two texts that are written by hand, of which the first says what it is."""

import textwrap
from typing import NamedTuple


class Region(NamedTuple):
    """What stands in a file behind whole lines that it has once, and before the next line that is this one."""

    path: str
    behind: str
    before: str
    lines: list


class Misplaced(Exception):
    """A file in which a region doesn't stand once."""


def filled(text, region):
    """A file's text with the lines of a region in the place of those that it has there."""
    head, found, tail = text.partition(f"{region.behind}\n")
    if not found or (head and not head.endswith("\n")) or f"\n{region.behind}\n" in f"\n{tail}":
        raise Misplaced(f"{region.path} doesn't have this once: {region.behind}")
    _, found, rest = f"\n{tail}".partition(f"\n{region.before}\n")
    if not found:
        raise Misplaced(f"{region.path}: nothing ends what stands behind this: {region.behind}")
    body = "".join(f"{it}\n" for it in region.lines)
    return f"{head}{region.behind}\n{body}{region.before}\n{rest}"


def comment(text, front, width=120):
    """A text as lines of a comment, each behind the same front."""
    return textwrap.wrap(text, width, initial_indent=front, subsequent_indent=front, break_long_words=False, break_on_hyphens=False)
