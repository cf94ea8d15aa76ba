"""What `to_json` raises where an input is accepted and not written as JSON."""

from typing import Optional

from yamlcanon.library import NO_JSON
from yamlcanon.position import json_position_of

__all__ = ["NoJson", "unwritten"]


class NoJson(ValueError):
    """JSON cannot express a stream: a key is no string, a float is `.inf`, `-.inf` or `.nan`, or a tag is none of the core schema.

        line, column    of the first such node, from 1; None where the memory limit did not allow to find it

    `yamlreview show --format=json FILE` says what it is.
    """

    __module__ = "yamlcanon"
    line: Optional[int] = None
    column: Optional[int] = None

    def locate(self, data: bytes, memory: int) -> "NoJson":
        """Sets line and column from the input, within a memory limit. Returns itself."""
        found = json_position_of(data, memory)
        if found is not None:
            self.line, self.column = found
        return self


def unwritten(status: int, data: bytes, memory: int) -> Exception:
    """What is raised for a status of yamlcanon_json that is neither a text nor a fault of the input."""
    if status == NO_JSON:
        return NoJson("JSON cannot express this stream").locate(data, memory)
    return RuntimeError("yamlcanon: the lines of JSON did not pass their check; this is a bug of the library")
