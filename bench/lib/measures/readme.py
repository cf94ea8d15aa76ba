"""readme.py: README's two numbers, which have to be those of bench/results.tsv, with one digit after the point."""
import math
import re


class Claim:
    """A number of README: where it is written, and what the file has for it."""

    def __init__(self, pattern, value):
        self.pattern, self.value = re.compile(pattern), value


def at_most(value):
    """The next number with one digit after the point that is not less."""
    return math.ceil(value * 10) / 10


def claims(results):
    """The two numbers of README: speed on block mappings, and the most memory on the eight texts."""
    time, memory = results.value("speed/mappings/time"), results.values(r"speed/.*/memory")
    return (
        Claim(r"takes about (\d+\.\d+) times the processor time of libyaml's parser", "" if time is None else f"{time:.1f}"),
        Claim(r"peak memory is at most (\d+\.\d+) times the size of the input", f"{at_most(max(memory)):.1f}" if memory else ""),
    )


def faults_of_readme(results, text):
    """What is wrong with the numbers of README, one line each."""
    for claim in claims(results):
        found = claim.pattern.findall(text)
        if len(found) != 1:
            yield f"README.md: wanted one sentence with `{claim.pattern.pattern}`, and there are {len(found)}"
        elif not claim.value:
            yield f"README.md: {found[0]}: bench/results.tsv has no value for `{claim.pattern.pattern}`"
        elif found[0] != claim.value:
            yield f"README.md: {found[0]}: bench/results.tsv gives {claim.value}"


def with_numbers(results, text):
    """README with the numbers of the file."""
    for claim in claims(results):
        if claim.value:
            text = claim.pattern.sub(lambda found, value=claim.value: found[0].replace(found[1], value, 1), text)
    return text
