"""The arguments of a tool: `--help` prints the text at its head as it is; what it does not know is an error with status 2."""
import argparse
import os


def parser(name: str, text: str) -> argparse.ArgumentParser:
    """A parser for the tool of this name (`tools/links`), with this text."""
    return argparse.ArgumentParser(prog=name, description=text, formatter_class=argparse.RawDescriptionHelpFormatter)


def part(parts: "argparse._SubParsersAction[argparse.ArgumentParser]", name: str, text: str) -> argparse.ArgumentParser:
    """A parser for a part of a tool (`tools/conformance vectors`), whose first line the tool's help shows."""
    return parts.add_parser(name, help=text.split("\n")[0], description=text, formatter_class=argparse.RawDescriptionHelpFormatter)


def want_library(given: argparse.ArgumentParser, folder: str) -> None:
    """An error of the arguments if a folder has no library that tools/library or a release put there."""
    if not os.path.isfile(f"{folder}/libyamlcanon.a"):
        given.error(f"{folder} has no libyamlcanon.a: tools/library FOLDER builds one")
