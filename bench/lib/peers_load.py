"""peers_load.py LIBRARY FILE [show]: reads a YAML file into plain values by `pyyaml`, `pyyaml-c` or `ruamel`; prints them where asked."""
import sys


def values(library, file):
    if library == "ruamel":
        from ruamel.yaml import YAML

        return YAML(typ="safe", pure=True).load_all(file)
    import yaml

    return yaml.load_all(file, Loader=yaml.CSafeLoader if library == "pyyaml-c" else yaml.SafeLoader)


def main(library, name, *show):
    with open(name, "rb") as file:
        try:
            for value in values(library, file):
                if show:
                    print(repr(value))
        except Exception as fault:  # whatever a library refuses by
            print(type(fault).__name__, " ".join(str(fault).split()), file=sys.stderr)
            return 2
    return 0


if __name__ == "__main__":
    sys.exit(main(*sys.argv[1:]))
