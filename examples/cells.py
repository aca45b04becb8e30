"""Builds a table's network, writes its network file, reads that again and compares cells and roots.

    PYTHONPATH=python python3 examples/cells.py examples/and-or-crossed.table target/and-or-crossed.cells
"""

import pathlib
import sys

from yavdocsil import Error, Network


def main(file, new):
    network = Network.from_path(file)
    network.build()
    pathlib.Path(new).write_bytes(network.to_file())
    again = Network.from_path(new, kind="cells")
    if not again.is_same(network):
        sys.exit("cells or roots differ")
    print(f"{len(again.cells)} cells read again: cells and roots are the same")


if __name__ == "__main__":
    if len(sys.argv) != 3:
        print("usage: cells.py FILE NEW, where FILE is a table and NEW the network file to write", file=sys.stderr)
        sys.exit(2)
    try:
        main(*sys.argv[1:])
    except Error as error:
        sys.exit(f"{sys.argv[1]}: {error}")
    except OSError as error:
        sys.exit(str(error))
