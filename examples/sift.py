"""Reads a table, sifts every input once, and prints the network before and after.

    PYTHONPATH=python python3 examples/sift.py examples/and-or-crossed.table
"""

import sys

from yavdocsil import Error, Network


def tell(network):
    """Builds the network, and prints its order, its cells and its roots."""
    print("order", *network.order)
    print("cells", network.build())
    for cell in network.cells:
        print("cell", *cell)
    for output, root in enumerate(network.roots):
        print("root", output, root)


def main(file):
    network = Network.from_path(file)
    tell(network)
    print("tried", network.sift_all())
    tell(network)


if __name__ == "__main__":
    if len(sys.argv) != 2:
        print("usage: sift.py FILE, where FILE is a table", file=sys.stderr)
        sys.exit(2)
    try:
        main(sys.argv[1])
    except Error as error:
        sys.exit(f"{sys.argv[1]}: {error}")
    except OSError as error:
        sys.exit(str(error))
