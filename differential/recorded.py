"""The recorded list (differential/ANSWERS.md), read whole. For the commands that need its records outside the driver.

    python3 differential/recorded.py LIST FOLDER schema|field    writes the sheets of that kind in its records, one file each, into FOLDER
"""

import collections
import pathlib
import sys

Record = collections.namedtuple("Record", "call argument room number first second input output")
# The codes of the calls that read a sheet of that kind.
READERS = {"schema": [0, 14], "field": [*range(1, 11), 13, 15, 16]}


class Malformed(Exception):
    """The list breaks its format."""


def read(path):
    """All records of the list, in order."""
    data = pathlib.Path(path).read_bytes()
    at = data.index(b"\n") + 1
    count = int(data[:at].split()[0])
    records = []
    while at < len(data):
        end = data.index(b"\n", at)
        *numbers, input_size, output_size = map(int, data[at:end].split())
        given, at = part(data, end + 1, input_size)
        answer, at = part(data, at, output_size)
        records.append(Record(*numbers, given, answer))
    if len(records) != count:
        raise Malformed(f"{len(records)} records where {count} are told")
    return records


def part(data, at, size):
    """So many bytes from their text at a place, and the place behind the byte 10 that ends them."""
    meant = bytearray()
    while len(meant) < size:
        escaped = data[at : at + 1] == b"\\"
        meant.append(int(data[at + 1 : at + 3], 16) if escaped else data[at])
        at += 3 if escaped else 1
    if data[at : at + 1] != b"\n":
        raise Malformed(f"no byte 10 at {at}")
    return bytes(meant), at + 1


def main(path, folder, kind):
    sheets = {record.input for record in read(path) if record.call in READERS[kind]}
    for number, sheet in enumerate(sorted(sheets)):
        pathlib.Path(folder, f"{kind}{number}").write_bytes(sheet)


if __name__ == "__main__":
    try:
        main(*sys.argv[1:])
    except (OSError, ValueError, LookupError, TypeError, Malformed) as error:
        sys.exit(f"differential/recorded.py: {error}")
