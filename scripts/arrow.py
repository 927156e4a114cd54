"""arrow.py PROGRAM [--keep FOLDER]: presence bitmaps of a writer that is not ours (python3-feather-format, of the Arrow family), and of ours for its reader.

It makes files by that library, each of one column of floats, of which some records have none. It has the library say which records are present, and compares:
what PROGRAM (bindings/rust/examples/bitmap.rs) imports from the file's bitmap is that; what it exports for those is the file's bytes; and the bitmap that it
exports for other records, put into such a file, is read by the library as those. With --keep the files and what the library said are written there.
"""
import math
import pathlib
import random
import struct
import subprocess
import sys
import tempfile
import warnings

warnings.simplefilter('ignore')  # that library speaks to an older pandas
import feather  # noqa: E402
import pandas  # noqa: E402

HEAD = 8  # 'FEA1' and four zeros; the first column's bitmap follows, then its values
CHANCE = random.Random(300)
# name: number of records, and those that are present
SETS = {
    'ten': (10, [0, 2, 5, 6, 7, 8]),
    'last-of-65': (65, [64]),
    'all-but-one-of-64': (64, [i for i in range(64) if i != 41]),
    'alternating-100': (100, list(range(0, 100, 2))),
    'chance-300': (300, [i for i in range(300) if CHANCE.random() < 0.4]),
}


def padded(count):
    """The bytes of a bitmap in such a file: eight at a time."""
    return (count + 63) // 64 * 8


def made(count, present, path):
    """A file by that library, whose bitmap and values are looked at."""
    values = [float(i) if i in set(present) else math.nan for i in range(count)]
    feather.write_dataframe(pandas.DataFrame({'volume': values}), str(path))
    data = path.read_bytes()
    stored = struct.unpack_from(f'<{count}d', data, HEAD + padded(count))
    same = all(a == b or math.isnan(a) and math.isnan(b) for a, b in zip(stored, values))
    if data[:HEAD] != b'FEA1\0\0\0\0' or not same:
        sys.exit('arrow: the file is not laid out as it was: bitmap at byte 8, then the values')
    return data


def numbered(data, count, bitmap):
    """The same file with another bitmap, in which each record's value is its number: who is present is the bitmap's alone to say."""
    values = struct.pack(f'<{count}d', *range(count))
    at = HEAD + padded(count)
    return data[:HEAD] + bitmap.ljust(padded(count), b'\0') + values + data[at + len(values):]


def by_library(data, path):
    """The records that the library reads as present."""
    path.write_bytes(data)
    column = feather.read_dataframe(str(path))['volume']
    present = [i for i, value in enumerate(column) if not math.isnan(value)]
    if any(column[i] != i for i in present):
        sys.exit('arrow: a record has the value of another')
    return present


def ours(program, word, count, given):
    return subprocess.run([program, word, str(count)], input=given, capture_output=True, check=True).stdout


def lines(records):
    return ''.join(f'{record}\n' for record in records).encode()


def compared(program, name, work):
    """What of a set does not hold; with the file, and the records that the library reads as present."""
    count, present = SETS[name]
    data = made(count, present, work / 'file')
    bitmap = data[HEAD:HEAD + (count + 7) // 8]
    said = by_library(numbered(data, count, bitmap), work / 'numbered')
    others = [count - 1 - i for i in reversed(present)]  # as many, so that the file's number of nulls stays right
    exported = ours(program, 'export', count, lines(others))
    found = {
        'the library reads what was written': said == present,
        'imported': ours(program, 'import', count, bitmap) == lines(said),
        'imported with its padding': ours(program, 'import', count, data[HEAD:HEAD + padded(count)]) == lines(said),
        'exported': ours(program, 'export', count, lines(said)) == bitmap,
        'other records are others': others != present,
        'the library reads other records': by_library(numbered(data, count, exported), work / 'others') == others,
    }
    bad = [what for what, holds in found.items() if not holds]
    start = bitmap[:4].hex(' ') + (' ..' if len(bitmap) > 4 else '')
    print(f'{name}: {count} records, {len(said)} present, bitmap {start}: ' + (', '.join(bad) + ': NOT SO' if bad else 'the same'))
    return bad, data, said


def main():
    program, keep = sys.argv[1], pathlib.Path(sys.argv[3]) if sys.argv[2:3] == ['--keep'] else None
    wrong = 0
    with tempfile.TemporaryDirectory() as work:
        for name, (count, _) in SETS.items():
            bad, data, said = compared(program, name, pathlib.Path(work))
            wrong += len(bad)
            if keep and not bad:
                keep.mkdir(exist_ok=True)
                (keep / f'{name}.feather').write_bytes(data)
                (keep / f'{name}.present').write_bytes(f'{count} records\n'.encode() + lines(said))
    sys.exit(1 if wrong else 0)


main()
