#!/usr/bin/env python3
"""Writes the sample shard, numpy.msgpack, and what `gateway show numpy` has to print of it, expected.txt.

    demo/make_sample.py

Both come from the one table of records below and nothing else; the files lie beside this script.
The shard is a MessagePack map of the form of CEP 16: `packages` and `packages.conda` map file names
to records, and `removed` lists files that were taken back. Names, versions, builds and depends are
like those of conda-forge for linux-64. Sizes, times and digests are made up.
"""
import hashlib
import struct
from pathlib import Path

HERE = Path(__file__).resolve().parent
SUBDIR = "linux-64"


def numpy(version, build, python, blas, glibc="", extra=()):
    """A row of the table for one Python and the next: a version, a build and its depends."""
    low, high = python
    depends = [f"libblas >={blas},<4.0a0", "libgcc-ng >=12", f"python >={low},<{high}.0a0",
               f"python_abi {low}.* *_cp{low.replace('.', '')}", *extra]
    return version, build, depends + ([f"__glibc >={glibc},<3.0.a0"] if glibc else [])


# The records of `packages` (.tar.bz2 files), not in the order of their file names.
OLD = [
    ("1.16.6", "py37h95a1406_0", ["libblas >=3.8.0,<4.0a0", "libgcc-ng >=7.3.0", "python >=3.7,<3.8.0a0"]),
    ("1.11.3", "py27_nomkl_200", ["libgfortran 3.0.0", "nomkl", "openblas 0.2.19|0.2.19.*", "python 2.7*"]),
    ("1.9.3", "py27_3", []),
    numpy("1.21.6", "py310h45f3432_0", ("3.10", "3.11"), "3.8.0"),
    numpy("1.19.5", "py38h8246c76_3", ("3.8", "3.9"), "3.8.0"),
]

# The records of `packages.conda`.
NEW = [
    numpy("1.26.4", "py312heda63a1_0", ("3.12", "3.13"), "3.9.0"),
    numpy("1.26.4", "py311h64a7726_0", ("3.11", "3.12"), "3.9.0"),
    numpy("1.25.2", "py311h64a7726_0", ("3.11", "3.12"), "3.9.0"),
    numpy("2.0.0rc1", "py312h22e1c76_0", ("3.12", "3.13"), "3.9.0", "2.17"),
    numpy("2.1.3", "py313h4bf6692_0", ("3.13", "3.14"), "3.9.0", "2.17"),
    numpy("2.2.0", "py312h7e784f5_1", ("3.12", "3.13"), "3.9.0", "2.17", extra=["libgcc >=13"]),
    numpy("1.23.5", "py39h3d75532_0", ("3.9", "3.10"), "3.9.0"),
]

CONSTRAINS = ["numpy-base <0a0"]
REMOVED = ["numpy-1.25.1-py311h64a7726_0.conda"]


def record(file, version, build, depends):
    """The map of one record, in the order in which it is written."""
    digest = hashlib.sha256(file.encode()).digest()
    number = int(build.rsplit("_", 1)[1])
    whole = {"name": "numpy", "version": version, "build": build, "build_number": number, "depends": depends}
    if version.startswith("2."):
        whole["constrains"] = CONSTRAINS
    whole.update(subdir=SUBDIR, md5=digest[:16], sha256=digest, size=4_000_000 + digest[0] * 20_000,
                 timestamp=1_600_000_000_000 + int.from_bytes(digest[:4], "big"),
                 license="BSD-3-Clause", license_family="BSD")
    return whole


def records(rows, ending):
    files = {}
    for version, build, depends in rows:
        file = f"numpy-{version}-{build}{ending}"
        files[file] = record(file, version, build, depends)
    return files


def sized(length, short, forms):
    """A head with a length: one byte below the first bound, else the least of the forms that holds it."""
    base, bound = short
    if length < bound:
        return bytes([base + length])
    for head, code, most in forms:
        if length < most:
            return bytes([head]) + struct.pack(code, length)
    raise ValueError("too long")


def packed(value):
    """The shortest spelling of a value in MessagePack."""
    wide = lambda one, two, four: ((one, ">B", 1 << 8), (two, ">H", 1 << 16), (four, ">I", 1 << 32))
    if isinstance(value, int):
        return sized(value, (0x00, 0x80), (*wide(0xcc, 0xcd, 0xce), (0xcf, ">Q", 1 << 64)))
    if isinstance(value, bytes):
        return sized(len(value), (0, 0), wide(0xc4, 0xc5, 0xc6)) + value
    if isinstance(value, str):
        text = value.encode()
        return sized(len(text), (0xa0, 32), wide(0xd9, 0xda, 0xdb)) + text
    if isinstance(value, list):
        return sized(len(value), (0x90, 16), wide(0, 0xdc, 0xdd)[1:]) + b"".join(map(packed, value))
    pairs = b"".join(packed(key) + packed(item) for key, item in value.items())
    return sized(len(value), (0x80, 16), wide(0, 0xde, 0xdf)[1:]) + pairs


def lines_of(file, row):
    yield f"{file} {row['version']} {row['build']} {row['build_number']}\n"
    for text in row["depends"]:
        yield f"  {text}\n"


def main():
    old, new = records(OLD, ".tar.bz2"), records(NEW, ".conda")
    shard = {"packages": old, "packages.conda": new, "removed": REMOVED}
    (HERE / "numpy.msgpack").write_bytes(packed(shard))
    rows = sorted([*old.items(), *new.items()], key=lambda row: row[0].encode())
    text = "".join(line for file, row in rows for line in lines_of(file, row))
    (HERE / "expected.txt").write_bytes(text.encode())
    print(f"{len(rows)} records")


if __name__ == "__main__":
    main()
