#!/usr/bin/env python3
"""Writes a small channel, channel/noarch/repodata.json, and what `gateway index` has to make of it, indexed.txt.

    demo/make_channel.py

Both come from the one table of records below and nothing else; the files lie beside this script.
Each line of indexed.txt is a file that indexing writes, with its SHA-256, as `sha256sum` prints it:
the shard of each package name, ascending by the names, and the index. Names, versions, builds and
depends are like those of conda-forge; sizes, times and digests are made up.
"""
import hashlib
import json
from pathlib import Path

from make_sample import packed

HERE = Path(__file__).resolve().parent
SUBDIR = "noarch"

# Name, version, build, whether it is a .conda file, depends, constrains.
FILES = [
    ("six", "1.16.0", "pyh6c4a22f_0", False, ["python"], []),
    ("six", "1.17.0", "pyhd8ed1ab_0", True, ["python >=3.9"], []),
    ("python-dateutil", "2.9.0", "pyhd8ed1ab_0", True, ["python >=3.7", "six >=1.5"], []),
    ("python-dateutil", "2.8.2", "pyhd8ed1ab_0", False, ["python >=3.6", "six >=1.5"], []),
    ("pytz", "2024.1", "pyhd8ed1ab_0", True, ["python >=3.7"], []),
    ("python-tzdata", "2024.1", "pyhd8ed1ab_0", True, ["python >=3.6"], []),
    ("PyYAML-env-tag", "0.1", "pyhd8ed1ab_0", False, ["python >=3.6", "pyyaml"], ["mkdocs >=1.0"]),
    ("requests", "2.32.3", "pyhd8ed1ab_0", True,
     ["certifi >=2017.4.17", "charset-normalizer >=2,<4", "idna >=2.5,<4", "python >=3.8", "urllib3 >=1.21.1,<3"], ["chardet >=3.0.2,<6"]),
    ("requests", "2.32.3", "pyhd8ed1ab_1", True,
     ["certifi >=2017.4.17", "charset-normalizer >=2,<4", "idna >=2.5,<4", "python >=3.9", "urllib3 >=1.21.1,<3"], ["chardet >=3.0.2,<6"]),
]


def record(name, version, build, depends, constrains, file):
    digest = hashlib.sha256(file.encode()).digest()
    whole = {"name": name, "version": version, "build": build, "build_number": int(build.rsplit("_", 1)[1]), "depends": depends}
    if constrains:
        whole["constrains"] = constrains
    whole.update(subdir=SUBDIR, md5=digest[:16], sha256=digest, size=20_000 + digest[0] * 1_000,
                 timestamp=1_700_000_000_000 + int.from_bytes(digest[:4], "big"), license="MIT", noarch="python")
    return whole


def main():
    parts = ({}, {})
    for name, version, build, conda, depends, constrains in FILES:
        file = f"{name.lower()}-{version}-{build}" + (".conda" if conda else ".tar.bz2")
        parts[conda][file] = record(name, version, build, depends, constrains, file)

    as_text = lambda row: {key: value.hex() if isinstance(value, bytes) else value for key, value in row.items()}
    document = {"info": {"subdir": SUBDIR}, "packages": {file: as_text(row) for file, row in parts[0].items()},
                "packages.conda": {file: as_text(row) for file, row in parts[1].items()}, "repodata_version": 1}
    place = HERE / "channel" / SUBDIR
    place.mkdir(parents=True, exist_ok=True)
    (place / "repodata.json").write_text(json.dumps(document, indent=1) + "\n")

    names = sorted({row["name"].lower() for part in parts for row in part.values()}, key=str.encode)
    lines, digests = [], {}
    for name in names:
        old, new = ({file: part[file] for file in sorted(part, key=str.encode) if part[file]["name"].lower() == name} for part in parts)
        digests[name] = hashlib.sha256(packed({"packages": old, "packages.conda": new, "removed": []})).digest()
        lines.append(f"{digests[name].hex()}  shards/{digests[name].hex()}.msgpack")
    index = packed({"version": 1, "info": {"base_url": "./", "shards_base_url": "./shards/", "subdir": SUBDIR}, "shards": digests})
    lines.append(f"{hashlib.sha256(index).hexdigest()}  repodata_shards.msgpack")
    (HERE / "indexed.txt").write_text("\n".join(lines) + "\n")
    print(f"{len(names)} names, {len(FILES)} files; the shard of six is {digests['six'].hex()}")


main()
