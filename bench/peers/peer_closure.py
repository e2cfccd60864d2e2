#!/usr/bin/env python3
"""Answer requests over the sharded channels below a folder, as a peer.

    peer_closure.py PLACE < REQUESTS

PLACE is a channel and a subdir with `repodata_shards.msgpack` and
`shards/HEX.msgpack` below it. Each line is names with `;` between them. For
each line the index is read, and then each reached shard once: its digest is
checked, its bytes are decoded, and the names of all depends texts are
followed. Where both have a file of a package, that of `packages` is left out.
The records are printed in the order of names and files. Texts are printed as
they stand. The collector of cycles is off.
"""

import gc
import hashlib
import re
import sys

import msgpack

NAME = re.compile(r"[A-Za-z0-9_.-]+")


def dependency_name(text):
    found = NAME.match(text.rsplit("::", 1)[-1].lstrip())
    return found[0].lower() if found else None


def records_of(shard, name):
    """The records of a name, by file; a file of packages is left out where packages.conda has it too."""
    newer = {file: record for file, record in shard["packages.conda"].items() if record["name"].lower() == name}
    records = dict(newer)
    for file, record in shard["packages"].items():
        if record["name"].lower() != name:
            continue
        if file.endswith(".tar.bz2") and file[:-8] + ".conda" in newer:
            continue
        records[file] = record
    return records


def closure(place, roots):
    with open(f"{place}/repodata_shards.msgpack", "rb") as file:
        digests = msgpack.unpackb(file.read(), raw=False)["shards"]
    names = {}
    queue = list(dict.fromkeys(roots))
    seen = set(queue)
    while queue:
        name = queue.pop()
        digest = digests.get(name)
        if digest is None:
            continue
        with open(f"{place}/shards/{digest.hex()}.msgpack", "rb") as file:
            body = file.read()
        if hashlib.sha256(body).digest() != digest:
            raise SystemExit(f"{name}: another digest")
        records = names[name] = records_of(msgpack.unpackb(body, raw=False), name)
        for record in records.values():
            for text in record["depends"]:
                target = dependency_name(text)
                if target not in seen:
                    seen.add(target)
                    queue.append(target)
    return names


def main():
    gc.disable()
    place = sys.argv[1]
    out = []
    for number, line in enumerate(sys.stdin.read().splitlines(), 1):
        names = closure(place, [name.strip().lower() for name in line.split(";")])
        rows = [f"{place}/{file} {record['version']} {record['build']} {record['build_number']}\n"
                for _, records in sorted(names.items()) for file, record in sorted(records.items())]
        out.append(f"request {number} ok {len(rows)}\n")
        out += rows
    sys.stdout.write("".join(out))


main()
