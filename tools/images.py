#!/usr/bin/env python3
"""Makes what the program `images` is run on, from a folder of vectors:

    tools/images.py [VECTORS]        (vectors/ of the repository where none is named)

crates/images/data/
  good.images   every dossier image of the folder's scripts that is good: the image of each `load` that was answered `ok`, and the bytes
                of each answered `save`. Each once, in the order of length and then of bytes: all of them, since they are below 1 MB.
                Before each its length, four bytes, big-endian.
  bad.images    the image of each `load` that was refused 12. Each once, in the same order. Before each the record that the answer
                names, and its length, four bytes each.
  three.image   the good image with which single bytes are damaged: of those of 8 to 12 records that have two nodes, two attributes
                and two permissions at least, one of a named attribute among them, the first of most nodes.
  full.image    an image at every bound of document 01, 17,920 bytes: no script has one.
  over.images   as bad.images: full.image with one record more of each kind that passes a bound, and others left out for it.
"""
import glob
import os
import sys

HERE = os.path.dirname(os.path.dirname(os.path.abspath(__file__)))
OUT = os.path.join(HERE, "crates", "images", "data")


def calls(folder):
    """Each call of the scripts with its answer."""
    for script in sorted(glob.glob(os.path.join(folder, "*.calls"))):
        with open(script) as f:
            lines = [line.split() for line in f if line.strip() and not line.startswith("#")]
        with open(script[: -len("calls")] + "answers") as f:
            answers = [line.split() for line in f]
        assert len(lines) == len(answers), script
        yield from zip(lines, answers)


def sort(folder):
    """The good images, and the bad ones with the record that is bad."""
    good, bad = set(), {}
    for call, answer in calls(folder):
        if call[0] == "load" and answer == ["ok"]:
            good.add(bytes.fromhex(call[2]))
        elif call[0] == "load" and answer[:2] == ["refused", "12"]:
            bad[bytes.fromhex(call[2].strip("-"))] = int(answer[2][len("record=") :])
        elif call[0] == "save" and answer[0] == "ok":
            good.add(bytes.fromhex(answer[2]))
    return good, bad


def in_order(images):
    return sorted(images, key=lambda image: (len(image), image))


def records(image):
    return [image[k : k + 40] for k in range(0, len(image), 40)]


def three(good):
    """The image to damage."""

    def of_kind(image, kind):
        return [r for r in records(image) if r[0] == kind]

    def serves(image):
        named = any(r[8:10] != b"\0\0" for r in of_kind(image, 3))
        return 8 <= len(records(image)) <= 12 and named and all(len(of_kind(image, k)) >= 2 for k in (1, 2, 3))

    fit = [image for image in in_order(good) if serves(image)]
    return max(fit, key=lambda image: len(of_kind(image, 1)))


def record(kind, path, name, ten_to_fifteen, rest):
    steps = bytes(path) + bytes(6 - len(path))
    return bytes([kind, len(path)]) + steps + name.to_bytes(2, "big") + bytes(ten_to_fifteen) + rest + bytes(24 - len(rest))


def node(path, owner):
    return record(1, path, 0, [owner, 0, 0, 0, 0, 0], b"")


def attribute(path, name):
    return record(2, path, name, [64, 0, 0, 0, 1 + name % 2, 0], bytes([name % 16, 127, name % 16, 255]))


def permission(path, role):
    """For any user and the whole of time."""
    span = (1 << 63).to_bytes(8, "big") + ((1 << 63) - 1).to_bytes(8, "big")
    return record(3, path, 0, [0, role, 1 + role % 4, 0, 0, 0], span + bytes([255] * 8))


def full():
    """The records of 64 nodes: the root, 32 children of it, 26 of the node at 2, and a chain of six steps at 1; of 16 attributes on
    each of the first 16 nodes, and of eight permissions on each of them."""
    paths = [[1] * n for n in range(7)] + [[k] for k in range(2, 33)] + [[2, k] for k in range(1, 27)]
    paths.sort(key=lambda path: (len(path), path))
    nodes = [node(p, 1 + i) for i, p in enumerate(paths)]
    attributes = [attribute(p, 100 + n) for p in paths[:16] for n in range(16)]
    permissions = [permission(p, 8 + r) for p in paths[:16] for r in range(8)]
    return nodes, attributes, permissions


def over():
    """One more than a bound, with the record that passes it: node 65, attribute 257, attribute 17 of the root, permission 129."""
    nodes, attributes, permissions = full()
    images = {
        65: sorted(nodes + [node([2, 27], 1)]) + attributes + permissions[:-1],
        64 + 257: nodes + attributes + [attribute([16], 1)] + permissions[:-1],
        64 + 17: nodes + attributes[:16] + [attribute([], 116)] + attributes[16:-1] + permissions,
        64 + 255 + 129: nodes + attributes[:-1] + permissions + [permission([16], 1)],
    }
    return {b"".join(image): number for number, image in images.items()}


def four(n):
    return n.to_bytes(4, "big")


def refused(bad):
    return b"".join(four(bad[image]) + four(len(image)) + image for image in in_order(bad))


def main():
    good, bad = sort(sys.argv[1] if len(sys.argv) > 1 else os.path.join(HERE, "vectors"))
    made = {
        "good.images": b"".join(four(len(image)) + image for image in in_order(good)),
        "bad.images": refused(bad),
        "three.image": three(good),
        "full.image": b"".join(sum(full(), [])),
        "over.images": refused(over()),
    }
    os.makedirs(OUT, exist_ok=True)
    for name, data in made.items():
        with open(os.path.join(OUT, name), "wb") as f:
            f.write(data)
    print(f"{len(good)} good images, {sum(map(len, good)) // 40} records; {len(bad)} bad images")


main()
