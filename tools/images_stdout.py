#!/usr/bin/env python3
"""Writes what the program `images` must write, crates/images/stdout, from the plain C of bench/plain and the files of crates/images/data:

    mkdir -p build && cc -O2 -o build/plain bench/plain/*.c && tools/images_stdout.py build/plain

The plain C was written from document 01 apart from the proved code. It answers `load 1 IMAGE` and `save 1` for every image here; the records
that bad.images and over.images name must be those that it blames.
"""
import collections
import os
import subprocess
import sys

HERE = os.path.dirname(os.path.dirname(os.path.abspath(__file__)))
CRATE = os.path.join(HERE, "crates", "images")


def data(name):
    with open(os.path.join(CRATE, "data", name), "rb") as f:
        return f.read()


def images(name, numbers):
    """What stands before each image, and the image."""
    rest = data(name)
    while rest:
        words = [int.from_bytes(rest[4 * k : 4 * k + 4], "big") for k in range(numbers)]
        end = 4 * numbers + words[-1]
        yield words, rest[4 * numbers : end]
        rest = rest[end:]


def plain(program, calls):
    """The answers of the plain C, a line for each call."""
    done = subprocess.run([program], input="\n".join(calls), capture_output=True, text=True, check=True)
    return done.stdout.splitlines()


def loaded(program, batch):
    """Of each image the record that is blamed, or None where it loads and saves as the same bytes."""
    calls = [line for image in batch for line in ("load 1 " + (image.hex() or "-"), "save 1")]
    answers = plain(program, calls)
    assert len(answers) == 2 * len(batch)
    found = []
    for image, load, save in zip(batch, answers[::2], answers[1::2]):
        if load == "ok":
            assert save == f"ok bytes={len(image)} {image.hex()}", save
            found.append(None)
        else:
            assert load.startswith("refused 12 record="), load
            found.append(int(load[len("refused 12 record=") :]))
    return found


def said(record):
    return "good" if record is None else f"record {record}"


def good(program):
    batch = [image for _, image in images("good.images", 1)]
    assert all(record is None for record in loaded(program, batch))
    yield f"good: {len(batch)} images, {sum(map(len, batch)) // 40} records, 0 wrong"


def bad(program, name, file):
    named, batch = zip(*images(file, 2))
    blamed = loaded(program, batch)
    assert blamed == [words[0] for words in named]
    yield f"{name}: {len(batch)} images, 0 wrong"
    for record, count in sorted(collections.Counter(blamed).items()):
        yield f"record {record}: {count}"


def lengths(program, image, all_lengths):
    batch = [image[:n] for n in all_lengths]
    for n, record in zip(all_lengths, loaded(program, batch)):
        yield f"length {n}: {said(record)}"


def short(program, image):
    n = len(image)
    assert plain(program, ["load 1 " + image.hex(), f"save 1 {n - 1}"]) == ["ok", "refused 9"]
    yield f"save of {n} bytes into {n - 1}: refused, buffer kept"


def damaged(program, image, kind, at):
    def with_byte(k, b):
        return image[:k] + bytes([b]) + image[k + 1 :]

    batch = [with_byte(at + i, b) for i in range(40) for b in ((image[at + i] + 1) % 256, image[at + i] ^ 128)]
    blamed = [said(record) for record in loaded(program, batch)]
    for i in range(40):
        yield f"{kind} {i}: {blamed[2 * i]}, {blamed[2 * i + 1]}"


def lines(program):
    yield from good(program)
    yield from bad(program, "bad", "bad.images")
    yield from bad(program, "over", "over.images")
    full, three = data("full.image"), data("three.image")
    longer = full + bytes(80)
    yield from lengths(program, longer, [0, 39, 40, 41, 17880, 17919, 17920, 17921, 17960, 18000])
    yield from short(program, full)
    yield "first record bad"
    yield from lengths(program, b"\x09" + longer[1:], [17920, 17921])
    yield "one byte damaged: byte + 1, byte xor 128"
    yield from damaged(program, three, "node", 40)
    yield from damaged(program, three, "attribute", 240)
    yield from damaged(program, three, "permission", 400)
    yield from short(program, three)


def main():
    with open(os.path.join(CRATE, "stdout"), "w") as f:
        f.writelines(line + "\n" for line in lines(os.path.abspath(sys.argv[1])))


main()
