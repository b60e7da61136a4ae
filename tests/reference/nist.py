"""Reads the published vectors in tests/vectors."""

import pathlib

FOLDER = pathlib.Path(__file__).resolve().parents[1] / "vectors"
DIRECTIONS = {"[ENCRYPT]": "encrypt", "[DECRYPT]": "decrypt"}


def cases(name):
    """The direction, key, plaintext and ciphertext of each case of a file, in
    its order. The two texts are as long as each other, of one block or more.
    """
    direction, count, fields = None, 0, {}
    # Reading as text takes either line ending.
    for text in (FOLDER / name).read_text("ascii").splitlines():
        if not text or text.startswith("#"):
            continue
        if text in DIRECTIONS:
            direction, count = DIRECTIONS[text], 0
            continue
        field, value = text.split(" = ")
        if field == "COUNT":
            # A case missing, or cut short, shows here or below.
            assert direction and not fields and int(value) == count, text
            count += 1
            continue
        assert field in ("KEY", "PLAINTEXT", "CIPHERTEXT"), text
        assert field not in fields, text
        fields[field] = bytes.fromhex(value)
        if len(fields) == 3:
            yield (direction, fields["KEY"], fields["PLAINTEXT"],
                   fields["CIPHERTEXT"])
            fields = {}
    assert count and not fields, name


def blocks(name):
    """The same, each case split into cases of a single block."""
    for direction, key, plain, enciphered in cases(name):
        assert len(plain) == len(enciphered) and len(plain) % 16 == 0
        for i in range(0, len(plain), 16):
            yield direction, key, plain[i:i + 16], enciphered[i:i + 16]
