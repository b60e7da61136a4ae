"""The schemes that a block is sealed under: each with its calls, and with the
lines of its commands on blocks and on what is lent.

What such a line says, and its answer, cases_pack.py and cases_lent.py tell
with HCH's commands. Those of the other scheme have other first letters:

    ps po    le ld ls lo    under HCH
    fs fo    ge gd gs go    under the encryption-only scheme
"""

import functools

import forward
import hch
import pack as packs
from lines import NO, answer_of, digits, line


def fields(name, key, pack, place, *rest):
    return line(name, key.hex(), f"{pack:016x}", f"{place:08x}",
                *(field.hex() for field in rest))


def lent_case(text, lent, call, *arguments):
    """The line, and its answer by a call that returns what is left where it is
    done. Each refusal "leaves the lent bytes unchanged"."""
    try:
        answer, left = 0, call(*arguments)
    except hch.Refused as refusal:
        answer, left = refusal.number, lent
    assert len(left) == len(lent)
    return text, b"%d %s" % (answer, digits(left))


class Scheme:
    """A scheme by its module, with the letters of its commands. The methods
    that make lines have the names of HCH's."""

    def __init__(self, module, block_letter, lent_letter):
        self.directions = {"e": module.encipher, "d": module.decipher}
        self.least, self.too_short = module.LEAST, module.TOO_SHORT
        self.seal = functools.partial(packs.seal, encipher=module.encipher)
        self.open = functools.partial(packs.open, decipher=module.decipher)
        self.block_letter, self.lent_letter = block_letter, lent_letter

    def encipher(self, key, tweak, data):
        return self.directions["e"](key, tweak, data)

    def by_hand(self, key, pack, place, plain):
        """These 512 bytes enciphered with the right tweak, plain block or
        not."""
        return self.encipher(key, packs.tweak(pack, place), plain)

    def ps(self, key, pack, place, payload):
        return (fields(self.block_letter + "s", key, pack, place, payload),
                answer_of(self.seal, key, payload, pack, place))

    def po(self, key, pack, place, block):
        try:
            u, plain = self.open(key, pack, place, block)
            answer = b"%d %s" % (u, digits(plain))
            # What is opened is what sealing writes for it.
            assert self.seal(key, plain[:u], pack, place) == block
        except hch.Refused as refusal:
            answer = NO + b" %d" % refusal.number
        return fields(self.block_letter + "o", key, pack, place, block), answer

    def pair(self, key, pack, place, payload):
        """The payload sealed, and its block opened again."""
        yield self.ps(key, pack, place, payload)
        text, answer = self.po(
            key, pack, place, self.seal(key, payload, pack, place))
        assert answer.startswith(b"%d " % len(payload)), text[:80]
        yield text, answer

    def message(self, way, key, tweak, data):
        """The line `le` or `ld`, by its second letter."""
        text = line(self.lent_letter + way, key.hex(), tweak.hex(), data.hex())
        return lent_case(text, data, self.directions[way], key, tweak, data)

    def ls(self, key, pack, place, payload, block):
        text = fields(self.lent_letter + "s", key, pack, place, payload, block)
        return lent_case(text, block, self.seal, key, payload, pack, place,
                         len(block))

    def lo(self, key, pack, place, block):
        text = fields(self.lent_letter + "o", key, pack, place, block)
        return lent_case(text, block, lambda *call: self.open(*call)[1],
                         key, pack, place, block)


HCH = Scheme(hch, "p", "l")
FORWARD = Scheme(forward, "f", "g")
