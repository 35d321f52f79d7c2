"""How the page carries bytes: packed by LZMA and written 7 bits a character, which is what UTF-8 has in a byte. web/unpack.js unpacks them."""
import lzma
import re

# The characters that a page cannot carry as they are, as web/unpack.js has them.
SPARED = {it: chr(161 + number) for number, it in enumerate((0, 13, 60))}
SPARED_AT = {it: number for number, it in SPARED.items()}
FORM = [{"id": lzma.FILTER_LZMA1, "preset": 9 | lzma.PRESET_EXTREME, "lc": 3, "lp": 0, "pb": 0}]


def packed(some):
    """Bytes as what a part of the page has: how many they are, and then themselves, packed."""
    made = lzma.compress(some, lzma.FORMAT_ALONE, filters=FORM)
    count = -(-8 * len(made) // 7)
    bits = f"{int.from_bytes(made, 'big') << 7 * count - 8 * len(made):0{7 * count}b}"
    text = "".join(chr(int(bits[at : at + 7], 2)) for at in range(0, 7 * count, 7))
    return f'data-length="{len(some)}">' + text.translate(SPARED)


def unpacked(page, name):
    """The bytes that the part of that name of a page carries, which is given as text; None if it has no such part."""
    found = re.search(rf'id="{name}" data-length="[0-9]+">([^<]*)</script>', page)
    if not found:
        return None
    bits = "".join(f"{SPARED_AT.get(it, ord(it)):07b}" for it in found[1])
    count = len(bits) // 8
    return lzma.LZMADecompressor(lzma.FORMAT_ALONE).decompress(int(bits[: 8 * count], 2).to_bytes(count, "big"))
