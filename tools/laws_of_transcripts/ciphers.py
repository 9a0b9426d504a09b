"""AES-128 (FIPS 197) and the seals of Security 0 (docs/SECURITY.md)."""
from functools import lru_cache


def times(first, second):
    """The product in the field of 256 elements."""
    product = 0
    while second:
        if second & 1:
            product ^= first
        first = (first << 1) ^ (0x11B if first & 0x80 else 0)
        second >>= 1
    return product


def substitutions():
    """The byte substitution: the inverse and then the affine map."""
    table = []
    for byte in range(256):
        inverse = next((x for x in range(256) if times(byte, x) == 1), 0)
        table.append(0x63 ^ inverse ^ (inverse << 1 | inverse >> 7) & 255 ^ (inverse << 2 | inverse >> 6) & 255
                     ^ (inverse << 3 | inverse >> 5) & 255 ^ (inverse << 4 | inverse >> 4) & 255)
    return table


BOX = substitutions()
TWICE = [times(byte, 2) for byte in range(256)]


def columns():
    """What a substituted byte of each row gives a mixed column, as a number of 32 bits: four tables."""
    first = [TWICE[byte] << 24 | byte << 16 | byte << 8 | TWICE[byte] ^ byte for byte in BOX]
    return [[word >> 8 * row | word << 32 - 8 * row & 0xFFFFFFFF for word in first] for row in range(4)]


COLUMNS = columns()


@lru_cache(maxsize=64)
def round_keys(key):
    """The columns of the eleven round keys, as numbers."""
    words, constant = [list(key[4 * i:4 * i + 4]) for i in range(4)], 1
    for i in range(4, 44):
        word = list(words[-1])
        if i % 4 == 0:
            word = [BOX[byte] for byte in word[1:] + word[:1]]
            word[0] ^= constant
            constant = TWICE[constant]
        words.append([x ^ y for x, y in zip(words[i - 4], word)])
    return [int.from_bytes(bytes(word), "big") for word in words]


@lru_cache(maxsize=4096)
def enciphered(key, block):
    """AES-128 of a block."""
    keys, (first, second, third, fourth) = round_keys(key), COLUMNS
    a, b, c, d = (int.from_bytes(block[4 * i:4 * i + 4], "big") ^ keys[i] for i in range(4))
    for i in range(4, 40, 4):
        a, b, c, d = (
            first[a >> 24] ^ second[b >> 16 & 255] ^ third[c >> 8 & 255] ^ fourth[d & 255] ^ keys[i],
            first[b >> 24] ^ second[c >> 16 & 255] ^ third[d >> 8 & 255] ^ fourth[a & 255] ^ keys[i + 1],
            first[c >> 24] ^ second[d >> 16 & 255] ^ third[a >> 8 & 255] ^ fourth[b & 255] ^ keys[i + 2],
            first[d >> 24] ^ second[a >> 16 & 255] ^ third[b >> 8 & 255] ^ fourth[c & 255] ^ keys[i + 3])
    last = ((a, b, c, d), (b, c, d, a), (c, d, a, b), (d, a, b, c))
    return b"".join(
        ((BOX[w >> 24] << 24 | BOX[x >> 16 & 255] << 16 | BOX[y >> 8 & 255] << 8 | BOX[z & 255]) ^ keys[40 + i]).to_bytes(4, "big")
        for i, (w, x, y, z) in enumerate(last))


def streamed(key, vector, text):
    """The text under OFB."""
    out, block = b"", vector
    for place in range(0, len(text), 16):
        block = enciphered(key, block)
        out += bytes(x ^ y for x, y in zip(text[place:place + 16], block))
    return out


def code_of(key, vector, sender, receiver, cipher):
    """The first eight bytes of the CBC-MAC."""
    text = vector + bytes((0x81, sender, receiver, len(cipher) % 256)) + cipher
    text += bytes(-len(text) % 16)
    block = bytes(16)
    for place in range(0, len(text), 16):
        block = enciphered(key, bytes(x ^ y for x, y in zip(block, text[place:place + 16])))
    return block[:8]


@lru_cache(maxsize=4096)
def unsealed(network, nonce, sender, receiver, text):
    """The text that a Security message opens to for a nonce of the receiver, or None."""
    if len(text) < 20:
        return None
    vector = text[2:10] + nonce
    cipher = text[10:-9]
    if code_of(enciphered(network, b"\x55" * 16), vector, sender, receiver, cipher) != text[-8:]:
        return None
    plain = streamed(enciphered(network, b"\xAA" * 16), vector, cipher)
    return plain[1:] if plain[:1] == b"\0" else None
