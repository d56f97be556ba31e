"""Frames for the tests, closed with zlib's CRC-32: a source of its own for the check sequence."""
import zlib

STATION = bytes.fromhex('020000000001')
OTHER = bytes.fromhex('020000000002')
REVERSED = bytes.fromhex('010000000002')
BROADCAST = b'\xff' * 6
NEARLY_BROADCAST = bytes.fromhex('fffffffffffe')
GROUP = bytes.fromhex('0180c2000001')


def closed(message):
    """The message with its check sequence, the least significant byte first."""
    return message + zlib.crc32(message).to_bytes(4, 'little')


def frame(length, destination=STATION):
    """A frame of this length in all, with a right check sequence."""
    filling = bytes((i * 37 + length) % 256 for i in range(length))
    return closed((destination + filling)[:length - 4])


def register(data):
    """The 802.3 check register over these bytes, x^31 as its highest bit: all ones at first, not complemented."""
    coefficients = 0xffffffff
    for byte in data:
        for k in range(8):
            out = coefficients >> 31
            coefficients = coefficients << 1 & 0xffffffff
            if out != byte >> k & 1:
                coefficients ^= 0x04c11db7
    return coefficients


def hash_index(destination):
    """The coefficients of x^31 to x^26, x^31 first: from 32 on a bit of the high hash register, under it one of the low."""
    return register(destination) >> 26


def flipped(data, bit):
    """One bit changed, counted as the bits are sent."""
    changed = bytearray(data)
    changed[bit // 8] ^= 1 << bit % 8
    return bytes(changed)
