"""Strings, good and bad, for the cases of reading and localizing: what a string spells is seen by the names that it is equal to, and by the member that
it names in a localized card."""
import store  # which finds the second implementation

from reading import Reader, Refused
from rulings import RULINGS

# code points on both sides of each boundary, and one inside
BOUNDARY = [
    0x00, 0x1F, 0x20, 0x21, 0x22, 0x23, 0x2F, 0x5B, 0x5C, 0x5D, 0x61, 0x7E, 0x7F, 0x80, 0xE9, 0x7FF, 0x800, 0x20AC, 0x2028, 0xD7FF, 0xD800,
    0xDBFF, 0xDC00,
    0xDFFF, 0xE000, 0xFDCF, 0xFDD0, 0xFDD1, 0xFDEE, 0xFDEF, 0xFDF0, 0xFEFF, 0xFFFD, 0xFFFE, 0xFFFF, 0x10000, 0x10001, 0x1F600, 0x10FFFD,
    0x10FFFE, 0x10FFFF,
    0x110000] + [plane * 0x10000 + low for plane in range(1, 17) for low in (0xFDD0, 0xFFFD, 0xFFFE, 0xFFFF)]


def raw(code):
    """The bytes that the scheme of UTF-8 gives a number, allowed or not."""
    if code < 0x80:
        return bytes([code])
    if code < 0x800:
        return bytes([0xC0 + code // 64, 0x80 + code % 64])
    if code < 0x10000:
        return bytes([0xE0 + code // 4096, 0x80 + code // 64 % 64, 0x80 + code % 64])
    return bytes([0xF0 + code // 262144, 0x80 + code // 4096 % 64, 0x80 + code // 64 % 64, 0x80 + code % 64])


def escaped(code):
    """One escape, or two for a number above FFFF (of which 110000 has none)."""
    if code < 0x10000:
        return b"\\u%04X" % code
    return b"\\u%04x\\u%04X" % (0xD800 + (code - 0x10000) // 1024, 0xDC00 + code % 1024)


def ill_formed():
    """Every kind of sequence that is no UTF-8: by lead byte and second byte (Table 3-7 of Unicode), overlong, too long, cut, stray."""
    for lead in (0xC0, 0xC1, 0xC2, 0xDF, 0xE0, 0xE1, 0xEC, 0xED, 0xEE, 0xEF, 0xF0, 0xF1, 0xF3, 0xF4, 0xF5, 0xF7, 0xF8, 0xFB, 0xFC, 0xFD, 0xFE, 0xFF):
        for second in (0x22, 0x5C, 0x7F, 0x80, 0x8F, 0x90, 0x9F, 0xA0, 0xBF, 0xC0, 0xFF):
            for rest in (b"", b"\x80", b"\x80\x80", b"\xbf\xbf\xbf"):
                yield bytes([lead, second]) + rest
        yield bytes([lead])
    for stray in (b"\x80", b"\xbf", b"\x80\x80", b"a\x80", b"\xc3\xa9\x80", b"\xe2\x82\xac\x80", b"\xf0\x9f\x98\x80\x80"):
        yield stray
    for cut in (b"\xe2\x82", b"\xe2\x82\xe2\x82\xac", b"\xf0\x9f", b"\xf0\x9f\x98", b"\xf0\x9f\x98a", b"\xe2\x82\x01", b"\xe2\x82\\n",
        b"\xf0\x9f\x98\xc3\xa9"):
        yield cut


def damaged(inner):
    """A string cut at each byte, open and closed, and with each byte replaced."""
    for cut in range(len(inner) + 1):
        yield b'"' + inner[:cut]
        yield b'"' + inner[:cut] + b'"'
    for at in range(len(inner)):
        for other in b'\x00\x1f"/0:@AGag\\u\x7f\x80\xbf\xc2\xff':
            yield b'"' + inner[:at] + bytes([other]) + inner[at + 1:] + b'"'


SPELLED = [
    b"", b"a", rb"\u0061", b"ab", rb"a\u0062", b"b", b"uid", rb"\u0075id", rb"u\u0069\u0064", b"Uid", b"ui", b"uidx", rb"\/", b"/",
    rb"\\", rb"\u005c", rb'\"',
    rb"\u0022", rb"\b", rb"\u0008", rb"\f", rb"\n", rb"\u000a", rb"\r", rb"\t", rb"\u0000", rb"a\u0000", b"\x7f", rb"\u007f",
    rb"\u0080", b"\xc2\x80", b"\xc3\xa9",
    rb"\u00E9", rb"\u00e9", b"\xe2\x82\xac", rb"\u20AC", b"\xef\xbf\xae", rb"\uffee", b"\xf0\x9f\x98\x80", rb"\uD83D\uDE00",
    rb"\ud83d\ude00", b"\xee\x80\x80"]


def texts():
    for byte in range(256):
        yield b'"' + bytes([byte]) + b'"'
        yield b'"\\' + bytes([byte]) + b'"'
        yield b'"\\u00' + bytes([byte]) + b'1"'
    for code in BOUNDARY:
        for form in (raw(code), escaped(code), escaped(code).lower()):
            yield b'"' + form + b'"'
            yield b'"x' + form + b'y"'
            yield b'"' + form
        if code in (0x7F, 0x80, 0x7FF, 0x800, 0xD7FF, 0xE000, 0xFDCF, 0xFFFD, 0x10000, 0x1F600, 0x10FFFD):
            yield from damaged(raw(code))
            yield from damaged(escaped(code))
    for high in (0xD7FF, 0xD800, 0xD83D, 0xDBFF, 0xDC00, 0xDFFF, 0xE000):
        for low in (0xD7FF, 0xD800, 0xDBFF, 0xDC00, 0xDE00, 0xDFFE, 0xDFFF, 0xE000):
            yield b'"\\u%04X\\u%04x"' % (high, low)
    for bad in ill_formed():
        yield b'"' + bad + b'"'
        yield b'"' + bad
    yield from damaged(b'a\\"b\\\\\\/\\n')
    for second in (b'"', b'"\\uD800"', b'"\xc3"', b'"\n"', b'"a'):
        yield b'"a"' + second
    for case in RULINGS:
        if case["text"].startswith(b'"'):
            yield case["text"]


def good():
    """Those texts that are one string, which a key may be."""
    for text in dict.fromkeys(texts()):
        reader = Reader(text)
        try:
            reader.string()
        except Refused:
            continue
        if reader.at == len(text):
            yield text
