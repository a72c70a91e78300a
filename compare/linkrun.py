"""What the program linkrun prints, worked out from document 01 alone: no code of the library is used.
usage: linkrun.py cases | answers        cases for crates/linkrun_replay, and what it has to answer
       linkrun.py PROGRAM                runs PROGRAM on files of every length from 0 to 257, and compares"""
import subprocess, sys, zlib
from report import page

HEAD = "seq\tagain\tdelays\tfolds\n"


def checksum(octets):
    """RFC 1071 of an even or odd number of octets."""
    padded = octets + bytes(len(octets) % 2)
    total = sum(int.from_bytes(padded[i:i + 2], "big") for i in range(0, len(padded), 2))
    while total > 0xFFFF:
        total = (total & 0xFFFF) + (total >> 16)
    return total ^ 0xFFFF


def datagram(number, payload):
    """Data: number, kind 1, flags 0, length, checksum with its own field counted as 0, payload."""
    head = number.to_bytes(4, "big") + bytes([1, 0]) + len(payload).to_bytes(2, "big")
    return head + checksum(head + b"\0\0" + payload).to_bytes(2, "big") + payload


def events(file):
    """Nothing is lost on the line, so each byte is sent once, in order, and its one copy takes the base delay."""
    return [(n, 0, 1, 5, 0, sum(datagram(n, bytes([b]))) % 65536, 0) for n, b in enumerate(file)]


def text(file):
    if len(file) > 256:
        return "long\n"
    return HEAD + "".join(f"{n}\t{again}\t{delay}\t{fold}\n" for n, again, _, delay, _, fold, _ in events(file))


def made(length, first, step):
    return bytes((first + i * step) % 256 for i in range(length))


def lists():
    """Every length, 256 with every value of a byte; the lengths at the edges with others."""
    for length in range(258):
        yield length, length * 5 % 256, 1
    for length in (1, 2, 255, 256, 257):
        for first, step in ((0, 0), (255, 0), (65, 0), (0, 255), (128, 3)):
            yield length, first, step


def files():
    return [made(*case) for case in lists()] + [b"Pindrelo", bytes(258)]


def reported():
    """Files whose runs' pages are printed."""
    return [b"A", b"\xffA", b"Pindrelo"]


def main(what):
    if what == "cases":
        print("# Files for linkrun; made by compare/linkrun.py.")
        for file in files():
            print("f x" + file.hex())
        for file in reported():
            print("p x" + file.hex())
    elif what == "answers":
        for file in files():
            t = text(file).encode()
            print("f", len(t), f"crc32 {zlib.crc32(t):08x}" + (" 1 ended" if 1 <= len(file) <= 256 else ""))
        for file in reported():
            t = page(events(file))
            print("p", len(t), f"crc32 {zlib.crc32(t.encode()):08x}\n{t}")
    else:
        for file in files():
            said = subprocess.run([what], input=file, capture_output=True, check=True).stdout
            if said != text(file).encode():
                sys.exit(f"linkrun: {what} differs on {file.hex() or 'no bytes'}")
        lengths = {len(file) for file in files()}
        print(f"linkrun: {len(files())} files, {len(lengths)} lengths from {min(lengths)} to {max(lengths)}, no difference")


main(sys.argv[1])
