"""Captures of frames, and what tshark reads in them by examples/scp.lua. Needs Debian's package tshark, 4.0 or later."""
import shutil
import struct
import subprocess

from run import ROOT

# By this port of the program examples/scp.lua knows frames; the other one is the switch's.
PORTS = 14700, 40000
# The fields of each packet, with a form feed after each packet.
FIELDS = ["-V", "-O", "scp,tcap,inap", "-S", "\f"]


def is_there():
    return shutil.which("tshark") is not None


def write_capture(path, segments):
    """Writes segments of one TCP connection as IP packets. A segment is whether the program sent it, and its octets."""
    sent = {False: 1, True: 1}
    with open(path, "wb") as file:
        file.write(struct.pack("<IHHiIII", 0xA1B2C3D4, 2, 4, 0, 0, 65535, 101))
        for is_own, segment in segments:
            ports = PORTS if is_own else PORTS[::-1]
            tcp = struct.pack(">HHIIBBHHH", *ports, sent[is_own], sent[not is_own], 0x50, 0x18, 65535, 0, 0) + segment
            packet = struct.pack(">BBHHHBBH8s", 0x45, 0, 20 + len(tcp), 0, 0, 64, 6, 0, b"\x7f\0\0\1" * 2) + tcp
            file.write(struct.pack("<IIII", 0, 0, len(packet), len(packet)) + packet)
            sent[is_own] += len(segment)


def words_of(path, *words):
    """The command line that has tshark read a capture."""
    return ["tshark", "-X", f"lua_script:{ROOT}/examples/scp.lua", "-r", path, *words]


def read(path, *words):
    """What tshark prints of a capture, and its status."""
    ended = subprocess.run(words_of(path, *words), stdout=subprocess.PIPE, stderr=subprocess.DEVNULL, text=True)
    return ended.stdout, ended.returncode
