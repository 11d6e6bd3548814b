"""A network of its own for a process, so that nothing else can have its ports. As root, where that is allowed."""
import ctypes
import fcntl
import os
import socket
import struct

# What Linux calls a network of its own, and what reads and writes the flags of an interface and says that it is up.
CLONE_NEWNET, SIOCGIFFLAGS, SIOCSIFFLAGS, IFF_UP = 0x40000000, 0x8913, 0x8914, 1


def take():
    """Takes a network of its own, with 127.0.0.1 and nothing else. OSError if that isn't allowed."""
    if ctypes.CDLL(None).unshare(CLONE_NEWNET) != 0:
        raise OSError
    with socket.socket(socket.AF_INET, socket.SOCK_DGRAM) as it:
        name, flags = struct.unpack("16sh", fcntl.ioctl(it, SIOCGIFFLAGS, struct.pack("16sh", b"lo", 0)))
        fcntl.ioctl(it, SIOCSIFFLAGS, struct.pack("16sh", name, flags | IFF_UP))
    with socket.create_server(("127.0.0.1", 0)) as it, socket.create_connection(it.getsockname(), 10):
        pass


def may_be_taken():
    """Whether that is allowed here, which a process of its own tries."""
    child = os.fork()
    if child:
        return os.waitpid(child, 0)[1] == 0
    try:
        take()
    except OSError:
        os._exit(1)
    os._exit(0)
