"""A block device that the guest reads over a socket: bytes, and the sectors that were written over them since. A crash
image is set by the host, and what a mount writes is dropped with the next one. The protocol is NBD, as far as QEMU
speaks it."""
import socket, struct, threading

SECTOR = 512
OPTION, REPLY, REQUEST, ANSWER = 0x49484156454F5054, 0x3E889045565A9, 0x25609513, 0x67446698
NAMED, ABORT, GO = 1, 2, 7
ACK, INFO, UNKNOWN = 1, 3, 0x80000001
READ, WRITE, CLOSE = 0, 1, 2
# flags of the device: it has flags, and takes flushes, trims and zeroes
FLAGS = 1 | 4 | 32 | 64


class Images:
    """The device. Where `base` is shorter than the device, the rest is zeros."""
    def __init__(self, size, path):
        self.size, self.base, self.over, self.path = size, bytearray(), {}, path
        self.listening = socket.socket(socket.AF_UNIX)
        self.listening.bind(path)
        self.listening.listen(2)
        threading.Thread(target=self.serve, daemon=True).start()

    def address(self):
        return f"nbd:unix:{self.path}"

    def put(self, base, over):
        """Sets the image: these bytes, and these sectors over them."""
        self.base, self.over = base, dict(over)

    def read(self, at, length):
        data = bytearray(self.base[at:at + length].ljust(length, b"\0"))
        first, last = at // SECTOR, (at + length) // SECTOR
        if len(self.over) < last - first:
            found = [number for number in self.over if first <= number < last]
        else:
            found = [number for number in range(first, last) if number in self.over]
        for number in found:
            data[number * SECTOR - at:(number + 1) * SECTOR - at] = self.over[number]
        return bytes(data)

    def write(self, at, data):
        for offset in range(0, len(data), SECTOR):
            self.over[(at + offset) // SECTOR] = data[offset:offset + SECTOR]

    # ---- the protocol

    def serve(self):
        while True:
            try:
                peer, _ = self.listening.accept()
            except OSError:
                return
            try:
                if self.greet(peer):
                    self.answer_requests(peer)
            except (OSError, EOFError):
                pass
            peer.close()

    def greet(self, peer):
        """Agrees with QEMU on the device. Whether requests follow."""
        peer.sendall(b"NBDMAGICIHAVEOPT" + struct.pack(">H", 3))
        taken(peer, 4)
        while True:
            _, option, length = struct.unpack(">QII", taken(peer, 16))
            taken(peer, length)
            if option == NAMED:
                peer.sendall(struct.pack(">QH", self.size, FLAGS))
                return True
            if option == GO:
                device = struct.pack(">HQH", 0, self.size, FLAGS)
                peer.sendall(struct.pack(">QIII", REPLY, option, INFO, len(device)) + device +
                             struct.pack(">QIII", REPLY, option, ACK, 0))
                return True
            peer.sendall(struct.pack(">QIII", REPLY, option, ACK if option == ABORT else UNKNOWN, 0))
            if option == ABORT:
                return False

    def answer_requests(self, peer):
        while True:
            _, _, kind, cookie, at, length = struct.unpack(">IHHQQI", taken(peer, 28))
            if kind == CLOSE:
                return
            data = b""
            if kind == READ:
                data = self.read(at, length)
            elif kind == WRITE:
                self.write(at, taken(peer, length))
            peer.sendall(struct.pack(">IIQ", ANSWER, 0, cookie) + data)

    def close(self):
        self.listening.close()


def taken(peer, length):
    """Exactly so many bytes of a connection."""
    data = b""
    while len(data) < length:
        more = peer.recv(length - len(data))
        if not more:
            raise EOFError
        data += more
    return data
