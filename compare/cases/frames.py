# Blocks and frames as the specification has them, with a field arithmetic of its own: what the scripts of this folder and the cases of
# crates/party_cases are worked out with. Nothing here is taken from the Rattle code.
import hashlib


# ---- blocks

def product(a, b):
    p = 0
    while b:
        if b & 1:
            p ^= a
        a = a << 1 ^ (0x11b if a & 128 else 0)
        b >>= 1
    return p


class Code:
    """The blocks of values for n servers, any k of which rebuild a value."""
    def __init__(self, n, k):
        self.n, self.k, self.servers = n, k, range(1, n + 1)

    def blocks(self, value):
        width = -(-len(value) // self.k)
        padded = value + bytes(self.k * width - len(value))

        def byte(r, j):
            result = 0
            for coefficient in reversed(padded[r * self.k:(r + 1) * self.k]):
                result = product(result, j) ^ coefficient
            return result

        return [bytes(byte(r, j) for r in range(width)) for j in self.servers]

    def entry(self, value, j):
        """The digest list of a value, and server j's block."""
        return entry_of(self.blocks(value), j)


def entry_of(row, j):
    """The digest list of a row of blocks, of a value or of none, and block j."""
    return b''.join(hashlib.sha256(b).digest() for b in row) + row[j - 1]


# what is used where nothing else is said: values of three bytes for n = 4, k = 2
SMALL = Code(4, 2)
SERVERS, blocks, entry = SMALL.servers, SMALL.blocks, SMALL.entry
assert [b.hex() for b in blocks(bytes([1, 2, 3]))] == ['0303', '0503', '0703', '0903']


# ---- frames: the one place here that knows their bytes

def framed(rest):
    return len(rest).to_bytes(2, 'big') + rest


def frame(kind, client, sequence, body=b'', version=1):
    return framed(bytes([version, kind, client]) + sequence.to_bytes(4, 'big') + body)


def time(t):
    return t.to_bytes(8, 'big')


def get_stamp(c, q): return frame(1, c, q)
def stamp(c, q, t): return frame(2, c, q, time(t))
def block(stage, c, q, t, value, j, code=SMALL): return block_of(stage, c, q, t, code.blocks(value), j)
def block_of(stage, c, q, t, row, j): return frame(3 + stage, c, q, time(t) + entry_of(row, j))
def ack(c, q): return frame(9, c, q)
def read(c, q): return frame(10, c, q)
def complete(c, q): return frame(12, c, q)
def report(c, q, t): return frame(13, c, q, time(t))


def value(c, q, t, writer, sequence, v, j):
    return value_of(c, q, t, writer, sequence, blocks(v), j)


def value_of(c, q, t, writer, sequence, row, j):
    """A value whose digest list is that of a row of blocks, of a value or of none."""
    return frame(11, c, q, time(t) + bytes([writer]) + sequence.to_bytes(4, 'big') + entry_of(row, j))


assert get_stamp(2, 5).hex() == '000701010200000005'
SEND, ECHO, READY = 0, 1, 2
RETIRED = (6, 7, 8)
