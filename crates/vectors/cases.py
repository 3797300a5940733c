# Writes stdin and stdout of this program: cases with the results that the standard library's SHA-256 and the plain algorithms below give, none of them
# taken from the Rattle code. Run it in this folder.
import hashlib
import itertools

lines, answers = [], []


def comment(text):
    lines.append('# ' + text)
    answers.append('# ' + text)


def case(kind, arguments, result, expected=None):
    told = expected or result
    lines.append(' '.join([kind] + arguments + [told]))
    answers.append(f'{kind} {result} {"ok" if told == result else "differs"}')


def text(data):
    return data.hex() or '-'


# ---- SHA-256

def digest(message):
    case('digest', [text(message)], hashlib.sha256(message).hexdigest())


comment('SHA-256: the examples of FIPS 180-4, then other lengths')
for message in (b'abc', b'abcdbcdecdefdefgefghfghighijhijkijkljklmklmnlmnomnopnopq', b''):
    digest(message)
for length in (0, 1, 32, 55, 56, 63, 64, 65, 119, 120, 127, 128, 183, 184, 192, 247, 248, 255, 256):
    digest(bytes(range(length)))
for length in (64, 256):
    digest(bytes([255]) * length)


# ---- the byte field

def mul(a, b):
    product = 0
    while b:
        if b & 1:
            product ^= a
        a <<= 1
        if a & 256:
            a ^= 0x11b
        b >>= 1
    return product


# by one product after the other: no table, no halving of the exponent
def power(a, exponent):
    result = 1
    for _ in range(exponent):
        result = mul(result, a)
    return result


comment('The byte field: the products of FIPS 197, then others')
assert (mul(0x57, 0x83), mul(0x57, 0x13)) == (0xc1, 0xfe)
for a, b in ((0x57, 0x83), (0x57, 0x13), (0x57, 0x02), (0x57, 0x04), (0x57, 0x08), (0x57, 0x10), (0, 0x83), (0x83, 0), (0xff, 0xff), (1, 0xa5), (3, 0xf6)):
    case('product', [f'{a:02x}', f'{b:02x}'], f'{mul(a, b):02x}')

comment('The inverse of each of the 256 bytes, 00 too: its 254th power')
for a in range(256):
    assert mul(a, power(a, 254)) == (1 if a else 0)
    case('inverse', [f'{a:02x}'], f'{power(a, 254):02x}')


# ---- the block code: the answer's number (00: not turned down) and every byte of the lent area, whose bytes are ee before the call

def block_length(k, length):
    return -(-length // k)


def blocks(n, k, value):
    size = block_length(k, len(value))
    padded = value + bytes(k * size - len(value))

    def at(point, coefficients):
        result = 0
        for c in reversed(coefficients):
            result = mul(result, point) ^ c
        return result

    return [bytes(at(j, padded[r * k:r * k + k]) for r in range(size)) for j in range(1, n + 1)]


def parameters(n, t, k, length):
    if not (4 <= n <= 10 and t >= 1 and n > 3 * t):
        return 1
    if not 1 <= k <= n - 2 * t:
        return 2
    return 0 if 1 <= length <= 256 else 3


def answer(number, room, result):
    area = b'' if number else result
    return f'{number:02x} ' + (area + bytes([0xee]) * (room - len(area))).hex()


def encode(n, t, k, length, room, value):
    number = parameters(n, t, k, length)
    if not number and len(value) != length:
        number = 3
    if not number and n * block_length(k, length) > room:
        number = 10
    result = b'' if number else b''.join(blocks(n, k, value))
    case('encode', [str(x) for x in (n, t, k, length, room)] + [text(value)], answer(number, room, result))


def candidate(k, length, numbers, lent):
    """The value that the first k blocks give, by Lagrange's polynomials."""
    size = block_length(k, length)
    value = bytearray()
    for r in range(size):
        stripe = [0] * k
        for i in range(k):
            polynomial, scale = [1], 1
            for j in (j for j in range(k) if j != i):
                polynomial = [mul(a, numbers[j]) ^ b for a, b in zip(polynomial + [0], [0] + polynomial)]
                scale = mul(scale, numbers[i] ^ numbers[j])
            factor = mul(lent[i * size + r], power(scale, 254))
            stripe = [a ^ mul(factor, b) for a, b in zip(stripe, polynomial)]
        value += bytes(stripe)
    return bytes(value[:length])


def decode(n, t, k, length, room, numbers, lent, value=b''):
    number = parameters(n, t, k, length)
    m = len(numbers)
    if not number and (not k <= m <= n or len(lent) != m * block_length(k, length) or len(set(numbers)) != m or not all(1 <= j <= n for j in numbers)):
        number = 9
    if not number and length > room:
        number = 10
    if not number:
        given = candidate(k, length, numbers, lent)
        number = 0 if group(n, k, given, numbers) == lent else 21
        assert number or given == value
    case('decode', [str(x) for x in (n, t, k, length, room)] + [text(bytes(numbers)), text(lent)], answer(number, room, value))


def group(n, k, value, numbers):
    made = blocks(n, k, value)
    return b''.join(made[j - 1] for j in numbers)


comment("Document 01's blocks, and the value from each pair of them, in both orders")
value = bytes([1, 2, 3])
assert [b.hex() for b in blocks(4, 2, value)] == ['0303', '0503', '0703', '0903']
encode(4, 1, 2, 3, 8, value)
encode(4, 1, 2, 3, 11, value)
for numbers in itertools.permutations(range(1, 5), 2):
    decode(4, 1, 2, 3, 3, numbers, group(4, 2, value, numbers), value)
decode(4, 1, 2, 3, 5, (4, 2), group(4, 2, value, (4, 2)), value)

comment('Other parameters: encoded, and decoded from several groups')
for n, t, k, length, groups in (
    (4, 1, 1, 1, [(1,), (4,)]),
    (4, 1, 1, 5, [(3,)]),
    (4, 1, 2, 1, [(1, 4)]),
    (5, 1, 3, 7, [(1, 2, 3), (5, 3, 1), (2, 4, 5)]),
    (7, 2, 3, 64, [(1, 2, 3), (7, 5, 6), (4, 1, 7)]),
    (7, 1, 5, 33, [(1, 2, 3, 4, 5), (7, 6, 5, 4, 3)]),
    (10, 3, 4, 256, [(1, 2, 3, 4), (10, 9, 8, 7), (2, 5, 7, 10)]),
    (10, 3, 3, 256, [(8, 1, 10)]),
    (10, 3, 2, 255, [(9, 4)]),
    (10, 3, 1, 256, [(10,)]),
    (10, 1, 8, 256, [(3, 4, 5, 6, 7, 8, 9, 10)]),
):
    value = hashlib.shake_128(f'{n} {k} {length}'.encode()).digest(length)
    encode(n, t, k, length, n * block_length(k, length), value)
    for numbers in groups:
        decode(n, t, k, length, length, numbers, group(n, k, value, numbers), value)

comment('Calls of encode that are turned down, the lowest number first')
value = bytes([1, 2, 3])
for n, t, k, length, room in (
    (6, 2, 1, 3, 18), (3, 1, 1, 3, 9), (11, 1, 1, 3, 33), (4, 0, 1, 3, 12), (4, 1, 3, 3, 4), (4, 1, 0, 3, 4), (4, 1, 2, 257, 8), (4, 1, 2, 0, 8), (4, 1, 2, 4, 8),
    (4, 1, 2, 2, 8), (4, 1, 2, 3, 7), (4, 1, 2, 3, 0), (6, 2, 9, 0, 0), (4, 1, 3, 300, 0), (4, 1, 2, 300, 0),
):
    encode(n, t, k, length, room, value)

comment('Calls of decode that are turned down')
lent = bytes.fromhex('03030503')
for n, t, k, length, room, numbers, these in (
    (6, 2, 1, 3, 3, (1,), lent[:3]), (4, 1, 3, 3, 3, (1, 2, 3), lent[:3]), (4, 1, 2, 257, 3, (1, 2), lent), (4, 1, 2, 0, 3, (1, 2), lent), (4, 1, 2, 3, 3, (1,), lent),
    (4, 1, 2, 3, 3, (1, 2, 3), lent), (4, 1, 2, 3, 3, (1, 2), lent[:3]), (4, 1, 2, 3, 3, (1, 2), lent + bytes(1)), (4, 1, 2, 3, 3, (2, 2), lent),
    (4, 1, 2, 3, 3, (0, 2), lent), (4, 1, 2, 3, 3, (1, 5), lent), (4, 1, 2, 3, 2, (1, 2), lent), (4, 1, 2, 3, 0, (2, 2), lent), (6, 2, 3, 0, 0, (2, 2), lent),
):
    decode(n, t, k, length, room, numbers, these)

comment('Decoding looks at every block: more than k blocks in any order, a foreign block at each place, padding that is not zero, and 9 and 10 before 21')
value = bytes([1, 2, 3])
for numbers in ((1, 2, 3), (4, 1, 3), (4, 3, 2, 1), (1, 2, 3, 4)):
    decode(4, 1, 2, 3, 4, numbers, group(4, 2, value, numbers), value)
for place in range(6):
    foreign = bytearray(group(4, 2, value, (1, 2, 3)))
    foreign[place] ^= 0x0f
    decode(4, 1, 2, 3, 4, (1, 2, 3), bytes(foreign))
decode(4, 1, 2, 3, 3, (1, 2), bytes.fromhex('03030504'))
decode(4, 1, 2, 4, 4, (1, 2), bytes.fromhex('03030504'), candidate(2, 4, (1, 2), bytes.fromhex('03030504')))
foreign = bytes.fromhex('030305030803')
for length, room, numbers, these in ((3, 2, (1, 2, 3), foreign), (3, 3, (1, 2, 2), foreign), (3, 3, (1, 2, 3, 4, 4), foreign + foreign[:4]), (3, 3, (1, 2, 3), foreign[:4])):
    decode(4, 1, 2, length, room, numbers, these)
for n, t, k, length, numbers in ((7, 2, 3, 64, (7, 1, 6, 2, 5, 3, 4)), (10, 3, 4, 256, range(1, 11)), (10, 1, 8, 256, (10, 2, 3, 4, 5, 6, 7, 8, 9))):
    value = hashlib.shake_128(f'all {n} {k} {length}'.encode()).digest(length)
    numbers = tuple(numbers)
    these = group(n, k, value, numbers)
    decode(n, t, k, length, length, numbers, these, value)
    decode(n, t, k, length, length, numbers, these[:-1] + bytes([these[-1] ^ 1]))
    decode(n, t, k, length, length, numbers, bytes([these[0] ^ 0x80]) + these[1:])


# ---- frames

def body_length(n, k, length, kind):
    entry = 32 * n + block_length(k, length)
    return {2: 8, 3: 8 + entry, 4: 8 + entry, 5: 8 + entry, 11: 13 + entry, 13: 8}.get(kind, 0)


# request F-4: "Kinds 6, 7 and 8 are retired and get 6"
retired = (6, 7, 8)


def opened(n, t, k, length, frame):
    number = parameters(n, t, k, length)
    if number:
        return f'{number:02x}'
    if len(frame) < 9 or int.from_bytes(frame[:2], 'big') != len(frame) - 2:
        return '04'
    version, kind, client, sequence = frame[2], frame[3], frame[4], int.from_bytes(frame[5:9], 'big')
    if version != 1:
        return '05'
    if not 1 <= kind <= 13 or kind in retired:
        return '06'
    if not 1 <= client <= 8 or sequence == 0:
        return '07'
    if len(frame) - 9 != body_length(n, k, length, kind):
        return '08'
    if kind == 11:
        parts = [int.from_bytes(frame[9:17], 'big'), frame[17], int.from_bytes(frame[18:22], 'big')]
        if len({part == 0 for part in parts}) != 1 or parts[1] > 8:
            return '09'
    return '00' + frame[3:9].hex()


def opening(n, t, k, length, frame, expected=None):
    result = opened(n, t, k, length, frame)
    assert expected is None or result == expected
    case('open', [str(x) for x in (n, t, k, length)] + [text(frame)], result)


def frame(kind, client, sequence, body=b'', version=1):
    return (7 + len(body)).to_bytes(2, 'big') + bytes([version, kind, client]) + sequence.to_bytes(4, 'big') + body


def filled(size):
    return bytes((i * 7 + 3) % 256 for i in range(size))


def value_body(time, writer, sequence):
    return time.to_bytes(8, 'big') + bytes([writer]) + sequence.to_bytes(4, 'big') + filled(130)


small = (4, 1, 2, 3)
comment("Document 01's examples of refusals 1 to 9 at opening a frame, and its get-stamp frame")
good = bytes.fromhex('000701010200000005')
opening(*small, good, '00010200000005')
opening(6, 2, 1, 3, good, '01')
opening(7, 2, 1, 3, good, '00010200000005')
opening(4, 1, 3, 3, good, '02')
opening(4, 1, 2, 257, good, '03')
for hexadecimal, number in (('000701', '04'), ('000702010200000005', '05'), ('0007010e0200000005', '06'), ('000701010000000005', '07'), ('00080101020000000500', '08')):
    opening(*small, bytes.fromhex(hexadecimal), number)
opening(*small, frame(11, 2, 5, value_body(3, 0, 1)), '09')

comment('Frames of 0 to 12 bytes: cut from a longer one, and with a right length field')
for size in range(13):
    opening(*small, (good + bytes(3))[:size])
    if size >= 2:
        opening(*small, (size - 2).to_bytes(2, 'big') + (good[2:] + bytes(3))[:size - 2])

comment('Every kind with the right body, and one byte shorter and longer; a length field one off; kinds 0, 14 and 255')
for kind in (1, 2, 3, 4, 5, 9, 10, 11, 12, 13):
    right = body_length(4, 2, 3, kind)
    body = value_body(1, 1, 1) if kind == 11 else filled(right)
    assert len(body) == right
    opening(*small, frame(kind, 8, 4294967295, body))
    if right:
        opening(*small, frame(kind, 8, 1, body[:-1]), '08')
    opening(*small, frame(kind, 8, 1, body + bytes(1)), '08')
for change in (-1, 1, 2, 256):
    opening(*small, (7 + change).to_bytes(2, 'big') + good[2:], '04')
for kind in (0, 14, 255):
    opening(*small, frame(kind, 2, 5), '06')

comment('Kinds 3 to 5: any time before a list of 4 digests and a block of 2 bytes; not without a time')
for kind in (3, 4, 5):
    for time in (0, 1, 2**64 - 1):
        opening(*small, frame(kind, 2, 5, time.to_bytes(8, 'big') + filled(130)), f'00{kind:02x}0200000005')
    opening(*small, frame(kind, 2, 5, filled(130)), '08')

comment('Kind 13: any time')
for time in (0, 1, 2**64 - 1):
    opening(*small, frame(13, 2, 5, time.to_bytes(8, 'big')), '000d0200000005')

comment('Retired kinds, with a time, with nothing, with a list and a block, and with both')
for kind in retired:
    for body in (filled(8), b'', filled(130), filled(138)):
        opening(*small, frame(kind, 2, 5, body), '06')
    opening(*small, frame(kind, 0, 0, filled(9)), '06')
    opening(*small, frame(kind, 2, 5, filled(8), 2), '05')

comment('The order of the numbers, and stamps in values')
opening(*small, frame(0, 0, 0, bytes(1), 2), '05')
opening(*small, frame(0, 0, 0, bytes(1)), '06')
opening(*small, frame(2, 9, 5), '07')
opening(*small, frame(2, 2, 0), '07')
opening(*small, frame(11, 2, 5, value_body(3, 0, 1)[:-1]), '08')
for stamp in ((0, 0, 0), (1, 8, 1), (1, 9, 1), (0, 1, 1), (1, 0, 0), (0, 0, 1), (1, 1, 0), (0, 1, 0), (2**64 - 1, 8, 2**32 - 1)):
    opening(*small, frame(11, 2, 5, value_body(*stamp)))


# ---- the comparison itself

comment('Wrong expectations are seen: the next six must differ')
case('digest', ['616263'], hashlib.sha256(b'abc').hexdigest(), hashlib.sha256(b'abd').hexdigest())
case('product', ['57', '83'], 'c1', 'c2')
case('product', ['57', '83'], 'c1', 'c1c1')
case('inverse', ['02'], '8d', '8')
case('inverse', ['02'], '8d', f'{power(2, 253):02x}')
case('encode', ['4', '1', '2', '3', '8', '010203'], '00 0303050307030903', '00 0303050307030904')

with open('stdin', 'w') as file:
    file.write('\n'.join(lines) + '\n')
with open('stdout', 'w') as file:
    file.write('\n'.join(answers) + '\n')
