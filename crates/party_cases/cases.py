# Writes stdin and stdout of this program: what no script of the hall program provokes at a server, namely 10 for each lent area, and a step with readies,
# values and an ack, with the first bytes of the areas lent for it, those after the frames too; and at a client, 10 for each lent area and 16. Each expected byte is worked out here and in compare/cases/frames.py, none taken from the Rattle
# code. Run it in this folder.
import sys

sys.dont_write_bytecode = True
sys.path.insert(0, '../../compare/cases')
from frames import (ECHO, READY, SEND, SERVERS, ack, block, blocks, entry, frame, get_stamp, read, stamp, value)  # noqa: E402

ME, AREA, INITIAL, OUT, TO = 2, 97344, 2, 172 * 152, 2 * 172
SHOWN_OUT, SHOWN_TO = 3000, 64
LENT = bytes([0x5a])
FIRST, SECOND, THIRD = bytes([1, 2, 3]), bytes([10, 11, 12]), bytes([7, 8, 9])
lines, answers = [], []


def comment(text):
    lines.append('# ' + text)
    answers.append('# ' + text)


def case(kind, shown, arguments, result):
    lines.append(' '.join([kind] + [str(x) for x in arguments] + [result]))
    answers.append(f'{shown} {result} ok')


def client(j):
    return (0, j)


def server(j):
    return (1, j)


def report(c, q, time):
    return frame(13, c, q, time.to_bytes(8, 'big'))


def to_all(f):
    return [(server(j), f) for j in SERVERS]


def fresh(number, area=AREA, initial=INITIAL):
    result = f'{number:02x}' if number else '00' + entry(FIRST, ME)[:128].hex() + blocks(FIRST)[ME - 1].hex()[:2]
    case('fresh', 'fresh', [4, 1, 2, 3, ME, area, initial, FIRST.hex()], result)


def deliver(sender, f, sent, area=AREA, initial=INITIAL, out=OUT, to=TO, kind='deliver'):
    if isinstance(sent, int):
        result = f'{sent:02x}'
    else:
        frames, receivers = b''.join(g for _, g in sent), b''.join(bytes(p) for p, _ in sent)
        if kind == 'whole':  # the first bytes of the two areas: what no frame was written to is as lent
            frames, receivers = frames + LENT * (SHOWN_OUT - len(frames)), receivers + LENT * (SHOWN_TO - len(receivers))
        result = '00' + f'{len(sent):02x}' + frames.hex() + receivers.hex()
    case(kind, 'deliver', [*sender, area, initial, out, to, f.hex()], result)


comment('10: the constructor, and a get-stamp, with an area that is short by one byte')
fresh(10, area=AREA - 1)
fresh(10, initial=INITIAL - 1)
fresh(0)
asked = get_stamp(1, 5)
deliver(client(1), asked, 10, area=AREA - 1)
deliver(client(1), asked, 10, initial=INITIAL - 1)
deliver(client(1), asked, 10, out=OUT - 1)
deliver(client(1), asked, 10, to=TO - 1)
deliver(client(1), asked, [(client(1), stamp(1, 5, 0))], kind='whole')

comment('Clients 8, 5 and 4 listen; client 1 writes, and waits for a second report of its time; then client 3 listens')
for c in (8, 5, 4):
    deliver(client(c), read(c, 1), [(client(c), value(c, 1, 0, 0, 0, FIRST, ME))])
deliver(server(1), block(READY, 1, 1, 5, SECOND, 1), [])
deliver(server(3), block(READY, 1, 1, 5, SECOND, 3), to_all(block(READY, 1, 1, 5, SECOND, ME)))
deliver(server(4), report(2, 1, 5), [])
deliver(server(4), report(2, 1, 5), 12)
deliver(client(4), report(2, 1, 9), 11)
deliver(server(4), block(READY, 1, 1, 5, SECOND, 4), [])
deliver(server(3), report(2, 1, 7), [(client(c), value(c, 1, 6, 1, 1, SECOND, ME)) for c in (4, 5, 8)] + [(client(1), ack(1, 1))]
        + to_all(report(1, 1, 6)) + [(client(c), report(1, 1, 6)) for c in range(1, 9)])
deliver(client(3), read(3, 1), [(client(3), value(3, 1, 6, 1, 1, SECOND, ME))])

# Request F-1. In a run the own ready goes out before a write can be complete, so the record is lent with that ready not sent. The stamp of client 2's
# write, 5 2 1, is below the present one, so its time is vouched and does not grow, and above those noted for clients 4, 5 and 8, whose reads began before; client 3 has noted the present one.
comment('All that one step can send, in order: readies, values by rising client number, the ack; and the bytes after them')
deliver(client(2), block(SEND, 2, 1, 4, THIRD, ME), to_all(block(ECHO, 2, 1, 4, THIRD, ME)))
deliver(server(4), block(READY, 2, 1, 4, THIRD, 4), [])
deliver(server(1), block(READY, 2, 1, 4, THIRD, 1), to_all(block(READY, 2, 1, 4, THIRD, ME)))
lines.append('unready 2')
answers.append('unready 2')
deliver(server(3), block(READY, 2, 1, 4, THIRD, 3), to_all(block(READY, 2, 1, 4, THIRD, ME))
        + [(client(c), value(c, 1, 5, 2, 1, THIRD, ME)) for c in (4, 5, 8)]
        + [(client(2), ack(2, 1))], kind='whole')

# A client: each call with each area short by one byte, then as it should be; reads and writes after and at the last sequence. To all is four frames.
CALLS = (('read', ('out', 'to'), 4), ('write', ('out', 'to'), 4), ('stamp', ('rows', 'result', 'out', 'to'), 0))
for call, areas, sent in CALLS:
    answers += [f'{call}, {area} short by one byte: refused 10' for area in areas] + [f'{call}: sent {sent}']
LAST = 2**32 - 1
answers += [f'{call} after {LAST}: refused 16' for call in ('read', 'write')] + [f'{call} {LAST}: sent 4' for call in ('read', 'write')]

for name, content in (('stdin', lines), ('stdout', answers)):
    with open(name, 'w') as file:
        file.write(''.join(line + '\n' for line in content))
