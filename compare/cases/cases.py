# Writes the scripts of this folder for the hall program, NAME.in, with what must be answered, NAME.out: single calls at a client and at a server, each
# expected answer worked out here from the specification. Run it in this folder.
from frames import (ECHO, READY, RETIRED, SEND, SERVERS, Code, ack, block, block_of, blocks, complete, entry, frame, get_stamp, read, report, stamp, time,
                    value, value_of)

VALUE, OTHER, THIRD = bytes([1, 2, 3]), bytes([10, 11, 12]), bytes([1, 2, 4])
LAST = 2**64 - 1


# ---- scripts

class Script:
    def __init__(self, name):
        self.name, self.lines, self.answers = name, [], []

    def say(self, line, *answers):
        self.lines.append(line)
        self.answers += answers

    def refused(self, line, number):
        self.say(line, f'refused {number}')

    def step(self, line, sent=(), last=None):
        self.say(line, 'step', *(f'> {to} {f.hex()}' for to, f in sent), *([last] if last else []))

    def write(self):
        for suffix, content in (('in', self.lines), ('out', self.answers)):
            with open(f'{self.name}.{suffix}', 'w') as file:
                file.write(''.join(line + '\n' for line in content))


def to_all(f, servers=SERVERS):
    return [(f's {j}', f(j)) for j in servers]


def reports(c, q, t, servers=SERVERS):
    """The reports of a server whose time grew to t by client c's write q."""
    return [(f's {j}', report(c, q, t)) for j in servers] + [(f'c {i}', report(c, q, t)) for i in range(1, 9)]


def taken(c, q, t, servers=SERVERS):
    """What is sent where client c's write q is accepted without listeners, and the time grows to t."""
    return [(f'c {c}', ack(c, q))] + reports(c, q, t, servers)


def retired(client):
    """Frames of the retired kinds: with the body that they had, with none, with one of kinds 3 to 5, of no client and of sequence 0."""
    for kind in RETIRED:
        for body in (time(5), b'', time(5) + entry(VALUE, 1)):
            yield frame(kind, client, 1, body)
        for c, q in ((0, 1), (9, 1), (client, 0)):
            yield frame(kind, c, q, time(5))
        yield frame(kind, 9, 0, b'\0')


def opened(name):
    s = Script(name)
    s.say('hall 4 1 2 3 010203', 'ready')
    return s


# ---- clients

def bounds():
    s = Script('bounds')
    s.say('C 1 read', 'what?')
    for n, t in ((6, 2), (3, 1), (11, 1), (4, 0)):
        s.refused(f'hall {n} {t} 1 3 010203', 1)
    for k in (0, 3):
        s.refused(f'hall 4 1 {k} 3 010203', 2)
    s.refused('hall 4 1 2 0 -', 3)
    s.refused(f'hall 4 1 2 257 {bytes(257).hex()}', 3)
    s.refused('hall 4 1 2 3 0102', 3)
    s.say('hall 4 1 2 3 010203', 'ready')
    for c in (0, 9, 256):
        s.refused(f'C {c} read', 1)
        s.refused(f'C {c} write 010203', 1)
        s.refused(f'C {c} s 1 {stamp(1, 1, 5).hex()}', 1)
    for j in (0, 5, 256):
        s.refused(f'S {j} c 1 {get_stamp(1, 1).hex()}', 1)
    for v in ('0102', '01020304', '-'):
        s.refused(f'C 1 write {v}', 3)
    s.write()


def busy(s):
    """15, in either operation."""
    s.step('C 1 read', to_all(lambda j: read(1, 1)))
    s.refused('C 1 read', 15)
    s.refused('C 1 write 010203', 15)
    s.step('C 2 write 010203', to_all(lambda j: get_stamp(2, 1)))
    s.refused('C 2 read', 15)
    s.refused('C 2 write 010203', 15)


def turned_down(s):
    """Frames to client 2, whose first write awaits stamps: 4 to 9, 11, 12."""
    def of(f, number, sender='s 1', c=2):
        s.refused(f'C {c} {sender} {f.hex()}', number)

    of(b'\0\7\1', 4)
    of(b'\0\10' + ack(2, 1)[2:], 4)
    of(frame(9, 2, 1, version=2), 5)
    for kind in (0, 14, 255):
        of(frame(kind, 2, 1), 6)
        of(frame(kind, 2, 1, time(5)), 6)
    for f in retired(2):
        of(f, 6)
    of(frame(6, 2, 1, time(5), version=2), 5)
    of(frame(9, 0, 1), 7)
    of(frame(9, 9, 1), 7)
    of(frame(9, 2, 0), 7)
    of(frame(9, 2, 1, b'\0'), 8)
    of(frame(2, 2, 1), 8)
    of(frame(13, 2, 1), 8)
    for t, writer, sequence in ((3, 0, 1), (0, 2, 1), (3, 2, 0), (3, 9, 1)):
        of(value(2, 1, t, writer, sequence, VALUE, 1), 9)
    of(get_stamp(2, 1), 11)
    of(stamp(2, 1, 5), 11, c=3)
    for sender in ('c 2', 's 0', 's 5'):
        of(stamp(2, 1, 5), 11, sender)
        of(report(2, 1, 5), 11, sender)
    of(stamp(2, 2, 5), 12)
    of(report(2, 1, 0), 12)
    of(ack(2, 1), 12)
    of(value(2, 1, 5, 2, 1, VALUE, 1), 12)
    of(stamp(3, 1, 5), 12, c=3)


def writes(s):
    """Client 4 writes twice. A reply counts once two servers have reported its time or more, and the largest that counts is taken."""
    def stamped(j, q, t, sent=()):
        s.step(f'C 4 s {j} {stamp(4, q, t).hex()}', sent)

    def spread(q, t):
        return to_all(lambda j: block(SEND, 4, q, t, VALUE, j))

    s.step('C 4 write 010203', to_all(lambda j: get_stamp(4, 1)))
    stamped(1, 1, 5)
    s.refused(f'C 4 s 1 {stamp(4, 1, 6).hex()}', 12)
    stamped(2, 1, 9)
    stamped(4, 1, 7)
    stamped(3, 1, 8, spread(1, 8))
    s.refused(f'C 4 s 3 {stamp(4, 1, 8).hex()}', 12)
    s.step(f'C 4 s 1 {ack(4, 1).hex()}')
    s.refused(f'C 4 s 1 {ack(4, 1).hex()}', 12)
    s.step(f'C 4 s 3 {ack(4, 1).hex()}')
    s.step(f'C 4 s 4 {ack(4, 1).hex()}', last='written')
    s.refused(f'C 4 s 2 {ack(4, 1).hex()}', 12)
    s.step('C 4 write 010203', to_all(lambda j: get_stamp(4, 2)))
    s.refused(f'C 4 s 3 {stamp(4, 1, 9).hex()}', 12)
    stamped(3, 2, LAST - 1)
    stamped(1, 2, 0)
    stamped(2, 2, 0)
    # a server that has not replied: its report lifts the count past n - t
    s.step(f'C 4 s 4 {report(7, 3, LAST - 2).hex()}')
    s.step(f'C 4 s 4 {report(7, 3, LAST - 1).hex()}', spread(2, LAST - 1))
    s.refused(f'C 4 s 2 {ack(4, 1).hex()}', 12)


def closes(s):
    """Client 5's write closes as out of stamps: 17 from then on, but it reads."""
    s.step('C 5 write 010203', to_all(lambda j: get_stamp(5, 1)))
    s.step(f'C 5 s 2 {stamp(5, 1, 0).hex()}')
    s.step(f'C 5 s 3 {stamp(5, 1, LAST).hex()}')
    s.step(f'C 5 s 4 {stamp(5, 1, 3).hex()}')
    s.step(f'C 5 s 1 {report(5, 1, LAST).hex()}', last='out of stamps')
    s.refused(f'C 5 s 1 {stamp(5, 1, 3).hex()}', 12)
    s.refused('C 5 write 010203', 17)
    s.step(f'C 5 s 4 {report(2, 6, 4).hex()}')
    s.refused(f'C 5 s 4 {report(2, 6, 4).hex()}', 12)
    s.step('C 5 read', to_all(lambda j: read(5, 1)))


def vouched(s):
    """Clients 7 and 8: which reports are kept, also by a client that began nothing, and what counts by them."""
    def told(c, j, t, sent=None, last=None):
        line = f'C {c} s {j} {report(3, 4, t).hex()}'
        s.refused(line, 12) if sent is None else s.step(line, sent, last)

    # equal and lower ones are 12, also where no operation is open; so is 0 from a server that has not reported
    for t, sent in ((0, None), (6, []), (6, None), (5, None), (0, None), (9, []), (8, None)):
        told(7, 1, t, sent)
    # a stamp that is turned down is no report; one that counts is
    s.refused(f'C 7 s 2 {stamp(7, 1, 50).hex()}', 12)
    s.step('C 7 write 010203', to_all(lambda j: get_stamp(7, 1)))
    s.refused(f'C 7 s 2 {stamp(7, 2, 50).hex()}', 12)
    s.step(f'C 7 s 2 {stamp(7, 1, 8).hex()}')
    s.refused(f'C 7 s 2 {stamp(7, 1, 50).hex()}', 12)
    told(7, 2, 8)
    told(7, 2, 49, [])
    # a first reply below the server's report keeps its own time, and leaves the report
    s.step(f'C 7 s 1 {stamp(7, 1, 3).hex()}')
    told(7, 1, 9)
    s.step(f'C 7 s 4 {stamp(7, 1, 60).hex()}')
    # 8 and 3 count, 60 is reported once; a report alone is no reply
    told(7, 3, 59, [])
    told(7, 3, 60, to_all(lambda j: block(SEND, 7, 1, 60, VALUE, j)))
    told(7, 3, 61, [])
    for j in (1, 2):
        s.step(f'C 7 s {j} {ack(7, 1).hex()}')
    s.step(f'C 7 s 3 {ack(7, 1).hex()}', last='written')
    # kept across operations: 60 counts at once where servers 3 and 4 have reported it
    told(7, 4, 61, [])
    s.step('C 7 write 010203', to_all(lambda j: get_stamp(7, 2)))
    s.step(f'C 7 s 1 {stamp(7, 2, 61).hex()}')
    s.step(f'C 7 s 2 {stamp(7, 2, 49).hex()}')
    s.step(f'C 7 s 3 {stamp(7, 2, 0).hex()}', to_all(lambda j: block(SEND, 7, 2, 61, VALUE, j)))
    # an enormous time is left, and the write goes on without it; a time 0 needs no report
    s.step('C 8 write 010203', to_all(lambda j: get_stamp(8, 1)))
    s.step(f'C 8 s 4 {stamp(8, 1, 2**63).hex()}')
    for j in (1, 2):
        s.step(f'C 8 s {j} {stamp(8, 1, 0).hex()}')
    s.step(f'C 8 s 3 {stamp(8, 1, 0).hex()}', to_all(lambda j: block(SEND, 8, 1, 0, VALUE, j)))


def reads(s):
    """Client 6 reads three times: what does not count, two lists of one stamp, and which stamps a row keeps."""
    def got(j, q, t, v=VALUE, sent=(), last=None):
        s.step(f'C 6 s {j} {value(6, q, t, 2 if t else 0, 1 if t else 0, v, j).hex()}', sent, last)

    def ends(j, q, t, v=VALUE):
        got(j, q, t, v, to_all(lambda i: complete(6, q)), f'value {v.hex()} {t} 2 1')

    s.step('C 6 read', to_all(lambda j: read(6, 1)))
    changed = value(6, 1, 5, 2, 1, VALUE, 1)[:-1] + b'\2'
    for f, number in ((stamp(6, 1, 5), 12), (ack(6, 1), 12), (value(6, 2, 5, 2, 1, VALUE, 1)[:-1] + b'\2', 12), (changed, 14)):
        s.refused(f'C 6 s 1 {f.hex()}', number)
    s.refused(f'C 6 s 2 {value(6, 1, 5, 2, 1, VALUE, 1).hex()}', 14)
    got(2, 1, 0)
    got(4, 1, 5)
    s.refused(f'C 6 s 4 {value(6, 1, 5, 2, 1, VALUE, 4).hex()}', 12)
    got(1, 1, 5)
    ends(3, 1, 5)
    s.refused(f'C 6 s 2 {value(6, 1, 5, 2, 1, VALUE, 2).hex()}', 12)
    s.step('C 6 read', to_all(lambda j: read(6, 2)))
    got(1, 2, 7, THIRD)
    got(2, 2, 7, VALUE)
    got(3, 2, 7, THIRD)
    ends(4, 2, 7, THIRD)
    s.step('C 6 read', to_all(lambda j: read(6, 3)))
    for t in (3, 1, 2, 4, 5, 1, 1):  # the fifth stamp drops time 1, and time 1 is then dropped itself, each time it comes
        got(1, 3, t)
    s.refused(f'C 6 s 1 {value(6, 3, 5, 2, 1, VALUE, 1).hex()}', 12)
    for j, t in ((2, 1), (3, 1), (2, 5)):
        got(j, 3, t)
    ends(3, 3, 5)


# ---- servers

class Server:
    """Calls on one server of a script."""
    def __init__(self, script, me):
        self.script, self.me = script, me

    def got(self, sender, f, result):
        """The frame comes from a sender: it is refused by a number, or makes the server send."""
        line = f'S {self.me} {sender} {f.hex()}'
        self.script.refused(line, result) if isinstance(result, int) else self.script.step(line, result)

    def vouch(self, t):
        """Servers 1 and 3 report a time, t + 1 where t is 1; it frees nothing."""
        for j in (1, 3):
            self.got(f's {j}', report(6, 2, t), [])


def refusals(s):
    """Frames to a fresh server: 4 to 9, 11."""
    asked = get_stamp(1, 5)
    for f, number in ((asked[:8], 4), (asked + b'\0', 4), (frame(1, 1, 5, version=2), 5), (frame(7, 1, 1, time(5), version=2), 5), (frame(0, 1, 5), 6),
                      (frame(14, 1, 5), 6), (frame(14, 1, 5, time(5)), 6), (frame(13, 1, 5), 8), (frame(13, 1, 5, time(5) + b'\0'), 8),
                      (frame(1, 0, 5), 7), (frame(1, 9, 5), 7), (frame(1, 1, 0), 7), (frame(1, 1, 5, b'\0'), 8),
                      (frame(3, 1, 1, time(5) + entry(OTHER, 2) + b'\0'), 8), (frame(3, 1, 1, time(5) + entry(OTHER, 2)[:-1]), 8),
                      (frame(3, 1, 1, entry(OTHER, 2)), 8)):
        s.got('c 1', f, number)
    for sender in ('c 1', 's 1'):
        for f in retired(1):
            s.got(sender, f, 6)
    s.got('s 1', value(1, 5, 0, 1, 0, VALUE, 1), 9)
    s.got('s 1', asked, 11)
    s.got('c 2', asked, 11)
    for f in (stamp(1, 5, 0), ack(1, 5), value(1, 5, 0, 0, 0, VALUE, 1)):
        s.got('s 1', f, 11)
    s.got('c 1', block(ECHO, 1, 1, 5, OTHER, 1), 11)
    s.got('s 0', block(ECHO, 1, 1, 5, OTHER, 1), 11)
    s.got('s 5', block(READY, 1, 1, 5, OTHER, 4), 11)
    s.got('s 2', block(SEND, 1, 1, 5, OTHER, 2), 11)
    for sender in ('c 1', 's 0', 's 5'):
        s.got(sender, report(1, 1, 5), 11)
    s.got('s 1', report(1, 1, 0), 12)


def accepted(s):
    """Client 1's first write, with listeners, and what comes after it."""
    # a get-stamp, and reads by clients 8, 3, 5 and 4, which listen from then on
    s.got('c 1', get_stamp(1, 5), [('c 1', stamp(1, 5, 0))])
    for c in (8, 3, 5, 4):
        s.got(f'c {c}', read(c, 1), [(f'c {c}', value(c, 1, 0, 0, 0, VALUE, 2))])
    s.got('c 3', read(3, 1), 12)

    # the write is sent, echoed and made ready
    s.got('c 1', block(SEND, 1, 2, 5, OTHER, 2), 13)
    s.got('c 1', block(SEND, 1, 1, 5, OTHER, 1), 14)
    s.got('c 1', block(SEND, 1, 1, 5, OTHER, 2), to_all(lambda j: block(ECHO, 1, 1, 5, OTHER, 2)))
    s.got('c 1', block(SEND, 1, 1, 5, OTHER, 2), 12)
    s.got('s 1', block(ECHO, 1, 1, 5, OTHER, 2), 14)
    s.got('s 1', block(ECHO, 1, 1, 5, OTHER, 1), [])
    s.got('s 1', block(ECHO, 1, 1, 5, OTHER, 1), 12)
    s.got('s 3', block(ECHO, 1, 1, 5, OTHER, 3), [])
    s.got('s 4', block(ECHO, 1, 1, 5, OTHER, 4), to_all(lambda j: block(READY, 1, 1, 5, OTHER, 2)))

    # acceptance: values by rising client number, the ack, and reports to servers and then to clients
    s.vouch(5)
    for j in (1, 3):
        s.got(f's {j}', block(READY, 1, 1, 5, OTHER, j), [])
    s.got('s 1', block(READY, 1, 1, 5, OTHER, 1), 12)
    s.got('s 4', block(READY, 1, 1, 5, OTHER, 4), [(f'c {c}', value(c, 1, 6, 1, 1, OTHER, 2)) for c in (3, 4, 5, 8)] + taken(1, 1, 6))
    s.got('s 2', block(READY, 1, 1, 5, OTHER, 2), 12)

    # afterwards: a read is completed, the stamp is the new one, and write 2 is open
    s.got('c 3', complete(3, 1), [])
    s.got('c 3', complete(3, 1), 12)
    s.got('c 1', get_stamp(1, 6), [('c 1', stamp(1, 6, 6))])
    s.got('c 3', read(3, 2), [('c 3', value(3, 2, 6, 1, 1, OTHER, 2))])
    s.got('c 1', block(SEND, 1, 2, 9, OTHER, 2), to_all(lambda j: block(ECHO, 1, 2, 9, OTHER, 2)))


def at_server():
    script = opened('server')
    refusals(Server(script, 2))
    accepted(Server(script, 2))
    script.write()


# ---- groups

def other_times(s):
    """Client 1: equal lists with other times are no group, neither of echoes nor of readies; nor is a kind 3's time looked at."""
    s.got('c 1', block(SEND, 1, 1, 9, OTHER, 2), to_all(lambda j: block(ECHO, 1, 1, 9, OTHER, 2)))
    for j in SERVERS:
        s.got(f's {j}', block(ECHO, 1, 1, j, OTHER, j), [])
    for j in (1, 2):
        s.got(f's {j}', block(READY, 1, 1, j, OTHER, j), [])
    s.got('s 3', block(READY, 1, 1, 1, OTHER, 3), to_all(lambda j: block(READY, 1, 1, 1, OTHER, 2)))
    s.got('s 2', block(READY, 1, 1, 1, OTHER, 2), 12)
    s.vouch(1)
    s.got('s 4', block(READY, 1, 1, 1, OTHER, 4), taken(1, 1, 2))
    s.got('c 1', get_stamp(1, 1), [('c 1', stamp(1, 1, 2))])


def other_lists(s):
    """Client 2: equal times with other lists are no group."""
    for j, v in ((1, OTHER), (2, THIRD), (3, OTHER), (4, THIRD)):
        s.got(f's {j}', block(ECHO, 2, 1, 5, v, j), [])
    for j, v in ((1, OTHER), (2, THIRD)):
        s.got(f's {j}', block(READY, 2, 1, 5, v, j), [])
    s.got('s 3', block(READY, 2, 1, 5, THIRD, 3), to_all(lambda j: block(READY, 2, 1, 5, THIRD, 2)))
    s.vouch(5)
    s.got('s 4', block(READY, 2, 1, 5, THIRD, 4), taken(2, 1, 6))
    s.got('c 8', read(8, 1), [('c 8', value(8, 1, 6, 2, 1, THIRD, 2))])
    s.got('c 8', complete(8, 1), [])


def two_groups(s):
    """Client 3: echoes and readies of the same servers in different groups all count. The ready goes out once for the write, and the group of the readies is
    complete, not that of the own ready; a kind 3 is echoed also then."""
    for j in (1, 3):
        s.got(f's {j}', block(ECHO, 3, 1, 7, OTHER, j), [])
        s.got(f's {j}', block(READY, 3, 1, 8, THIRD, j), [] if j == 1 else to_all(lambda i: block(READY, 3, 1, 8, THIRD, 2)))
    s.got('s 4', block(ECHO, 3, 1, 7, OTHER, 4), [])
    s.got('c 3', block(SEND, 3, 1, 7, OTHER, 2), to_all(lambda j: block(ECHO, 3, 1, 7, OTHER, 2)))
    s.vouch(8)
    s.got('s 4', block(READY, 3, 1, 8, THIRD, 4), taken(3, 1, 9))
    s.got('c 8', get_stamp(8, 1), [('c 8', stamp(8, 1, 9))])
    # the other way round, in its next write: three echoes of one group send the ready, three readies of the other are accepted, the own time being 9
    for j in (1, 3):
        s.got(f's {j}', block(ECHO, 3, 2, 9, OTHER, j), [])
    s.got('s 4', block(ECHO, 3, 2, 9, OTHER, 4), to_all(lambda j: block(READY, 3, 2, 9, OTHER, 2)))
    for j in (1, 3):
        s.got(f's {j}', block(READY, 3, 2, 9, THIRD, j), [])
    s.got('s 4', block(READY, 3, 2, 9, THIRD, 4), taken(3, 2, 10))
    s.got('c 8', read(8, 2), [('c 8', value(8, 2, 10, 3, 2, THIRD, 2))])
    s.got('c 8', complete(8, 2), [])


def last_time(s):
    """Client 4: a completed time of 2^64 - 1 is never accepted, though it be reported. Frames of that sequence count as before, and only that client waits;
    2^64 - 2 is accepted."""
    s.vouch(LAST)
    for j in (1, 3, 4):
        s.got(f's {j}', block(READY, 4, 1, LAST, OTHER, j), to_all(lambda i: block(READY, 4, 1, LAST, OTHER, 2)) if j == 3 else [])
    s.got('s 1', block(READY, 4, 1, LAST, OTHER, 1), 12)
    s.got('s 2', block(READY, 4, 1, LAST, OTHER, 2), [])
    for j in SERVERS:
        s.got(f's {j}', block(ECHO, 4, 1, 5, THIRD, j), [])
        s.got(f's {j}', block(ECHO, 4, 1, 5, THIRD, j), 12)
    s.got('c 4', block(SEND, 4, 1, 5, THIRD, 2), to_all(lambda j: block(ECHO, 4, 1, 5, THIRD, 2)))
    s.got('c 4', block(SEND, 4, 1, 5, THIRD, 2), 12)
    s.got('c 4', block(SEND, 4, 2, 5, THIRD, 2), 13)
    s.got('c 8', get_stamp(8, 2), [('c 8', stamp(8, 2, 10))])
    for j in (1, 3):
        s.got(f's {j}', block(READY, 5, 1, LAST - 1, OTHER, j), to_all(lambda i: block(READY, 5, 1, LAST - 1, OTHER, 2)) if j == 3 else [])
    s.got('s 4', block(READY, 5, 1, LAST - 1, OTHER, 4), taken(5, 1, LAST))
    s.got('c 8', get_stamp(8, 3), [('c 8', stamp(8, 3, LAST))])


def groups():
    script = opened('groups')
    for part in (other_times, other_lists, two_groups, last_time):
        part(Server(script, 2))
    script.write()


def thresholds(name, n, t, k, v):
    """Where k is above t + 1, readies of one group: the own at q = k, completion at k + t, which is more than 2t + 1."""
    script, code = Script(name), Code(n, k)
    assert k > t + 1
    script.say(f'hall {n} {t} {k} {len(v)} {v.hex()}', 'ready')
    s = Server(script, n)
    s.vouch(4)
    for j in range(1, k + t + 1):
        sent = to_all(lambda i: block(READY, 1, 1, 4, v, n, code), code.servers) if j == k else taken(1, 1, 5, code.servers) if j == k + t else []
        s.got(f's {j}', block(READY, 1, 1, 4, v, j, code), sent)
    s.got('c 1', get_stamp(1, 1), [('c 1', stamp(1, 1, 5))])
    # of echoes n - t, at another server
    s = Server(script, 1)
    for j in range(1, n - t + 1):
        s.got(f's {j}', block(ECHO, 1, 1, 4, v, j, code), to_all(lambda i: block(READY, 1, 1, 4, v, 1, code), code.servers) if j == n - t else [])
    script.write()


# ---- writes that wait

def completed(s, c, q, t, sent=()):
    """Readies of servers 1, 3 and 4 complete client c's write q with the incoming time t at server 2; the last one makes it send."""
    for j in (1, 3):
        s.got(f's {j}', block(READY, c, q, t, OTHER, j), to_all(lambda i: block(READY, c, q, t, OTHER, 2)) if j == 3 else [])
    s.got('s 4', block(READY, c, q, t, OTHER, 4), list(sent))


def freed_by_reports(s):
    """Two servers' reports of its time or more free a write: not one's, not lower ones, not a server's twice; its own counts when it comes back."""
    completed(s, 3, 1, 4)
    for j, t in ((1, 3), (3, 3), (4, 3), (1, 4), (1, 9)):
        s.got(f's {j}', report(6, 2, t), [])
    for t in (9, 8, 4, 0):
        s.got('s 1', report(6, 2, t), 12)
    # the write waits in its slot: a later one is 13, its own frames count, a late kind 3 is echoed
    s.got('c 3', block(SEND, 3, 2, 4, OTHER, 2), 13)
    s.got('s 2', block(READY, 3, 1, 4, OTHER, 2), [])
    s.got('s 2', block(READY, 3, 1, 4, OTHER, 2), 12)
    s.got('c 3', block(SEND, 3, 1, 4, OTHER, 2), to_all(lambda j: block(ECHO, 3, 1, 4, OTHER, 2)))
    s.got('s 2', report(6, 2, 4), taken(3, 1, 5))
    s.got('s 2', report(3, 1, 5), [])
    s.got('c 8', get_stamp(8, 1), [('c 8', stamp(8, 1, 5))])


def freed_by_time(s):
    """The own time, which is 5, frees a write of 5 at once; one of less is accepted without a report, and replaces nothing; an equal time with a larger
    writer replaces, and is not reported either."""
    completed(s, 1, 1, 5, taken(1, 1, 6))
    completed(s, 4, 1, 2, [('c 4', ack(4, 1))])
    completed(s, 5, 1, 5, [('c 5', ack(5, 1))])
    s.got('c 8', read(8, 1), [('c 8', value(8, 1, 6, 5, 1, OTHER, 2))])


def freed_together(s):
    """Writes of clients 1, 4, 5 and 7 wait, client 8 listens. A report frees client 4's, which raises the time so that client 1's is accepted, and from there
    on the scan begins anew; client 7's waits on."""
    for c, q, t in ((1, 2, 8), (4, 2, 7), (5, 2, 7), (7, 1, 20)):
        completed(s, c, q, t)
    s.got('s 3', report(6, 2, 7), [('c 8', value(8, 1, 8, 4, 2, OTHER, 2))] + taken(4, 2, 8) + [('c 8', value(8, 1, 9, 1, 2, OTHER, 2))] + taken(1, 2, 9)
          + [('c 8', value(8, 1, 8, 5, 2, OTHER, 2)), ('c 5', ack(5, 2))])
    s.got('c 8', complete(8, 1), [])
    # a completion frees others too, of lower clients and of higher ones
    completed(s, 4, 3, 11)
    completed(s, 5, 3, 10)
    completed(s, 1, 3, 9, taken(1, 3, 10) + taken(5, 3, 11) + taken(4, 3, 12))
    # an enormous time that one server reports, or replies, frees nothing
    s.got('s 4', report(6, 2, LAST), [])
    s.got('c 8', get_stamp(8, 2), [('c 8', stamp(8, 2, 12))])


def waiting():
    script = opened('waiting')
    for part in (freed_by_reports, freed_by_time, freed_together):
        part(Server(script, 2))
    script.write()


# ---- blocks that disagree: each has its digest in the list, but they are not all of one value

# the blocks of VALUE with one foreign at place j; those of four bytes, whose last is the padding of a value of three; the first two of one value and
# the others of another
def foreign(j): return [b'\x08\3' if i == j else b for i, b in enumerate(blocks(VALUE), 1)]


PADDED = blocks(bytes([1, 2, 3, 4]))
MIXED = blocks(VALUE)[:2] + blocks(OTHER)[2:]


def disagreeing_reads(s):
    """Reads of client 6 that end with a disagreement, whichever block is foreign and whichever servers are found; then nothing is open."""
    def got(c, j, q, t, row, sent=(), last=None):
        s.step(f'C {c} s {j} {value_of(c, q, t, 2, 1, row, j).hex()}', sent, last)

    def ends(c, j, q, t, row):
        got(c, j, q, t, row, to_all(lambda i: complete(c, q)), 'disagreement')

    q = 0
    for row, found in ((foreign(1), (1, 2, 3)), (foreign(3), (1, 2, 3)), (foreign(3), (3, 2, 1)), (foreign(4), (2, 3, 4)), (PADDED, (1, 2, 3)),
                       (PADDED, (4, 3, 2)), (MIXED, (1, 2, 4)), (MIXED, (4, 3, 1))):
        q += 1
        s.step('C 6 read', to_all(lambda j: read(6, q)))
        for j in found[:-1]:
            got(6, j, q, 5, row)
        ends(6, found[-1], q, 5, row)
        # closed: a further value, the same, and one that would end it otherwise are 12
        late, = set(SERVERS) - set(found)
        for f in (value_of(6, q, 5, 2, 1, row, late), value(6, q, 9, 2, 1, VALUE, late)):
            s.refused(f'C 6 s {late} {f.hex()}', 12)
    # its next operation is begun as ever
    s.step('C 6 write 010203', to_all(lambda j: get_stamp(6, 1)))
    s.refused('C 6 read', 15)
    # at client 7: a foreign block whose server is not found does not matter
    s.step('C 7 read', to_all(lambda j: read(7, 1)))
    for j in (1, 2):
        got(7, j, 1, 5, foreign(3))
    got(7, 4, 1, 5, foreign(3), to_all(lambda i: complete(7, 1)), 'value 010203 5 2 1')
    s.refused(f'C 7 s 3 {value_of(7, 1, 5, 2, 1, foreign(3), 3).hex()}', 12)
    # a block against its digest is 14, and leaves the read open; other lists of the stamp and other stamps of the list are not of the group
    s.step('C 7 read', to_all(lambda j: read(7, 2)))
    got(7, 1, 2, 5, blocks(VALUE))
    s.refused(f'C 7 s 2 {value(7, 2, 5, 2, 1, VALUE, 2)[:-1].hex()}09', 14)
    got(7, 2, 2, 5, foreign(2))
    got(7, 3, 2, 5, blocks(VALUE))
    got(7, 2, 2, 6, blocks(VALUE))
    got(7, 4, 2, 5, blocks(VALUE), to_all(lambda i: complete(7, 2)), 'value 010203 5 2 1')
    # two stamps of one list: the group is the servers that have both alike
    s.step('C 7 read', to_all(lambda j: read(7, 3)))
    for j, t in ((1, 5), (2, 6), (3, 6), (4, 5)):
        got(7, j, 3, t, foreign(1))
    ends(7, 1, 3, 6, foreign(1))


def disagreeing_groups(s):
    """Echoes and readies whose blocks have their digests and are of no one value: counted, and nothing is sent."""
    for c, row in ((1, foreign(4)), (2, PADDED), (3, MIXED)):
        s.got(f'c {c}', block_of(SEND, c, 1, 5, row, 2), to_all(lambda j: block_of(ECHO, c, 1, 5, row, 2)))
        for stage in (ECHO, READY):
            for j in SERVERS:
                s.got(f's {j}', block_of(stage, c, 1, 5, row, j), [])
                s.got(f's {j}', block_of(stage, c, 1, 5, row, j), 12)
    s.got('c 8', get_stamp(8, 1), [('c 8', stamp(8, 1, 0))])


def disagreement():
    script = opened('disagreement')
    disagreeing_reads(script)
    disagreeing_groups(Server(script, 2))
    script.write()


bounds()
disagreement()
client = opened('client')
for part in (busy, turned_down, writes, closes, vouched, reads):
    part(client)
client.write()
at_server()
groups()
waiting()
thresholds('k3', 5, 1, 3, VALUE)
thresholds('k8', 10, 1, 8, bytes(range(20)))
