"""The query program against 01's rule, written anew here: a line, its walk by rank and file, a stream cut at line feeds.

    python3 tools/query.py store              writes crates/query/stdin and crates/query/stdout
    python3 tools/query.py try [COMMAND ..]   runs a program (tools/query) on real pipes: edge lines, damaged lines, random
                                              bytes, a byte at a time, cuts anywhere, a line of 100 MB, reads and writes that
                                              fail; then times a million queries
"""
import pathlib
import random
import socket
import struct
import subprocess
import sys
import threading
import time

top = pathlib.Path(__file__).resolve().parent.parent

STRAIGHT = [(0, 1), (0, -1), (1, 0), (-1, 0)]
SLANTED = [(1, 1), (1, -1), (-1, 1), (-1, -1)]
HEX = b'0123456789ABCDEF'


def walk(piece, square, blockers):
    seen = 0
    for up, right in STRAIGHT if piece == b'R' else SLANTED:
        rank, file = square // 8 + up, square % 8 + right
        while 0 <= rank < 8 and 0 <= file < 8:
            bit = 1 << (8 * rank + file)
            seen |= bit
            if blockers & bit:
                break
            rank, file = rank + up, file + right
    return seen


def answer(line):
    readable = (len(line) == 21 and line[0:1] in (b'R', b'B') and line[1] == 32 and line[4] == 32
                and 97 <= line[2] <= 104 and 49 <= line[3] <= 56 and all(c in HEX for c in line[5:]))
    if not readable:
        return b'?\n'
    square = (line[3] - 49) * 8 + line[2] - 97
    return line + b' %016X\n' % walk(line[0:1], square, int(line[5:], 16))


def output(stream):
    *ended, last = stream.split(b'\n')
    return b'slider 1\n' + b''.join(answer(line) for line in ended + ([last] if last else []))


EXAMPLE = b'R d4 000008000A000000\nB h1 0000000000004000\nQ a1 0000000000000000\n'
EXAMPLE_SAYS = (b'slider 1\nR d4 000008000A000000 00000808F6080808\n'
                b'B h1 0000000000004000 0000000000004000\n?\n')
EDGES = [b'', b'\n', b'\n\n\n', b'x', b'\0', b'\0\n\0', b'\r\n', EXAMPLE, EXAMPLE[:-1], EXAMPLE + b'\n',
         b'R d4 000008000A000000\r\n', b'R d4 000008000a000000\n', b'R d4 000008000A000000 \n',
         b' R d4 000008000A00000\n', b'R i4 000008000A000000', b'R d9 000008000A000000', b'R d0 000008000A000000',
         b'r d4 000008000A000000', b'R\0d4 000008000A000000', b'R\td4 000008000A000000', b'R d4\t000008000A000000',
         b'R d4 000008000A00000', b'R D4 000008000A000000', b'R d4 000008000A00000G', b'R d4 0x0008000A000000',
         b'R \xe4 000008000A000000', b'R a1 FFFFFFFFFFFFFFFF\n', b'B h8 0000000000000000\n']
chance = random.Random(5)


def good():
    blockers = chance.getrandbits(64) & chance.getrandbits(64)
    return b'%c %c%c %016X' % (chance.choice(b'RB'), chance.choice(b'abcdefgh'), chance.choice(b'12345678'), blockers)


def damaged(line):
    line = bytearray(line)
    for _ in range(chance.choice([0, 0, 0, 1, 1, 2])):
        way = chance.randrange(6)
        if way == 0 and line:
            line[chance.randrange(len(line))] = chance.randrange(256)
        elif way == 1:
            line.insert(chance.randrange(len(line) + 1), chance.choice(b'\r\0 0Aa\nRB'))
        elif way == 2 and line:
            del line[chance.randrange(len(line))]
        elif way == 3:
            line = bytearray(bytes(line).lower())
        elif way == 4:
            line = line[:chance.randrange(len(line) + 1)]
        elif way == 5:
            line = line + line
    return bytes(line)


def every_block():
    return [b'%c %c%c %016X' % (p, f, r, chance.getrandbits(64) & chance.getrandbits(64))
            for p in b'RB' for r in b'12345678' for f in b'abcdefgh']


def store():
    lines = EXAMPLE.split(b'\n')[:3] + every_block() + [e.strip(b'\n') for e in EDGES]
    lines += [b'R d4 ' + b'0' * 20000, good()] + [damaged(good()) for _ in range(600)] + [good()]
    stream = b'\n'.join(lines)
    (top / 'crates/query/stdin').write_bytes(stream)
    (top / 'crates/query/stdout').write_bytes(output(stream))
    print(len(stream), 'bytes,', len(stream.split(b'\n')), 'lines')


def at_once(command, stream):
    return subprocess.run(command, input=stream, stdout=subprocess.PIPE, check=True).stdout


def in_cuts(command, stream, cut):
    program = subprocess.Popen(command, stdin=subprocess.PIPE, stdout=subprocess.PIPE, bufsize=0)
    said = []
    reader = threading.Thread(target=lambda: said.append(program.stdout.read()))
    reader.start()
    at = 0
    while at < len(stream):
        size = cut()
        program.stdin.write(stream[at:at + size])
        at += size
    program.stdin.close()
    reader.join()
    assert program.wait() == 0
    return said[0]


def failing(command):
    """A read or a write that fails ends the run with status 1, and a line that it cut is not answered."""
    with socket.create_server(('127.0.0.1', 0)) as server:
        far = socket.create_connection(server.getsockname())
        near = server.accept()[0]
    program = subprocess.Popen(command, stdin=near, stdout=subprocess.PIPE, stderr=subprocess.DEVNULL)
    near.close()
    far.sendall(EXAMPLE + EXAMPLE[:9])
    assert program.stdout.read(len(EXAMPLE_SAYS)) == EXAMPLE_SAYS
    far.setsockopt(socket.SOL_SOCKET, socket.SO_LINGER, struct.pack('ii', 1, 0))  # so that it is reset, not closed
    far.close()
    assert (program.stdout.read(), program.wait()) == (b'', 1)
    with open('/dev/full', 'wb') as full:
        assert subprocess.run(command, input=EXAMPLE, stdout=full, stderr=subprocess.DEVNULL).returncode == 1


def attempt(command):
    assert output(EXAMPLE) == EXAMPLE_SAYS
    at_once(command, b'')  # which proves and builds it, where that is still to be done
    streams = EDGES + [b'\n'.join(damaged(good()) for _ in range(20000)) for _ in range(3)]
    for letters in [bytes(range(256)), b'\nRB 0123abcA', b'\n', b'\n\n\n\nx', b'\r\n']:
        streams.append(bytes(chance.choice(letters) for _ in range(300000)))
    for n in (16383, 16384, 16385, 32768, 65536):
        streams += [b'\n' * n + good(), ((good() + b'\n') * (n // 22 + 1))[:n], b'x' * n + b'\n' + good()]
    compared = 0
    for stream in streams:
        says = output(stream)
        cut = (lambda: 1) if len(stream) < 2000 else (lambda: chance.randrange(1, 40000))
        assert at_once(command, stream) == says, stream[:80]
        assert in_cuts(command, stream, cut) == says, stream[:80]
        compared += 2
    long = b'R d4 000008000A000000' * (100 * 1024 * 1024 // 21) + b'\n' + EXAMPLE
    assert at_once(command, long) == b'slider 1\n?\n' + EXAMPLE_SAYS[9:]
    failing(command)
    print(compared + 1, 'runs, all as the rule says, and 2 that fail')
    million = b'\n'.join(good() for _ in range(1000000)) + b'\n'
    begun = time.time()
    said = at_once(command, million)
    print('a million queries: %.2f s' % (time.time() - begun))
    assert said == output(million)


if sys.argv[1:] == ['store']:
    store()
elif sys.argv[1:2] == ['try']:
    attempt(sys.argv[2:] or [str(top / 'tools/query')])
else:
    sys.exit(__doc__)
