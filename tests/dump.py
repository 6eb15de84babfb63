#!/usr/bin/env python3
"""Labels out of a register and in again: dump, load, copy, digest and list --json of the program zkv, on random registers.

tests/dump.py [IMAGES [SEED [PROGRAM]]]     8 registers, seed 1, host/build/zkv (make -C host)

Values have 0 to 4,088 bytes of all kinds (NUL, tab, line feed, escape, caret, backslash, blanks at the end, 0x80 to 0xff). The list's form
and the digest are read and made here by themselves. Loads are killed (kill -9) in the middle: of each batch all or none must be there.
"""
import hashlib
import json
import os
import random
import re
import signal
import struct
import subprocess
import sys
import tempfile
import time

ZKV = os.path.abspath(sys.argv[3]) if len(sys.argv) > 3 else \
    os.path.join(os.path.dirname(os.path.abspath(__file__)), '..', 'host', 'build', 'zkv')
SPECIAL = bytes([0, 9, 10, 13, 27, 32, 34, 92, 94, 126, 127, 128, 255])


def fail(text):
    sys.exit(f'dump: {text}')


def zkv(*words, status=0, given=b''):
    """What it prints; it must end with that status."""
    r = subprocess.run([ZKV, *map(str, words)], input=given, capture_output=True)
    if r.returncode != status:
        fail(f'zkv {" ".join(map(str, words))} ended with {r.returncode} and not {status}: {r.stderr[:300]}')
    return r.stdout if status == 0 else r.stderr.decode()


def value(rng):
    length = rng.choice((0, 1, rng.randrange(65), rng.randrange(257), 256, 257, rng.randrange(4089), 4087, 4088))
    if rng.random() < 0.5:
        return bytes(rng.choice(SPECIAL) for _ in range(length))
    return rng.randbytes(length)


def encoded(labels, rng):
    """A list in the form that load reads; what need not be escaped is so at times, and digits are of both kinds."""
    lines = []
    for key, data in labels:
        text = b'%d\t' % key
        for byte in data:
            if byte == 92 and rng.random() < 0.5:
                text += b'\\\\'
            elif byte < 32 or byte > 126 or byte == 92 or rng.random() < 0.1:
                text += (b'\\x%02x' if rng.random() < 0.5 else b'\\x%02X') % byte
            else:
                text += bytes([byte])
        lines.append(text + b'\n')
    return b''.join(lines)


def decoded(text):
    """The labels of a list that dump printed: one form alone for each byte, and a blank at the end escaped."""
    labels = []
    for line in text.split(b'\n')[:-1]:
        m = re.fullmatch(rb'(0|[1-9][0-9]*)\t((?:[ -\[\]-~]|\\\\|\\x(?:[01][0-9a-f]|[7-9a-f][0-9a-f]|20(?=$)))*)', line)
        if not m or line.endswith(b' '):
            fail(f'dump prints the line {line[:200]}')
        data = re.sub(rb'\\(\\|x..)', lambda e: b'\\' if e[1] == b'\\' else bytes([int(e[1][1:], 16)]), m[2])
        labels.append((int(m[1]), data))
    if text and not text.endswith(b'\n'):
        fail('a dump does not end with a line feed')
    return labels


def digest(labels):
    h = hashlib.sha256()
    for key, data in sorted(labels):
        h.update(struct.pack('<QQ', key, len(data)) + data)
    return h.hexdigest()


def holds(image, book, what):
    """By every way of reading, the register holds exactly the book's labels."""
    labels = sorted(book.items())
    if decoded(zkv('dump', image)) != labels:
        fail(f'{what}: dump differs')
    if zkv('digest', image).decode() != digest(labels) + '\n':
        fail(f'{what}: digest differs')
    listed = json.loads(zkv('list', image, '--json'))
    if listed['keys'] != len(labels) or [(int(e['key']), bytes.fromhex(e['hex'])) for e in listed['labels']] != labels:
        fail(f'{what}: list --json differs')
    for e, (key, data) in zip(listed['labels'], labels):
        text = data.decode('latin-1') if data and all(32 <= b <= 126 for b in data) else None
        if e['bytes'] != len(data) or e['place'] != ('block' if len(data) > 256 else 'log') or e.get('text') != text:
            fail(f'{what}: list --json says of key {key}: {str(e)[:200]}')
    told = json.loads(zkv('stat', image, '--json'))
    if told['labels'] != len(labels) or told['known_keys'] != told['labels'] + told['deleted_keys']:
        fail(f'{what}: stat --json says {told}')
    for key, data in labels[:3]:
        if zkv('get', image, key) != data:
            fail(f'{what}: key {key} has other bytes')


def new_labels(rng, count):
    keys = rng.sample([0, 1, 2 ** 64 - 1, 2 ** 63] + [rng.getrandbits(rng.choice((8, 16, 64))) for _ in range(2 * count)], 2 * count)
    return [(key, value(rng)) for key in dict.fromkeys(keys)][:count]


def round_trip(rng, number):
    """Loads, loads over a part of it, deletes; dumps into another register; copies."""
    count = rng.choice((0, 1, 15, 16, 17, 40, 60, 100)) if number else 100
    one, other, copy = (f'{name}{number}.img' for name in ('one', 'other', 'copy'))
    zkv('format', one, 180, '--station', number, *(('--centre', 2 ** 64 - 1) if number % 2 else ()))
    labels = new_labels(rng, count)
    book = dict(labels)
    zkv('load', one, '-', '--empty', given=encoded(labels, rng))
    holds(one, book, f'register {number}, loaded')
    again = [(key, value(rng)) for key in rng.sample(sorted(book), len(book) // 3)]
    book.update(again)
    with open('list', 'wb') as file:
        file.write(encoded(again, rng))
    zkv('load', one, 'list', '--empty')
    for key in rng.sample(sorted(book), len(book) // 8):
        zkv('delete', one, key)
        del book[key]
    holds(one, book, f'register {number}, loaded twice')
    zkv('format', other, 180)
    text = zkv('dump', one)
    zkv('load', other, '-', '--empty', given=text)
    if zkv('dump', other) != text:
        fail(f'register {number}: a dump of what was dumped and loaded differs')
    holds(other, book, f'register {number}, dumped and loaded')
    before = open(one, 'rb').read()
    told = zkv('copy', one, copy, *((rng.randrange(150, 300),) if number % 2 else ()))
    if told != b'labels %d\n' % len(book):
        fail(f'register {number}: copy says {told}')
    holds(copy, book, f'register {number}, copied')
    was, now = (json.loads(zkv('stat', image, '--json')) for image in (one, copy))
    if now['deleted_keys'] != 0 or any(was[name] != now[name] for name in ('station', 'centre')):
        fail(f'register {number}: a copy has {now}, of {was}')
    zkv('check', copy, '--against', digest(book.items()).upper())
    if open(one, 'rb').read() != before:
        fail(f'register {number}: a command that reads changed the file')
    for image in (one, other, copy):
        os.remove(image)
    return len(book)


def killed_load(rng, number):
    """After a kill the lines of whole batches are there, from the first on; a load of all of them then ends."""
    image = f'killed{number}.img'
    zkv('format', image, 32)
    labels = [(key, rng.randbytes(rng.randrange(40))) for key in rng.sample(range(10000), 80)]
    with open('list', 'wb') as file:
        file.write(encoded(labels, rng))
    job = subprocess.Popen([ZKV, 'load', image, 'list', '--pause', '1000'], stdout=subprocess.DEVNULL)
    time.sleep(0.02 + 0.5 * rng.random())
    job.send_signal(signal.SIGKILL)
    ended = job.wait() == 0
    found = dict(decoded(zkv('dump', image)))
    if len(found) % 16 or found != dict(labels[:len(found)]) or (ended and len(found) != 80):
        fail(f'a load that was killed left {len(found)} of 80 labels, or others')
    zkv('load', image, 'list')
    holds(image, dict(labels), 'a load after a kill')
    os.remove(image)
    return not ended


def full(rng):
    """What does not fit is told, and what was told is there; a load cleans where it must."""
    zkv('format', 'full.img', 6)
    labels = [(key, rng.randbytes(200)) for key in range(200)]
    given = encoded(labels, rng)
    told = zkv('load', 'full.img', '-', given=given, status=3)
    m = re.search(r'full.img: standard input: line (\d+): key (\d+): 200 bytes: refused 13: .*\n'
                  r'zkv: full.img: standard input: in the register: lines 1 to (\d+)\n', told)
    if not m or not int(m[1]) - 1 == int(m[2]) == int(m[3]) or int(m[3]) < 45:
        fail(f'a load that does not fit says: {told}')
    holds('full.img', dict(labels[:int(m[3])]), 'a load that did not fit')
    zkv('format', 'room.img', 6)
    for _ in range(12):                     # ten labels over and over: more than fits without cleaning
        labels = [(key, rng.randbytes(200)) for key in range(10)]
        zkv('load', 'room.img', '-', given=encoded(labels, rng))
        holds('room.img', dict(labels), 'a load that cleaned')
    for _ in range(12):
        before = open('room.img', 'rb').read()
        r = subprocess.run([ZKV, 'load', 'room.img', '-', '--no-clean'], input=encoded(labels, rng), capture_output=True)
        if r.returncode != 0:
            break
    if r.returncode != 3 or b'refused 13' not in r.stderr:
        fail(f'a load that may not clean ends with {r.returncode}')
    if b'in the register: no line' in r.stderr and open('room.img', 'rb').read() != before:
        fail('a load of which no line is in the register changed it')
    holds('room.img', dict(labels), 'a load that may not clean')


def room(rng):
    """The room that stat tells is what can be put, one by one, without cleaning."""
    for length in (16, 64, 256, 1000, 4088, 65528):
        zkv('format', 'left.img', 4 if length <= 256 else 9, '--chunk-size', 4096 if length <= 4088 else 65536)
        zkv('load', 'left.img', '-', given=encoded([(key, rng.randbytes(60)) for key in range(rng.randrange(1, 20))], rng))
        told = json.loads(zkv('stat', 'left.img', '--json'))
        labels = [(1000 + i, rng.randbytes(length)) for i in range(told[f'labels_of_{length}_left'])]
        for key, data in labels:
            zkv('put', 'left.img', key, '-', '--no-clean', given=data)
        zkv('put', 'left.img', 999, '-', '--no-clean', given=bytes(length), status=3)
        now = json.loads(zkv('stat', 'left.img', '--json'))
        if now[f'labels_of_{length}_left'] != 0 or not labels or (length == 16 and now['lines_used'] != told['lines_used'] + told['lines_left']):
            fail(f'room for {length} bytes: first {told}, then {now}')
        os.remove('left.img')


def main():
    images, seed = (int(a) for a in (sys.argv[1:] + ['8', '1'][len(sys.argv) - 1:])[:2])
    rng = random.Random(seed)
    if not os.access(ZKV, os.X_OK):
        sys.exit(f'{ZKV} is missing: run make -C host')
    with tempfile.TemporaryDirectory(dir='/dev/shm' if os.access('/dev/shm', os.W_OK) else None) as work:    # many syncs
        os.chdir(work)
        labels = sum(round_trip(rng, number) for number in range(images))
        kills = sum(killed_load(rng, number) for number in range(images))
        if images >= 8 and kills < images / 4:
            fail(f'only {kills} of {images} loads were killed in the middle: too little was tried')
        full(rng)
        room(rng)
        os.chdir('/')
    print(f'dump: {images} registers with {labels} labels dumped, loaded, copied and digested; {kills} of {images} loads killed in the middle')


main()
