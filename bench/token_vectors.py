#!/usr/bin/env python3
"""Compares what the tests of blake2b_core, xchacha_core and paseto_seal expect, and the hashes in blake2b_core's
proofs/Facts.antt, with what hashlib's BLAKE2b and libsodium's XChaCha20 (the package libsodium23) give; tokens, wraps
and key ids by the PASETO and PASERK documents over these two. It shares no code with the crates. It names each value
that is missing or differs, and exits with 1 where there is one."""
import ast
import pathlib
import re
import sys

from paseto import blake2b, key_id, pae, token, wrap, xchacha20

crates = pathlib.Path(__file__).resolve().parent.parent / 'crates'


def fnv_1a(data):
    digest = 0xCBF29CE484222325
    for byte in data:
        digest = (digest ^ byte) * 0x100000001B3 % 2**64
    return digest


def numbers(text):
    return bytes(int(number, 0) for number in re.findall(r'\w+', text))


def expected(source, name):
    """The bytes that a test's source has under this name; None where it has none."""
    found = re.search(rf'(?:const|let) {name}\b[^=]*=\s*\*?(b"(?:[^"\\]|\\.)*"|\[[^]]*\]);', source)
    return found and (numbers(found[1][1:-1]) if found[1].startswith('[') else ast.literal_eval(found[1]))


def hashes():
    source = (crates / 'blake2b_core/src/tests.rt').read_text()
    yield 'HASH_OF_ABC', expected(source, 'HASH_OF_ABC'), blake2b(64, b'', b'abc')
    for size in (1, 20, 33, 63):
        yield f'HASH_IN_{size}', expected(source, f'HASH_IN_{size}'), blake2b(size, b'key', b'abc')
    rows = re.findall(r'\((\d+), 0x(\w+), 0x(\w+)\)', source)
    text, key = bytes(i % 251 for i in range(300)), bytes(range(64, 128))
    for size in (0, 1, 127, 128, 129, 255, 256, 300):
        row = [found[1:] for found in rows if int(found[0]) == size]
        computed = (blake2b(8, b'', text[:size]), blake2b(8, key, text[:size]))
        yield f'HASHES at {size}', row and tuple(bytes.fromhex(part.replace('_', '')) for part in row[0]), computed


def facts():
    source = (crates / 'blake2b_core/proofs/Facts.antt').read_text()
    for name, computed in (
        ('hash_of_abc', blake2b(64, b'', b'abc')),
        ('hash_of_nothing', blake2b(32, b'', b'')),
        ('hash_with_key', blake2b(20, bytes(range(16)), bytes(range(129)))),
    ):
        found = re.search(rf'pub {name} : [^≡]*≡([^[]*)\[\]', source)
        yield name, found and numbers(found[1]), computed


def streams():
    source = (crates / 'xchacha_core/src/tests.rt').read_text()
    key, nonce, text = (expected(source, name) for name in ('KEY', 'NONCE', 'TEXT'))
    yield 'SEALED', expected(source, 'SEALED'), key and nonce and text and xchacha20(key, nonce, text)
    counted, nonce = expected(source, 'COUNTED_KEY'), expected(source, 'LONG_NONCE')
    found = re.search(r'const DIGEST_OF_STREAM: u64 = (0x\w+);', source)
    stream = counted and nonce and xchacha20(counted, nonce, bytes(1000))
    yield 'DIGEST_OF_STREAM', found and int(found[1], 0), stream and fnv_1a(stream)


def tokens():
    source = (crates / 'paseto_seal/src/tests.rt').read_text()
    key, counted, zeros = bytes(range(0x70, 0x90)), bytes(range(32)), bytes(32)
    nonce = bytes.fromhex('df654812bac492663825520ba2f6e67cf5ca5bdc13d4e7507a98cc4c2fcc3ad8')
    secret = b'{"data":"this is a secret message","exp":"2022-01-01T00:00:00+00:00"}'
    assertion = b'{"id":"0189","idx":1}'
    for name, computed in (
        ('KEY', key),
        ('NONCE', nonce),
        ('COUNTED_KEY', counted),
        ('SECRET', secret),
        ('ASSERTION', assertion),
        ('FIRST', token(key, zeros, secret, b'')),
        ('SECOND', token(key, nonce, secret, b'')),
        ('ASSERTED', token(key, nonce, secret, assertion)),
        ('EMPTY', token(key, nonce, b'', assertion)),
        ('WRAP', wrap(key, nonce, counted)),
        ('encoded', pae(b'test')),
    ):
        yield name, expected(source, name), computed
    ids = [found.encode() for found in re.findall(r'b"(k4\.lid\.[^"]*)"', source)]
    yield 'the ids', ids, [key_id(zeros), key_id(key)]


compared = [value for values in (hashes, facts, streams, tokens) for value in values()]
wrong = [(name, told, computed) for name, told, computed in compared if told is None or told != computed]
for name, told, computed in wrong:
    print(f'{name}: expected {told}, computed {computed}')
print(f'{len(compared) - len(wrong)} of {len(compared)} values are as computed')
sys.exit(1 if wrong else 0)
