#!/usr/bin/env python3
"""Seals and opens records by paseto.py, which shares no code with the crates, and compares: what the tests of record_seal
expect, and, given libbench_c.so as its argument, what the crates seal and open through bench_c's exports, both ways. It
names each value that is missing or differs, and exits with 1 where there is one."""
import ast
import ctypes
import json
import pathlib
import re
import sys
import uuid

from paseto import b64, key_id, open_token, token, unb64, unwrap, wrap

crates = pathlib.Path(__file__).resolve().parent.parent / 'crates'


def assertion(record_id, idx, version, tag, host):
    members = {'id': str(uuid.UUID(int=record_id)), 'idx': idx, 'version': version, 'tag': tag, 'host': str(uuid.UUID(int=host))}
    return json.dumps(members, separators=(',', ':'), ensure_ascii=False).encode()


def seal(key, head, payload, drawn):
    content_key, token_nonce, wrap_nonce = drawn[:32], drawn[32:64], drawn[64:]
    sealed = token(content_key, token_nonce, b'{"data":"' + b64(payload) + b'"}', assertion(*head))
    wrapped = b'{"wpk":"' + wrap(key, wrap_nonce, content_key) + b'","kid":"' + key_id(key) + b'"}'
    return sealed, wrapped


def unseal(key, head, sealed, wrapped):
    """The payload, or None where there is none."""
    key_text = json.loads(wrapped)
    if key_text['kid'].encode() != key_id(key):
        return None
    content_key = unwrap(key, key_text['wpk'].encode())
    message = content_key and open_token(content_key, sealed, assertion(*head))
    return message and unb64(json.loads(message)['data'].encode())


key, drawn = bytes(range(0x70, 0x90)), bytes(range(96))
head = (1, 0, 'v0', 'history', 1)
payload = bytes.fromhex('cc00c440cd000099d920') + b'018bcfe5680070018203040506070809' + bytes.fromhex(
    'cf17979cfe362a0000cd03e800a26c73a12fa27331a3683a75c0')


def expected():
    source = (crates / 'record_seal/src/tests.rt').read_text()
    sealed, wrapped = seal(key, head, payload, drawn)
    for name, computed in (
        ('PAYLOAD', payload),
        ('SEALED', sealed),
        ('WRAPPED', wrapped),
        ('WRAP', wrap(key, drawn[64:], drawn[:32])),
        ('KEY_ID', key_id(key)),
        ('OTHER_ID', key_id(bytes(range(32)))),
    ):
        found = re.search(rf'const {name}: [^=]*=\s*(b?"(?:[^"\\]|\\.)*");', source)
        told = found and ast.literal_eval(found[1])
        yield name, told.encode() if isinstance(told, str) else told, computed


def exported(path):
    library = ctypes.CDLL(path)
    library.bench_seal.restype = library.bench_unseal.restype = ctypes.c_uint64

    def sliced(data):
        return ctypes.c_char_p(data), ctypes.c_size_t(len(data))

    def seal_there(idx, payload):
        out = ctypes.create_string_buffer(2 * len(payload) + 1000)
        lengths = library.bench_seal(*sliced(key), *sliced(drawn), ctypes.c_uint64(idx), *sliced(payload), out, ctypes.c_size_t(len(out)))
        sealed_end, wrapped_len = lengths >> 32, lengths & 0xffffffff
        return out.raw[:sealed_end], out.raw[sealed_end:sealed_end + wrapped_len]

    def unseal_there(idx, sealed, wrapped):
        out = ctypes.create_string_buffer(len(sealed) + 1)
        length = library.bench_unseal(*sliced(key), ctypes.c_uint64(idx), *sliced(sealed), *sliced(wrapped), out, ctypes.c_size_t(len(out)))
        return out.raw[:length]

    for idx, text in [(0, payload), (1, payload)] + [(size, bytes(i * 7 % 256 for i in range(size))) for size in (1, 2, 3, 64, 4096, 100001)]:
        at = (1, idx, 'v0', 'history', 1)
        ours, theirs = seal(key, at, text, drawn), seal_there(idx, text)
        yield f'seal of {len(text)} bytes at {idx}', theirs, ours
        yield f'theirs opened, {len(text)} bytes at {idx}', unseal(key, at, *theirs), text
        yield f'ours opened there, {len(text)} bytes at {idx}', unseal_there(idx, *ours), text
        yield f'ours opened there at another idx than {idx}', unseal_there(idx + 1, *ours), b''
    sealed, wrapped = seal(key, head, payload, drawn)
    for place in range(len(sealed)):
        changed = sealed[:place] + (b'A' if sealed[place] != ord('A') else b'B') + sealed[place + 1:]
        yield f'digit {place} of sealed changed', unseal_there(0, changed, wrapped), unseal(key, head, changed, wrapped) or b''


compared = list(expected()) + [value for path in sys.argv[1:] for value in exported(path)]
wrong = [(name, told, computed) for name, told, computed in compared if told is None or told != computed]
for name, told, computed in wrong:
    print(f'{name}: expected {told}, computed {computed}')
print(f'{len(compared) - len(wrong)} of {len(compared)} values are as computed')
sys.exit(1 if wrong else 0)
