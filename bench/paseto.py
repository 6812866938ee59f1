"""PASETO v4.local tokens, PASERK k4.local-wrap.pie wraps and k4.lid key ids by their documents, made and opened over
hashlib's BLAKE2b and libsodium's XChaCha20 (the package libsodium23). It shares no code with the crates."""
import base64
import ctypes
import ctypes.util
import hashlib
import hmac
import struct

sodium = ctypes.CDLL(ctypes.util.find_library('sodium') or 'libsodium.so.23')

def b64(data):
    return base64.urlsafe_b64encode(data).rstrip(b'=')


def blake2b(size, key, text):
    return hashlib.blake2b(text, digest_size=size, key=key).digest()


def xchacha20(key, nonce, text):
    out = ctypes.create_string_buffer(len(text))
    sodium.crypto_stream_xchacha20_xor(out, text, ctypes.c_ulonglong(len(text)), nonce, key)
    return out.raw


def pae(*pieces):
    encoded = struct.pack('<Q', len(pieces))
    for piece in pieces:
        encoded += struct.pack('<Q', len(piece)) + piece
    return encoded


def token(key, nonce, message, implicit):
    header = b'v4.local.'
    secrets = blake2b(56, key, b'paseto-encryption-key' + nonce)
    auth_key = blake2b(32, key, b'paseto-auth-key-for-aead' + nonce)
    cipher = xchacha20(secrets[:32], secrets[32:], message)
    tag = blake2b(32, auth_key, pae(header, nonce, cipher, b'', implicit))
    return header + b64(nonce + cipher + tag)


def wrap(by, nonce, key):
    header = b'k4.local-wrap.pie.'
    secrets = blake2b(56, by, b'\x80' + nonce)
    auth_key = blake2b(32, by, b'\x81' + nonce)
    cipher = xchacha20(secrets[:32], secrets[32:], key)
    tag = blake2b(32, auth_key, header + nonce + cipher)
    return header + b64(tag + nonce + cipher)


def key_id(key):
    return b'k4.lid.' + b64(blake2b(33, b'', b'k4.lid.' + b'k4.local.' + b64(key)))


def unb64(text):
    """The bytes of an unpadded base64url text; None where it is the text of none."""
    if any(digit not in b'ABCDEFGHIJKLMNOPQRSTUVWXYZabcdefghijklmnopqrstuvwxyz0123456789-_' for digit in text) or len(text) % 4 == 1:
        return None
    data = base64.urlsafe_b64decode(text + b'=' * (-len(text) % 4))
    return data if b64(data) == text else None


def open_token(key, text, implicit):
    """The message of a token; None where it is the token of none."""
    header = b'v4.local.'
    body = unb64(text[len(header):]) if text.startswith(header) else None
    if body is None or len(body) < 64:
        return None
    nonce, cipher = body[:32], body[32:-32]
    secrets = blake2b(56, key, b'paseto-encryption-key' + nonce)
    auth_key = blake2b(32, key, b'paseto-auth-key-for-aead' + nonce)
    tag = blake2b(32, auth_key, pae(header, nonce, cipher, b'', implicit))
    return xchacha20(secrets[:32], secrets[32:], cipher) if hmac.compare_digest(tag, body[-32:]) else None


def unwrap(by, text):
    """The key of a wrap; None where it is the wrap of none."""
    header = b'k4.local-wrap.pie.'
    body = unb64(text[len(header):]) if text.startswith(header) else None
    if body is None or len(body) != 96:
        return None
    nonce, cipher = body[32:64], body[64:]
    secrets = blake2b(56, by, b'\x80' + nonce)
    auth_key = blake2b(32, by, b'\x81' + nonce)
    tag = blake2b(32, auth_key, header + nonce + cipher)
    return xchacha20(secrets[:32], secrets[32:], cipher) if hmac.compare_digest(tag, body[:32]) else None
