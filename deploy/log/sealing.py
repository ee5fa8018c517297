"""Bodies under a domain's own key: AES-256 in counter mode, by the libcrypto of OpenSSL, which Python's own hashes use.
Before that they are deflated (RFC 1950): what is sealed can't be made shorter any more.

Who has no key reads no body, and neither does anybody once the key is gone. That a sealed body wasn't changed is shown
by the record that has it, and not here.
"""
from __future__ import annotations

import ctypes
import functools
import os
import zlib

KEY_BYTES, START_BYTES = 32, 16
LIBRARIES = ("libcrypto.so.3", "libcrypto.so.1.1")
# how long a body is that is inflated: twice pdpd's longest
MOST_INFLATED = 1 << 20


class Sealing(Exception):
    """A body can't be sealed or opened here, and why."""


@functools.cache
def library() -> ctypes.CDLL:
    for name in LIBRARIES:
        try:
            found = ctypes.CDLL(name)
        except OSError:
            continue
        for function in (found.EVP_aes_256_ctr, found.EVP_CIPHER_CTX_new):
            function.restype = ctypes.c_void_p
        found.EVP_EncryptInit_ex.argtypes = [ctypes.c_void_p] * 3 + [ctypes.c_char_p] * 2
        found.EVP_EncryptUpdate.argtypes = [ctypes.c_void_p, ctypes.c_char_p, ctypes.POINTER(ctypes.c_int),
                                            ctypes.c_char_p, ctypes.c_int]
        found.EVP_CIPHER_CTX_free.argtypes = [ctypes.c_void_p]
        return found
    raise Sealing(f"OpenSSL is missing ({' and '.join(LIBRARIES)}): apt-get install openssl")


def counted(key: bytes, start: bytes, data: bytes) -> bytes:
    """The data with the stream that a key makes from a first counter on; the same again gives the data back."""
    calls = library()
    context, made, length = calls.EVP_CIPHER_CTX_new(), ctypes.create_string_buffer(len(data) or 1), ctypes.c_int(0)
    if not context:
        raise MemoryError
    try:
        if not (calls.EVP_EncryptInit_ex(context, calls.EVP_aes_256_ctr(), None, key, start)
                and calls.EVP_EncryptUpdate(context, made, ctypes.byref(length), data, len(data))):
            raise Sealing("OpenSSL refuses AES-256 in counter mode")
    finally:
        calls.EVP_CIPHER_CTX_free(context)
    return made.raw[:length.value]


def sealed(key: bytes, body: bytes) -> bytes:
    """A body under a key; an empty one stays so."""
    if not body:
        return b""
    start = os.urandom(START_BYTES)
    return start + counted(key, start, body)


def opened(key: bytes, data: bytes) -> bytes:
    """The body in what `sealed` gave."""
    return counted(key, data[:START_BYTES], data[START_BYTES:]) if data else b""


def deflated(body: bytes) -> bytes | None:
    """A body, deflated; None where that wouldn't be shorter."""
    found = zlib.compress(body)
    return found if len(found) < len(body) else None


def inflated(data: bytes) -> bytes:
    """The body that was deflated; a ValueError where it is none of at most so many bytes."""
    reader = zlib.decompressobj()
    try:
        found = reader.decompress(data, MOST_INFLATED)
    except zlib.error as fault:
        raise ValueError(f"it isn't deflated: {fault}") from None
    if not reader.eof:
        raise ValueError(f"it is cut, or has more than {MOST_INFLATED} bytes")
    return found
