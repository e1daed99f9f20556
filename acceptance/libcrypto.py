"""AES-128 in CBC mode by openssl's library, for those who seal often: a process for each segment takes too long."""

import ctypes
import ctypes.util

BLOCK = 16

library = ctypes.CDLL(ctypes.util.find_library("crypto"))
for name in ("EVP_CIPHER_CTX_new", "EVP_aes_128_cbc"):
    getattr(library, name).restype = ctypes.c_void_p
cipher = ctypes.c_void_p(library.EVP_aes_128_cbc())
context = ctypes.c_void_p(library.EVP_CIPHER_CTX_new())


def turned(data, key, vector, encrypts):
    """Whole blocks, without padding."""
    result, count = ctypes.create_string_buffer(len(data) + BLOCK), ctypes.c_int()
    begun = library.EVP_CipherInit_ex(context, cipher, None, key, vector, int(encrypts))
    library.EVP_CIPHER_CTX_set_padding(context, 0)
    if not begun or not library.EVP_CipherUpdate(context, result, ctypes.byref(count), data, len(data)):
        raise RuntimeError("openssl's library refuses to work")
    return result.raw[: count.value]


def sealed(plain, key, vector):
    """As `openssl enc -aes-128-cbc` does it; the key is hex digits."""
    padding = BLOCK - len(plain) % BLOCK
    return turned(plain + bytes([padding]) * padding, bytes.fromhex(key), vector, True)


def opened(data, key, vector):
    """What was sealed; None where nothing was."""
    if not data or len(data) % BLOCK:
        return None
    plain = turned(data, bytes.fromhex(key), vector, False)
    padding = plain[-1]
    if not 1 <= padding <= BLOCK or plain[-padding:] != bytes([padding]) * padding:
        return None
    return plain[:-padding]
