#!/usr/bin/env python3
"""issue.py LIBRARY ORDER KEY [FILE..]: prints what the order makes, as PEM, signed by the private key, which only openssl reads.

LIBRARY is libshelf.so, as tools/with_c.sh makes it. The files hold public keys, requests and certificates, as for `shelf tbs`;
where none is named, the public key of KEY takes their place. It ends with the status of include/shelf.h.
"""
import ctypes
import pathlib
import subprocess
import sys
import tempfile

DONE, REFUSED, NO_ROOM = 0, 5, 8


class Outcome(ctypes.Structure):
    """struct shelf_outcome: the status, and how many octets the answer and the lines after it have."""
    _fields_ = [('status', ctypes.c_uint32), ('length', ctypes.c_size_t), ('told', ctypes.c_size_t)]


def answer(function, *inputs):
    """What a function of the library makes of these octets. Its lines go to standard error; without an answer it ends the program."""
    function.restype, room = Outcome, 1 << 16
    given = [part for octets in inputs for part in (ctypes.c_char_p(octets), ctypes.c_size_t(len(octets)))]
    while True:
        buffer = ctypes.create_string_buffer(room)
        outcome = function(*given, buffer, ctypes.c_size_t(room))
        if outcome.status != NO_ROOM:
            break
        room = outcome.length + outcome.told
    if outcome.status <= REFUSED:
        sys.stderr.write(buffer.raw[outcome.length:outcome.length + outcome.told].decode())
    if outcome.status != DONE:
        sys.exit(outcome.status)
    return buffer.raw[:outcome.length]


def signature_of(key, message):
    """The key's signature of the message: Ed25519, or with SHA-256."""
    with tempfile.NamedTemporaryFile() as file:
        file.write(message)
        file.flush()
        signing = ['openssl', 'pkeyutl', '-sign', '-rawin', '-inkey', key, '-in', file.name]
        return subprocess.run(signing, stdout=subprocess.PIPE, check=True).stdout


def main(library, order, key, *files):
    shelf = ctypes.CDLL(str(pathlib.Path(library).resolve()))
    order = pathlib.Path(order).read_bytes()
    given = b''.join(pathlib.Path(file).read_bytes() for file in files)
    given = given or subprocess.run(['openssl', 'pkey', '-in', key, '-pubout'], stdout=subprocess.PIPE, check=True).stdout
    message = answer(shelf.shelf_tbs, order, given)
    print(answer(shelf.shelf_seal, order, given, signature_of(key, message)).decode(), end='')


if __name__ == '__main__':
    if len(sys.argv) < 4:
        sys.exit(__doc__)
    main(*sys.argv[1:])
