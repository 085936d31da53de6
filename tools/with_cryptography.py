#!/usr/bin/env python3
"""with_cryptography.py FOLDER: what tools/with_openssl.sh issued there, seen by python3-cryptography.

What `shelf tbs` wrote is what is signed; the issuer's key signed it; names and key identifiers lead from one to the
next; and, where the library does path validation and its profile has the algorithms, the server's path is valid.
"""

import sys
from pathlib import Path

from cryptography import x509
from cryptography.hazmat.primitives.asymmetric import ec, ed25519, padding, rsa

folder = Path(sys.argv[1])


def pem(name, read):
    return read((folder / name).read_bytes())


def certificate(name):
    return pem(name, x509.load_pem_x509_certificate)


def wants(holds, what):
    if not holds:
        sys.exit(f"{what}: it doesn't hold")


def signed(key, made, message):
    """Raises where the signature isn't the key's over the message."""
    digest = made.signature_hash_algorithm
    if isinstance(key, ed25519.Ed25519PublicKey):
        key.verify(made.signature, message)
    elif isinstance(key, ec.EllipticCurvePublicKey):
        key.verify(made.signature, message, ec.ECDSA(digest))
    elif isinstance(key, rsa.RSAPublicKey):
        # PKCS #1 v1.5, or PSS with the salt and the mask of the algorithm's parameters.
        key.verify(made.signature, message, getattr(made, "signature_algorithm_parameters", padding.PKCS1v15()), digest)
    else:
        sys.exit("no such key is known")


def looked_at(name, made, message, issuer):
    """What is signed is what tbs wrote, and the key that is to have signed it did."""
    wants(message == (folder / f"{name}.in.tbs").read_bytes(), f"{name}: what tbs wrote is what is signed")
    signed(issuer.public_key(), made, message)


def identifier(made, kind):
    found = made.extensions.get_extension_for_class(kind).value
    return found.key_identifier if kind is x509.AuthorityKeyIdentifier else found.digest


root, authority = certificate("root.pem"), certificate("sub.pem")
below = {"root": root, "sub": root, "www": authority, "client": authority}
for name, issuer in below.items():
    made = certificate(f"{name}.pem")
    looked_at(name, made, made.tbs_certificate_bytes, issuer)
    wants(made.issuer.public_bytes() == issuer.subject.public_bytes(), f"{name}: the issuer's name")
    wants(identifier(made, x509.AuthorityKeyIdentifier) == identifier(issuer, x509.SubjectKeyIdentifier), f"{name}: the issuer's key")
    usage = made.extensions.get_extension_for_class(x509.KeyUsage)
    wants(usage.critical and usage.value.key_cert_sign == (name in ("root", "sub")), f"{name}: its key's usage")
    ca = made.extensions.get_extension_for_class(x509.BasicConstraints)
    wants(ca.critical and ca.value.ca == (name in ("root", "sub")), f"{name}: whether it is an authority")

for name, issuer in {"root": root, "sub": authority}.items():
    made = pem(f"{name}.crl", x509.load_pem_x509_crl)
    looked_at(f"{name}.crl", made, made.tbs_certlist_bytes, issuer)
    wants(made.issuer.public_bytes() == issuer.subject.public_bytes(), f"{name}: the list's issuer")
    wants([entry.serial_number for entry in made] == [0x1002], f"{name}: the list's entries")

delta = pem("delta.crl", x509.load_pem_x509_crl)
looked_at("delta.crl", delta, delta.tbs_certlist_bytes, authority)
indicator = delta.extensions.get_extension_for_class(x509.DeltaCRLIndicator)
wants(indicator.critical and indicator.value.crl_number == 10, "the delta list's base")
wants(delta.extensions.get_extension_for_class(x509.CRLNumber).value.crl_number == 11, "the delta list's number")
released = delta[0].extensions.get_extension_for_class(x509.CRLReason).value.reason
wants(released is x509.ReasonFlags.remove_from_crl, "the delta list's first entry")

request = pem("req.pem", x509.load_pem_x509_csr)
looked_at("req", request, request.tbs_certrequest_bytes, request)
wants(request.is_signature_valid, "req: the signature is its own key's")

server = certificate("www.pem")
names = server.extensions.get_extension_for_class(x509.SubjectAlternativeName).value
wants(names.get_values_for_type(x509.DNSName) == ["www.lab", "lab"], "www: the names of the request")
wants(server.public_key() == pem("www.csr", x509.load_pem_x509_csr).public_key(), "www: the request's key")

# The library's profile is that of the Web: no Ed25519, and no keys of id-RSASSA-PSS.
path = [root, authority, server]
keys = [made.public_key() for made in path]
is_pss = any(made.public_key_algorithm_oid.dotted_string == "1.2.840.113549.1.1.10" for made in path if hasattr(made, "public_key_algorithm_oid"))
if not is_pss and not any(isinstance(key, ed25519.Ed25519PublicKey) for key in keys):
    try:
        from cryptography.x509.verification import PolicyBuilder, Store
    except ImportError:
        sys.exit()
    path = PolicyBuilder().store(Store([root])).build_server_verifier(x509.DNSName("www.lab")).verify(server, [authority])
    wants(path == [server, authority, root], "www: its path")
