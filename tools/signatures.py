"""Signatures of Sawtooth 1.x: ECDSA on secp256k1 over SHA-256, written as 128 hex digits of r and s.

A module of attest.py, batches.py and sign.py. It needs the distribution's `python3-cryptography`, or the package
`cryptography` of another Python. Run by itself it tests what Sawtooth's own SDK says of one key and message.
"""

import re
import sys

import usage


def stop(why):
    """Ends the tool with 2 and one line."""
    print(f"{sys.argv[0]}: {why}", file=sys.stderr)
    sys.exit(2)


try:
    from cryptography.exceptions import InvalidSignature, UnsupportedAlgorithm
    from cryptography.hazmat.primitives.asymmetric import ec
    from cryptography.hazmat.primitives.asymmetric.utils import decode_dss_signature, encode_dss_signature
    from cryptography.hazmat.primitives.hashes import SHA256
    from cryptography.hazmat.primitives.serialization import Encoding, PublicFormat
except ImportError:
    stop("the Python package cryptography is missing; on Debian: apt-get install python3-cryptography")

# The order of the curve's group (SEC 2, section 2.4.1).
ORDER = 0xFFFFFFFFFFFFFFFFFFFFFFFFFFFFFFFEBAAEDCE6AF48A03BBFD25E8CD0364141
CURVE, OVER_SHA256 = ec.SECP256K1(), ec.ECDSA(SHA256())

# Keys that were read, since a key signs much.
READ = {}


def public_key(digits):
    """The key of 66 hex digits of a compressed point; `None` where there is no such point."""
    if digits not in READ:
        try:
            READ[digits] = ec.EllipticCurvePublicKey.from_encoded_point(CURVE, bytes.fromhex(digits))
        except ValueError:
            READ[digits] = None
    return READ[digits]


def fault(key, signature, message):
    """Why the signature is not the key's over the message; no text where it is."""
    if not re.fullmatch("0[23][0-9a-f]{64}", key):
        return "the key is not 66 hex digits of a compressed point"
    if not re.fullmatch("[0-9a-f]{128}", signature):
        return "the signature is not 128 hex digits"
    r, s = int(signature[:64], 16), int(signature[64:], 16)
    if not 0 < r < ORDER or not 0 < s <= ORDER // 2:
        return "the signature is out of range, or its s in the upper half"
    if public_key(key) is None:
        return "the key is no point of the curve"
    try:
        public_key(key).verify(encode_dss_signature(r, s), message, OVER_SHA256)
    except InvalidSignature:
        return "the signature is not the key's over these bytes"
    return ""


def private_key(name):
    """The key of a file with 64 hex digits, as `sawtooth keygen` writes it."""
    try:
        with open(name, encoding="ascii") as file:
            digits = file.read().strip()
    except (OSError, UnicodeDecodeError) as error:
        stop(f"the key file {name!r} cannot be read: {error}")
    if not re.fullmatch("[0-9a-fA-F]{64}", digits) or not 0 < int(digits, 16) < ORDER:
        stop(f"{name!r} is not 64 hex digits of a private key")
    return ec.derive_private_key(int(digits, 16), CURVE)


def digits_of(private):
    """The 66 hex digits of the public key."""
    return private.public_key().public_bytes(Encoding.X962, PublicFormat.CompressedPoint).hex()


def deterministic():
    """The way to sign that gives one signature for one message (RFC 6979), where the package has it."""
    try:
        return ec.ECDSA(SHA256(), deterministic_signing=True)
    except (TypeError, UnsupportedAlgorithm):
        return OVER_SHA256


WAY = deterministic()


def sign(private, message):
    """The signature over a message, with the s of the lower half."""
    r, s = decode_dss_signature(private.sign(message, WAY))
    return f"{r:064x}{min(s, ORDER - s):064x}"


def main():
    """The key, message and signature stand in the tests of Sawtooth's Python SDK."""
    usage.words(__doc__)
    private = ec.derive_private_key(0x2F1E7B7A130D7BA9DA0068B3BB0BA1D79E7E77110302C9F746C3C2A63FE40088, CURVE)
    key = "026a2c795a9776f75464aa3bda3534c3154a6e91b357b1181d3f515110f84b67c5"
    signed = (
        "5195115d9be2547b720ee74c23dd841842875db6eae1f5da8605b050a49e702b"
        "4aa83be72ab7e3cb20f17c657011b49f4c8632be2745ba4de79e6aa05da57b35"
    )
    upper = f"{signed[:64]}{ORDER - int(signed[64:], 16):064x}"
    tests = [
        digits_of(private) == key,
        not fault(key, signed, b"test"),
        not fault(key, sign(private, b"test"), b"test"),
        WAY is OVER_SHA256 or sign(private, b"test") == signed,
        bool(fault(key, signed, b"tesu")),
        bool(fault(key, upper, b"test")),
    ]
    print(f"{sum(tests)} of {len(tests)} tests passed")
    return 0 if all(tests) else 1


if __name__ == "__main__":
    sys.exit(main())
