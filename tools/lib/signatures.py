"""Tests who signed a published list and the manifests on it, by the library `cryptography` (Debian's python3-cryptography).

A manifest names the key by which a publisher or a member signs for now. The lasting key that it is known by has signed the
manifest, and so has the key that it names. The blob of a list is signed by the key of the publisher's manifest."""
import base64
import binascii
import hashlib
import importlib.util
from dataclasses import dataclass

PREFIX = b'MAN\0'
REVOKED = 2**32 - 1
ED25519 = 0xED
# the greatest second half of a signature that the network takes: half of the order of secp256k1
HALF_ORDER = 0x7FFFFFFFFFFFFFFFFFFFFFFFFFFFFFFF5D576E7357A4501DDFE92F46681B20A0
# the fields of a manifest by their marks: how many bytes, or None if a length stands before them
FIELDS = {
    b'\x10\x10': ('version', 2),
    b'\x24': ('sequence', 4),
    b'\x71': ('master', None),
    b'\x73': ('signing', None),
    b'\x76': ('signature', None),
    b'\x77': ('domain', None),
    b'\x70\x12': ('master_signature', None),
}
SIGNATURES = 'signature', 'master_signature'


class Wrong(Exception):
    """Why a signature, or what it stands in, isn't right."""


def is_here():
    """Whether the library is there."""
    return importlib.util.find_spec('cryptography') is not None


@dataclass
class Manifest:
    """The keys that it names, and its sequence. The highest one revokes the lasting key."""

    master: bytes
    signing: bytes
    sequence: int


def length_at(raw, at):
    """The length that stands there, and where it ends."""
    first = raw[at]
    if first <= 192:
        return first, at + 1
    if first <= 240:
        return 193 + (first - 193) * 256 + raw[at + 1], at + 2
    raise Wrong('a field of the manifest is too long')


def fields_of(raw):
    """The fields of a manifest, and the bytes that are signed: all but the signatures."""
    found, signed, at = {}, PREFIX, 0
    try:
        while at < len(raw):
            mark = raw[at : at + 1] if raw[at : at + 1] in FIELDS else raw[at : at + 2]
            if mark not in FIELDS:
                raise Wrong('the manifest has a field that isn\'t known')
            name, size = FIELDS[mark]
            begin = at + len(mark)
            if size is None:
                size, begin = length_at(raw, begin)
            if begin + size > len(raw) or name in found:
                raise Wrong('the manifest can\'t be read')
            found[name] = raw[begin : begin + size]
            if name not in SIGNATURES:
                signed += raw[at : begin + size]
            at = begin + size
    except IndexError:
        raise Wrong('the manifest is cut off') from None
    return found, signed


def decoded(text):
    try:
        return base64.b64decode(text, validate=True)
    except (ValueError, binascii.Error, TypeError):
        raise Wrong('it isn\'t base64') from None


def manifest_of(text, master):
    """A manifest of this lasting key, whose signatures are both right."""
    found, signed = fields_of(decoded(text))
    if found.get('master') != master or len(found.get('sequence', b'')) != 4:
        raise Wrong('the manifest is of another key')
    sequence = int.from_bytes(found['sequence'], 'big')
    if not is_signed(master, signed, found.get('master_signature')):
        raise Wrong('the lasting key didn\'t sign the manifest')
    if sequence == REVOKED:
        raise Wrong('the lasting key is revoked')
    if not is_signed(found.get('signing'), signed, found.get('signature')):
        raise Wrong('the key that the manifest names didn\'t sign it')
    return Manifest(master, found['signing'], sequence)


def is_signed(key, said, signature):
    """Whether the key signed it. Of secp256k1 the first half of its SHA-512 is signed, and by the smaller of two ways."""
    from cryptography.exceptions import InvalidSignature, UnsupportedAlgorithm
    from cryptography.hazmat.primitives import hashes
    from cryptography.hazmat.primitives.asymmetric import ec, ed25519, utils

    if not key or not signature:
        return False
    try:
        if key[0] == ED25519:
            ed25519.Ed25519PublicKey.from_public_bytes(key[1:]).verify(signature, said)
            return True
        digest = hashlib.sha512(said).digest()[:32]
        _, second = utils.decode_dss_signature(signature)
        public = ec.EllipticCurvePublicKey.from_encoded_point(ec.SECP256K1(), key)
        public.verify(signature, digest, ec.ECDSA(utils.Prehashed(hashes.SHA256())))
        return second <= HALF_ORDER
    except (InvalidSignature, UnsupportedAlgorithm, ValueError):
        return False


@dataclass
class Signed:
    """A blob as it was published: by whom, with which manifest, its text and its signature, and its members' manifests."""

    publisher: bytes
    manifest: str
    blob: str
    signature: str
    members: list

    def of_list(self):
        """None, or why the list isn't signed by its publisher."""
        try:
            key = manifest_of(self.manifest, self.publisher).signing
            signature = bytes.fromhex(self.signature)
        except Wrong as why:
            return str(why)
        except (ValueError, TypeError):
            return 'its signature can\'t be read'
        return None if is_signed(key, decoded(self.blob), signature) else 'the key of the manifest didn\'t sign the list'

    def of_members(self):
        """For the key of each member that has a manifest None, or what is wrong with that."""
        found = {}
        for key, manifest in self.members:
            if manifest:
                try:
                    manifest_of(manifest, key)
                    found[key] = None
                except Wrong as why:
                    found[key] = str(why)
        return found
