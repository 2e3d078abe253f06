"""Lab traces a second time, apart from the library: a reader, a writer, the replay and the rescue, with Python's hashes and the ciphers of
python3-cryptography. Heads are read and written as strings of bits, the most significant first, as the format is put into words.
"""
import hashlib
import hmac

from cryptography.exceptions import InvalidTag
from cryptography.hazmat.primitives.ciphers.aead import AESCCM, AESGCM

NEGOTIATE, SETUP, SEALED, SESSION = range(4)
EDITIONS = {1: (21, 7, 1048628), 2: (24, 4, 8454196)}  # bits of the length, zero bits, longest payload
WRITTEN, HELD, RECORDS = 2, 65536, 16
LIMIT = 8454144
DIALECTS = (0x0300, 0x0302, 0x0311)
LABELS_311 = (b"SMBC2SCipherKey\0", b"SMBS2CCipherKey\0")
CONTEXTS_30 = (b"ServerIn \0", b"ServerOut\0")


# ---- the format


def bits(number, width):
    return format(number, "b").zfill(width)


def packed(fields):
    """Bytes of these (number, width) fields, which fill 32 bits."""
    text = "".join(bits(*field) for field in fields)
    return int(text, 2).to_bytes(4, "big")


def unpacked(head, widths):
    text, out = "".join(bits(byte, 8) for byte in head), []
    for width in widths:
        out.append(int(text[:width], 2))
        text = text[width:]
    return out


def file_head(dialect, cipher, edition=WRITTEN):
    return packed([(edition, 8), (dialect, 16), (cipher, 8)])


def record(kind, from_server, payload, edition=WRITTEN):
    width, zeros, _ = EDITIONS[edition]
    return packed([(kind, 3), (int(from_server), 1), (len(payload), width), (0, zeros)]) + payload


def right_length(kind, length, longest):
    return length == 24 if kind == SESSION else 1 <= length <= longest


def read_head(trace):
    """Dialect and cipher, or None for a bad file head."""
    if len(trace) < 4:
        return None
    edition, dialect, cipher = unpacked(trace[:4], (8, 16, 8))
    return (dialect, cipher) if edition in EDITIONS else None


def read(trace, at):
    """Of a trace with a good head: kind, whether it is from the server, and the payload; "end", or None for what cannot be read."""
    if at >= len(trace):
        return "end"
    if len(trace) - at < 4:
        return None
    width, zeros, longest = EDITIONS[trace[0]]
    kind, direction, length, spare = unpacked(trace[at : at + 4], (3, 1, width, zeros))
    if kind > SESSION or spare or not right_length(kind, length, longest) or at + 4 + length > len(trace):
        return None
    return kind, direction == 1, trace[at + 4 : at + 4 + length]


# ---- the rescue


def is_found(trace, at):
    """Whether the reader takes up again here."""
    record = read(trace, at)
    return record not in ("end", None) and record[0] != SESSION and record[2][:4] in (b"\xfeSMB", b"\xfdSMB")


def rescue(trace):
    """What comes out, or None, and the lines that are written."""
    if len(trace) > HELD:
        return None, "long\n"
    if read_head(trace) is None:
        return None, "stop 0\n"
    out, gaps, at = [trace[:4]], [], 4
    while at < len(trace):
        record = read(trace, at)
        if record is not None:
            after = at + 4 + len(record[2])
            out.append(trace[at:after])
        else:
            after = next((place for place in range(at + 1, len(trace)) if is_found(trace, place)), len(trace))
            gaps.append(f"{at} {after - at}\n")
        at = after
    return b"".join(out), "".join(gaps)


# ---- the replay


def little(b, at, size):
    return int.from_bytes(b[at : at + size], "little")


def is_notice(inner, at):
    """A break notice, by its Command, MessageId and SessionId."""
    return (little(inner, at + 12, 2), little(inner, at + 24, 8), little(inner, at + 40, 8)) == (0x12, 2**64 - 1, 0)


def walk(inner, identity, from_server):
    """The number of the first rule that an inner header breaks, or 0."""
    if len(inner) < 64:
        return 11
    at = 0
    while True:
        related = little(inner, at + 16, 4) & 4 != 0
        if inner[at : at + 4] != b"\xfeSMB":
            return 12
        if at == 0 and related:
            return 13
        exempt = related or (from_server and is_notice(inner, at))
        if not exempt and little(inner, at + 40, 8) != identity:
            return 14
        distance = little(inner, at + 20, 4)
        if distance == 0:
            return 0
        if distance < 64 or at + distance + 64 > len(inner):
            return 15
        if distance % 8:
            return 16
        at += distance


class Lab:
    def __init__(self, dialect, cipher):
        self.dialect, self.cipher = dialect, cipher
        self.connection = self.session = bytes(64)
        self.table = {}
        self.wide, self.gcm = (dialect == 0x0311 and cipher in numbers for numbers in ((3, 4), (2, 4)))

    def folded(self, chain, message, response):
        """The number, and the chain afterwards."""
        if not 64 <= len(message) <= LIMIT:
            return 23, chain
        if response and little(message, 8, 4) != 0xC0000016:
            return 0, chain
        return 0, hashlib.sha512(chain + message).digest()

    def cipher_keys(self, key, chain):
        """From the client to the server, and back."""

        def derived(label, context):
            text = b"\0\0\0\1" + label + b"\0" + context + (b"\0\0\1\0" if self.wide else b"\0\0\0\x80")
            return hmac.new(key, text, hashlib.sha256).digest()[: 32 if self.wide else 16]

        if self.dialect == 0x0311:
            return [derived(label, chain) for label in LABELS_311]
        return [derived(b"SMB2AESCCM\0", context) for context in CONTEXTS_30]

    def add(self, payload):
        identity, key = int.from_bytes(payload[:8], "big"), payload[8:24]
        if self.dialect not in DIALECTS:
            return 18
        if identity == 0:
            return 20
        if identity in self.table:
            return 21
        if len(self.table) == RECORDS:
            return 22
        self.table[identity] = self.cipher_keys(key, self.session)
        return 0

    def encrypts(self):
        return self.dialect in DIALECTS and (self.cipher in (1, 2, 3, 4) if self.dialect == 0x0311 else self.cipher != 0)

    def decrypted(self, m, key):
        if self.gcm:
            return AESGCM(key).decrypt(m[20:32], m[52:] + m[4:20], m[20:52])
        return AESCCM(key, tag_length=16).decrypt(m[20:31], m[52:] + m[4:20], m[20:52])

    def open(self, m, from_server):
        if not self.encrypts():
            return 1
        if len(m) <= 52:
            return 2
        if len(m) - 52 > LIMIT:
            return 3
        if m[:4] != b"\xfdSMB":
            return 4
        if little(m, 42, 2) != 1:
            return 5
        if self.gcm and any(m[32:36]):
            return 29
        identity = little(m, 44, 8)
        if identity not in self.table:
            return 6
        try:
            inner = self.decrypted(m, self.table[identity][int(from_server)])
        except InvalidTag:
            return 9
        if little(m, 36, 4) != len(inner):
            return 10
        return walk(inner, identity, from_server)

    def sealed(self, identity, from_server, inner, nonce, size=None):
        """A message as the other end would make it, or with another size in its header; the nonce field has 16 bytes."""
        data = nonce + (len(inner) if size is None else size).to_bytes(4, "little") + b"\0\0\1\0" + identity.to_bytes(8, "little")
        key = self.table[identity][int(from_server)]
        if self.gcm:
            out = AESGCM(key).encrypt(nonce[:12], inner, data)
        else:
            out = AESCCM(key, tag_length=16).encrypt(nonce[:11], inner, data)
        return b"\xfdSMB" + out[-16:] + data + out[:-16]

    def step(self, kind, from_server, payload):
        """What the record does: its number."""
        if kind == NEGOTIATE:
            number, self.connection = self.folded(self.connection, payload, False)
        elif kind == SETUP:
            number, self.session = self.folded(self.session, payload, from_server)
        elif kind == SEALED:
            number = self.open(payload, from_server)
        else:
            number = self.add(payload)
        if kind in (NEGOTIATE, SESSION):
            self.session = self.connection
        return number


def replay(trace):
    """The lines, each with its end."""
    head = read_head(trace)
    if head is None:
        return "stop 0\n"
    lab, at, index, out = Lab(*head), 4, 0, []
    while (found := read(trace, at)) != "end":
        if found is None:
            out.append(f"stop {at}\n")
            break
        kind, from_server, payload = found
        answer = "long" if len(payload) > HELD else lab.step(kind, from_server, payload)
        out.append(f"{index} {answer}\n")
        at, index = at + 4 + len(payload), index + 1
    return "".join(out)
