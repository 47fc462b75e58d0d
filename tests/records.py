"""Records of stores, as docs/FORMATS.md has them."""
import os
import struct
import uuid

COMMANDS = {0: "put", 2: "mkcol", 3: "remove"}


def number(value):
    return struct.pack("<Q", value)


def text(value):
    return number(len(value)) + value


def following(before, value):
    """A text behind another one."""
    front = len(os.path.commonprefix([before, value]))
    return number(front) + number(len(value)) + value[front:]


def option(value):
    return b"\0" if value is None else b"\1" + value


def flag(value):
    return bytes([value])


def folder(path):
    """A path as a record has it: its segments, each with a slash behind it."""
    return b"/" + b"".join(name + b"/" for name in path)


def gates_of(content):
    """Where the gates are of a whole store, from the first to the one that is shut."""
    gates = [56]
    while content[gates[-1] : gates[-1] + 8] != b"shutgate":
        gates.append(gates[-1] + 24 + struct.unpack_from("<Q", content, gates[-1] + 8)[0])
    return gates


class Record:
    """The record of one request."""

    def __init__(self, moment):
        self.caller, self.path = b"", b""
        self.notes, self.bodies, self.moment, self.lines = [], [], moment, []

    def note(self, command, fields, who=(None, ()), drawn=None):
        """A note of the caller, with the fields behind the command."""
        principal, tokens = who
        who = number(self.moment) + option(principal and text(principal)) + number(len(tokens)) + b"".join(map(text, tokens))
        self.notes.append(following(self.caller, who) + option(drawn) + bytes([command]) + fields)
        self.caller = who

    def behind(self, path):
        """A path behind the one before."""
        told = following(self.path, folder(path))
        self.path = folder(path)
        return told

    def add(self, command, path, body=None):
        fields = self.behind(path)
        if body is not None:
            fields += number(len(body))
            self.bodies.append(body)
        self.note(command, fields)
        self.lines.append((f"{self.moment} - - {COMMANDS[command]} {told_path(path, False)}", body))

    def hex(self):
        head = number(len(self.notes)) + b"".join(self.notes)
        return (text(head) + b"".join(self.bodies)).hex()


def told_path(path, is_folder):
    plain = b"abcdefghijklmnopqrstuvwxyzABCDEFGHIJKLMNOPQRSTUVWXYZ0123456789-._~"
    names = ("".join(chr(byte) if byte in plain else f"%{byte:02X}" for byte in name) for name in path)
    return "/" + "/".join(names) + ("/" if is_folder and path else "")


def token_of(drawn):
    """The token of a lock that was drawn from these 16 bytes."""
    bits = bytearray(drawn)
    bits[6], bits[8] = bits[6] & 0x0F | 0x40, bits[8] & 0x3F | 0x80
    return b"urn:uuid:" + str(uuid.UUID(bytes=bytes(bits))).encode()


def draft_of(path, header, generation=None):
    """The name of the draft that is to take the place of a store with this header: of the next generation, where no other one is given."""
    if generation is None:
        generation = int.from_bytes(header[16:24], "little") + 1
    return f"{path}.draft-{int.from_bytes(header[24:32], 'little'):016x}-{generation}"
