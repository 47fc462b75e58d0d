"""The calls of a program on the disk, as tests/crash.c traces them, and what a crash may leave of them."""
import os
import subprocess
from typing import NamedTuple


class Call(NamedTuple):
    """A call on a file or folder, by the letter that tests/crash.c has for it: at which offset or with which length, what it returned, and what bytes it had."""

    kind: bytes
    inode: int
    offset: int
    done: int
    bytes: bytes


def tracer(folder):
    """The library that traces calls, and lets them fail, which is built there."""
    library, source = os.path.join(folder, "crash.so"), os.path.join(os.path.dirname(os.path.abspath(__file__)), "crash.c")
    subprocess.run(["gcc", "-O1", "-Wall", "-Werror", "-shared", "-fPIC", "-o", library, source], check=True)
    return library


def calls_of(trace):
    with open(trace, "rb") as file:
        for line in file:
            kind, *rest = line.rstrip(b"\n").split(b" ")
            if kind == b"a":
                yield Call(kind, 0, 0, 0, bytes.fromhex(rest[0].decode()))
                continue
            inode, *numbers = map(int, rest[:3])
            if kind == b"w":
                yield Call(kind, inode, *numbers, bytes.fromhex(rest[3].decode()))
            else:
                yield Call(kind, inode, *([0] * (2 - len(numbers))), *numbers, b"")


class Disk:
    """What is on the disk, and what was written since; of a file that had such bytes at first."""

    def __init__(self, content=b""):
        self.synced, self.seen, self.writes, self.longest = content, content, [], len(content)

    def take(self, call):
        if call.kind == b"w":
            done = call.bytes if call.done < 0 else call.bytes[: call.done]
            self.writes.append((call.offset, done))
            self.longest = max(self.longest, call.offset + len(done))
            self.seen = put(self.seen, call.offset, done)
        elif call.kind == b"s" and call.done == 0:
            self.synced, self.writes, self.longest = self.seen, [], len(self.seen)

    def images(self, chance, count):
        """Files that a crash may leave."""
        yield self.synced
        yield self.seen
        if not self.writes:
            return
        for _ in range(count):
            length = chance.choice([len(self.synced), self.longest, chance.randint(len(self.synced), self.longest)])
            fresh = length - len(self.synced)
            image = bytearray(self.synced + (bytes(fresh) if chance.random() < 0.5 else chance.randbytes(fresh)))
            kept = [write for write in self.writes if chance.random() < 0.6]
            chance.shuffle(kept)
            for at, done in kept:
                torn = tear(chance, image[at : at + len(done)], done)[: max(0, length - at)]
                image[at : at + len(torn)] = torn
            yield bytes(image)


def put(file, at, done):
    file += bytes(max(0, at - len(file)))
    return file[:at] + done + file[at + len(done) :]


def tear(chance, old, new):
    """What is left of a write."""
    one, other = sorted(chance.randint(0, len(new)) for _ in range(2))
    old = bytes(old) + bytes(len(new) - len(old))
    return chance.choice(
        [
            new,
            new[:one] + old[one:],
            old[:one] + new[one:],
            old[:one] + new[one:other] + old[other:],
            new[:one] + bytes(other - one) + new[other:],
            old[:one] + b"\xff" * (other - one) + old[other:],
            old[:one] + chance.randbytes(other - one) + old[other:],
            bytes(chance.choice(pair) for pair in zip(old, new)),
        ]
    )
