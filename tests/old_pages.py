"""How old what a host reads may be that another one has written: for tests/machines.

Host 3 writes the moment into a file and syncs it, again and again, as a store is written. Host 2 opens the file and reads it, by the mount of the unit and by another one that lacks one of its words. What was synced before it looked it has to find there by the first mount, and by the other one it has to miss that, or this shows nothing.
"""
import os
import sys

from hosts import MOUNT, command_of

SECONDS = 10
WORD = "--fopen-keep-cache=off"
OTHER = "/srv/other"
# Both hosts see what stands in the folder of all hosts: the moment that was synced last.
WRITER = r'''
import os, sys, time
path, synced, pause, seconds = sys.argv[1], sys.argv[2], float(sys.argv[3]), float(sys.argv[4])
file, told = os.open(path, os.O_RDWR | os.O_CREAT, 0o600), os.open(synced, os.O_RDWR | os.O_CREAT, 0o600)
os.pwrite(file, bytes(8192), 0)
end = time.monotonic() + seconds
while time.monotonic() < end:
    moment = b"%020.6f" % time.monotonic()
    os.pwrite(file, b"x" * 512, 4096)
    os.fdatasync(file)
    os.pwrite(file, moment, 0)
    os.fdatasync(file)
    os.pwrite(told, moment, 0)
    time.sleep(pause)
'''
READER = r'''
import os, sys, time
path, synced, seconds = sys.argv[1], sys.argv[2], float(sys.argv[3])
end, looks, old, oldest = time.monotonic() + seconds, 0, 0, 0
while time.monotonic() < end:
    told = os.open(synced, os.O_RDONLY)
    moment = float(os.pread(told, 20, 0))
    os.close(told)
    file = os.open(path, os.O_RDONLY)
    age = moment - float(os.pread(file, 20, 0))
    os.close(file)
    looks, old, oldest = looks + 1, old + (age > 1), max(oldest, age)
    time.sleep(0.1)
print(looks, old, oldest)
'''


def looked(hosts, pause):
    """Of each mount how many looks there were, how many of them were older than a second, and the age of the oldest."""
    name, synced = "moments", os.path.join(hosts.folder, "synced")
    writer = hosts.start(3, sys.executable, "-c", WRITER, f"{MOUNT}/{name}", synced, str(pause), str(SECONDS + 5))
    hosts.run(2, "sh", "-c", f"while ! [ -s {synced} ]; do sleep 0.1; done")
    readers = {mount: hosts.begin_to_tell(2, sys.executable, "-c", READER, f"{mount}/{name}", synced, str(SECONDS)) for mount in (MOUNT, OTHER)}
    told = {mount: reader.communicate()[0].split() for mount, reader in readers.items()}
    writer.wait()
    os.remove(synced)
    return {mount: (int(looks), int(old), float(oldest)) for mount, (looks, old, oldest) in told.items()}


def rows(hosts):
    hosts.run(2, "mkdir", "-p", OTHER)
    hosts.run(2, *(word for word in command_of("dav-volume.service")[:-1] if word != WORD and not word.startswith("--pid-file")), OTHER)
    for pause in (0.01, 0.4):
        found = looked(hosts, pause)
        for mount, what, is_right in ((MOUNT, "the unit's mount", lambda old: old == 0), (OTHER, f"a mount without {WORD}", lambda old: old > 0)):
            looks, old, oldest = found[mount]
            line = f"old pages, a write each {pause} s, {what}: {looks} looks, {old} of them older than a second, the oldest by {oldest:.2f} s"
            print(f"machines: {line}", flush=True)
            yield line, looks > 30 and is_right(old)
    hosts.run(2, "umount", OTHER)
