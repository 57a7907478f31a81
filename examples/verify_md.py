#!/usr/bin/env python3
"""Checks a RAID-6 array of Linux md with `raid6 verify`. docs/MD.md tells what it does, and how to do it by hand.

    verify_md.py --folder NEW (--map | --copy) MEMBER..      checks the array of these members
    verify_md.py --make NEW [--version 1.0|1.1|1.2] [--slots N] [--chunk KIB] [--rows N]      makes members to try it on

Each member is opened for reading alone, by `read_only`; all that is written goes to files that are made anew, in the
folder NEW, which must not be there. With --map each member's data is a loop device of the system, read-only (losetup,
as root); with --copy it is copied into the folder. Members may be given in any order: each says its slot. Up to two
may be left out, and are then lost. The status is that of `raid6 verify`, or 2 where the members don't serve.
"""

import argparse
import os
import random
import struct
import subprocess
import sys
import uuid

SECTOR = 512
BLOCK = 4096
MOST_ROWS = 16_777_216
MOST_CHUNK = 128
RAID6 = os.path.join(os.path.dirname(os.path.dirname(os.path.realpath(__file__))), "raid6")

# ---- the superblock, version 1 (include/uapi/linux/raid/md_p.h of Linux), little-endian

MAGIC = 0xA92B4EFC
HEAD = struct.Struct("<4I16s32sQIIQIIi" "IQIIII" "QQQQII16sBBHi" "QQQII32x")
FIELDS = (
    "magic major features pad set_uuid name ctime level layout size chunk slots bitmap_offset "
    "new_level reshape_position delta_slots new_layout new_chunk new_offset "
    "data_offset data_size super_offset recovery_offset number corrected device_uuid flags bad_shift bad_size bad_offset "
    "utime events resync_offset checksum most"
).split()
LEFT_SYMMETRIC = 2
IN_SYNC = 2**64 - 1
RECOVERING, RESHAPING, BAD_BLOCKS, REPLACING, NEW_OFFSET, JOURNAL, PPL = 2, 4, 8, 16, 64, 512, 1024 | 2048


class Unfit(Exception):
    """Why a member, or the array, can't be checked."""


def checksum(block):
    """The sum of the superblock's words, its own checksum left out, folded once."""
    words = block[:216] + bytes(4) + block[220:]
    words += bytes(-len(words) % 4)
    total = sum(word for (word,) in struct.iter_unpack("<I", words))
    return (total & 0xFFFFFFFF) + (total >> 32) & 0xFFFFFFFF


def read_only(path):
    """The one way in which a member is opened."""
    return os.open(path, os.O_RDONLY | os.O_CLOEXEC)


def bytes_at(file, offset, count):
    found = os.pread(file, count, offset)
    if len(found) != count:
        raise Unfit("ends before its superblock does")
    return found


class Member:
    """A member: its path, its superblock by field, and its role."""

    def __init__(self, path):
        self.path = path
        file = read_only(path)
        try:
            self.length = os.lseek(file, 0, os.SEEK_END)
            self.read(file)
        finally:
            os.close(file)

    def read(self, file):
        sectors = self.length // SECTOR
        for offset in (8 * SECTOR, 0, (sectors - 16 & ~7) * SECTOR):  # versions 1.2, 1.1 and 1.0
            if offset < 0 or offset + HEAD.size > self.length:
                continue
            block = bytes_at(file, offset, HEAD.size)
            fields = dict(zip(FIELDS, HEAD.unpack(block)))
            if fields["magic"] == MAGIC and fields["major"] == 1 and fields["super_offset"] * SECTOR == offset:
                break
        else:
            raise Unfit("has no superblock of version 1 (for 0.90 see docs/MD.md)")
        if fields["most"] > 384:
            raise Unfit("has a superblock that is too long")
        block += bytes_at(file, offset + HEAD.size, 2 * fields["most"])
        if checksum(block) != fields["checksum"]:
            raise Unfit("has a superblock with a wrong checksum")
        self.__dict__.update(fields)
        roles = struct.unpack_from(f"<{self.most}H", block, HEAD.size)
        self.role = roles[self.number] if self.number < self.most else 0xFFFF


def require_fit(member):
    """That a member is one of an array that `raid6 verify` knows, and at rest."""
    chunk = member.chunk * SECTOR
    for wrong, why in (
        (member.level != 6, f"is of level {member.level}, not 6"),
        (member.layout != LEFT_SYMMETRIC, f"has layout {member.layout}, not left-symmetric"),
        (not 4 <= member.slots <= 32, f"is of {member.slots} slots: 4 to 32 are known"),
        (chunk % BLOCK or not 1 <= chunk // BLOCK <= MOST_CHUNK, f"has chunks of {chunk} bytes: 4 KiB to 512 KiB are known"),
        (member.features & (RESHAPING | NEW_OFFSET), "is in a reshape"),
        (member.features & (JOURNAL | PPL), "has a journal or a partial parity log, which may hold newer blocks"),
        (member.features & RECOVERING, "is not rebuilt to its end: leave it out"),
        (member.features & REPLACING, "is a replacement under way: leave it out"),
        (member.role >= member.slots, "has no slot: it is a spare, or was failed: leave it out"),
        (member.data_offset * SECTOR + member.size * SECTOR > member.length, "is shorter than its data"),
    ):
        if wrong:
            raise Unfit(why)


def array_of(paths):
    """The members of one array, by slot, none where one is left out."""
    members = []
    for path in paths:
        try:
            members.append(Member(path))
            require_fit(members[-1])
        except (Unfit, OSError) as error:
            raise Unfit(f"{path}: {error}")
    first = members[0]
    slots = [None] * first.slots
    for member in members:
        for field in ("set_uuid", "level", "layout", "size", "chunk", "slots"):
            if getattr(member, field) != getattr(first, field):
                raise Unfit(f"{member.path} and {first.path} differ in {field}: they are not of one array")
        if member.events != first.events:
            raise Unfit(f"{member.path} has {member.events} events, {first.path} {first.events}: leave out the older")
        if slots[member.role]:
            raise Unfit(f"{member.path} and {slots[member.role].path} both have slot {member.role}")
        slots[member.role] = member
        if member.features & BAD_BLOCKS:
            print(f"{member.path}: md has bad blocks listed; their rows can be wrong", file=sys.stderr)
    if slots.count(None) > 2:
        raise Unfit(f"{slots.count(None)} of {first.slots} members are left out: more than two")
    if first.resync_offset != IN_SYNC:
        print("md says that the array is not all in sync: rows can be wrong", file=sys.stderr)
    return slots


# ---- the data of a member, as a file or device of its own


def new_file(path):
    return os.open(path, os.O_WRONLY | os.O_CREAT | os.O_EXCL | os.O_CLOEXEC, 0o600)


def copied(member, path, offset, length):
    source, target = read_only(member.path), new_file(path)
    try:
        done = 0
        while done < length:
            part = os.pread(source, min(1 << 20, length - done), offset + done)
            if not part:
                raise Unfit(f"{member.path}: ends before its data does")
            if part.count(0) == len(part):
                os.ftruncate(target, done + len(part))
            else:
                os.pwrite(target, part, done)
            done += len(part)
    finally:
        os.close(source)
        os.close(target)
    return path


def mapped(member, offset, length):
    words = ["losetup", "--read-only", "--offset", str(offset), "--sizelimit", str(length), "--find", "--show"]
    return subprocess.run(words + [member.path], check=True, capture_output=True, text=True).stdout.strip()


def write_settings(path, first, rows, devices, lost):
    texts = ", ".join(f'"{device}"' for device in devices)
    lines = (
        f"slots = {first.slots}",
        f"chunk = {first.chunk * SECTOR // BLOCK}",
        f"block = {BLOCK}",
        f"rows = {rows}",
        "shards = 1",
        f"lost = {lost}",
        f"devices = [{texts}]",
    )
    file = new_file(path)
    os.write(file, ("\n".join(lines) + "\n").encode())
    os.close(file)


def verify_part(slots, folder, first_row, rows, map_them):
    """Checks so many rows, which begin where the layout does."""
    first = next(member for member in slots if member)
    devices, loops = [], []
    try:
        for slot, member in enumerate(slots):
            path = os.path.join(folder, f"row{first_row}-slot{slot}")
            if member:
                offset, length = member.data_offset * SECTOR + first_row * BLOCK, rows * BLOCK
                if map_them:
                    path = mapped(member, offset, length)
                    loops.append(path)
                else:
                    copied(member, path, offset, length)
            devices.append(path)
        lost = [slot for slot, member in enumerate(slots) if not member]
        settings = os.path.join(folder, f"row{first_row}.toml")
        write_settings(settings, first, rows, devices, lost)
        if first_row:
            print(f"from row {first_row} on:", flush=True)
        status = subprocess.run([RAID6, "verify", settings]).returncode
        if status < 0:
            raise Unfit(f"verify was ended by signal {-status}")
        return status
    finally:
        for loop in loops:
            if subprocess.run(["losetup", "--detach", loop]).returncode:
                print(f"verify_md: {loop} is attached still", file=sys.stderr)


def verify(paths, folder, map_them):
    slots = array_of(paths)
    first = next(member for member in slots if member)
    chunk = first.chunk * SECTOR // BLOCK
    rows = first.size // first.chunk * chunk
    if not rows:
        raise Unfit(f"{first.path}: its data are less than one chunk")
    # the layout begins again after as many chunk rows as there are slots
    step = MOST_ROWS // (chunk * first.slots) * chunk * first.slots
    os.mkdir(folder, 0o700)
    worst = 0
    for first_row in range(0, rows, step):
        worst = max(worst, verify_part(slots, folder, first_row, min(step, rows - first_row), map_them))
    return worst


# ---- members to try it on, by the formulas of Linux


def syndrome(data):
    """P and Q of blocks: the generic code of Linux's lib/raid6 (int.uc), on one word as wide as a block."""
    width = len(data[0])
    high, low, poly = (int.from_bytes(bytes([byte]) * width, "little") for byte in (0x80, 0xFE, 0x1D))
    words = [int.from_bytes(block, "little") for block in data]
    p = q = words[-1]
    for word in reversed(words[:-1]):
        p ^= word
        top = q & high
        mask = (top << 1) - (top >> 7)
        q = (q << 1) & low ^ mask & poly ^ word
    return p.to_bytes(width, "little"), q.to_bytes(width, "little")


def places(stripe, slots):
    """The slots of P, of Q and of the data in order: ALGORITHM_LEFT_SYMMETRIC of Linux's drivers/md/raid5.c."""
    p = slots - 1 - stripe % slots
    return p, (p + 1) % slots, [(p + 2 + index) % slots for index in range(slots - 2)]


# Sectors of a made member before its data and behind them, and where its superblock stands, by version.
MADE = {"1.0": (0, 128, lambda sectors: sectors - 16 & ~7), "1.1": (2048, 0, lambda _: 0), "1.2": (2048, 0, lambda _: 8)}


def superblock(slots, chunk, size, data_offset, at, number, set_uuid):
    values = dict.fromkeys(FIELDS, 0)
    values.update(magic=MAGIC, major=1, set_uuid=set_uuid, name=b"made:0", level=6, layout=LEFT_SYMMETRIC, size=size)
    values.update(chunk=chunk, slots=slots, data_offset=data_offset, data_size=size, super_offset=at, number=number)
    values.update(device_uuid=uuid.uuid4().bytes, events=7, resync_offset=IN_SYNC, most=slots)
    roles = struct.pack(f"<{slots}H", *range(slots))
    values["checksum"] = checksum(HEAD.pack(*values.values()) + roles)
    return HEAD.pack(*values.values()) + roles


def make(folder, version, slots, chunk_kib, rows):
    chunk = chunk_kib * 1024 // BLOCK
    if chunk_kib * 1024 % BLOCK or not 1 <= chunk <= MOST_CHUNK or not 4 <= slots <= 32 or rows < chunk:
        raise Unfit("chunks are of 4 to 512 KiB, slots 4 to 32, and rows a chunk at least")
    rows = rows // chunk * chunk
    set_uuid, source = uuid.uuid4().bytes, random.Random(6)
    data_offset, behind, place = MADE[version]
    size = rows * BLOCK // SECTOR
    sectors = data_offset + size + behind
    os.mkdir(folder, 0o700)
    paths = [os.path.join(folder, f"member{number}") for number in range(slots)]
    files = [new_file(path) for path in paths]
    for number, file in enumerate(files):
        os.ftruncate(file, sectors * SECTOR)
        block = superblock(slots, chunk_kib * 2, size, data_offset, place(sectors), number, set_uuid)
        os.pwrite(file, block, place(sectors) * SECTOR)
    for row in range(rows):
        p_slot, q_slot, data_slots = places(row // chunk, slots)
        data = [source.randbytes(BLOCK) for _ in data_slots]
        p, q = syndrome(data)
        for slot, block in zip(data_slots + [p_slot, q_slot], data + [p, q]):
            os.pwrite(files[slot], block, data_offset * SECTOR + row * BLOCK)
    for file in files:
        os.close(file)
    print(*paths, sep="\n")
    return 0


def main():
    parser = argparse.ArgumentParser(description=__doc__, formatter_class=argparse.RawDescriptionHelpFormatter)
    parser.add_argument("members", nargs="*", metavar="MEMBER")
    parser.add_argument("--folder", metavar="NEW")
    how = parser.add_mutually_exclusive_group()
    how.add_argument("--map", action="store_true")
    how.add_argument("--copy", action="store_true")
    parser.add_argument("--make", metavar="NEW")
    parser.add_argument("--version", choices=sorted(MADE), default="1.2")
    parser.add_argument("--slots", type=int, default=6)
    parser.add_argument("--chunk", type=int, default=64, metavar="KIB")
    parser.add_argument("--rows", type=int, default=1024)
    words = parser.parse_args()
    try:
        if words.make:
            return make(words.make, words.version, words.slots, words.chunk, words.rows)
        if not words.members or not words.folder or not (words.map or words.copy):
            parser.error("members, --folder and --map or --copy are needed")
        return verify(words.members, words.folder, words.map)
    except (Unfit, OSError, subprocess.CalledProcessError) as error:
        print(f"verify_md: {error}", file=sys.stderr)
        return 2


if __name__ == "__main__":
    sys.exit(main())
