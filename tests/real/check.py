#!/usr/bin/env python3
"""check.py WORK REAL: compound files of other people's programs, edited by the library, read by other people's readers.

WORK is a folder that is emptied first, REAL the program of src/main.rs. For every file that a program makes:

- It is opened strictly. A refusal is looked into: its cause must be found in the bytes by a second look, here.
- Of a file that opens, streams of at least 4,096 bytes are edited, whose chains are in the FAT: overwritten in place;
  made longer by some sectors; made longer past the FAT's last sector; cut and made longer again. A stream's length stands
  in its directory entry, of which the library knows nothing: the harness writes the new one, by the library too, over the
  directory's chain. A shorter stream lies in the mini stream, the root's chain: one is overwritten in place there.
- Every reader that reads the original must then find the new bytes in the edited stream, and the old ones in all others.

Exit status: 0 all is as it must be, 1 something is not, 77 a program that is needed is not there.
"""
import pathlib
import shutil
import struct
import subprocess
import sys

import makers
import readers
from makers import noise

FREE = 0xFFFFFFFF
CUTOFF = 4096
MINI = 64
# so many sectors have FAT sectors that the header's list has room for, in version 3
HEADER_SECTORS = 109 * 128
# what is done to streams, each at least once
KINDS = ["in place", "grown", "cut and grown", "grown past a FAT sector", "grown past the header's list", "small, in place"]


class Wrong(Exception):
    pass


class Check:
    def __init__(self, work, real):
        self.work = work
        self.real = real
        self.made = work / "made"
        self.edited = work / "edited"
        self.expected = {}  # an edited file: what its streams must hold
        self.original = {}  # an edited file: the file it was made from
        self.edits = {}  # a made file: its edits, by kind
        self.said = []

    def ask(self, *words):
        """The lines that the library's user writes."""
        done = subprocess.run([str(self.real), *map(str, words)], capture_output=True, text=True)
        if done.returncode:
            raise Wrong(f"real {' '.join(map(str, words))}: {done.stderr.strip()}")
        return done.stdout.splitlines()

    def data(self, content):
        file = self.work / f"data{len(list(self.work.glob('data*')))}"
        file.write_bytes(content)
        return file

    def edit(self, file, kind, steps, streams):
        """Edits a file, and notes what its streams must hold then; or gives the refusal."""
        to = self.edited / f"{file.stem}-{len(self.expected)}{file.suffix}"
        lines = self.ask("edit", file, to, *steps)
        if lines[0].startswith("refused"):
            if to.exists():
                raise Wrong(f"{to.name}: written, though a step was refused")
            return int(lines[0].split()[1])
        self.expected[to] = {path: readers.digest(data) for path, data in streams.items()}
        self.original[to] = file
        self.edits.setdefault(file, []).append(kind)
        return 0

    def must(self, file, kind, steps, streams):
        number = self.edit(file, kind, steps, streams)
        if number:
            raise Wrong(f"{file.name}, {kind}: refused {number}")

    def file(self, file):
        """All edits of one file that opens strictly."""
        streams = readers.contents(file)
        directory, root, entries = readers.layout(file)
        header = file.read_bytes()[:76]
        sector = 1 << struct.unpack_from("<H", header, 30)[0]
        long = [path for path in streams if len(streams[path]) >= CUTOFF]
        long.sort(key=lambda path: (len(streams[path]), path))
        if not long:
            raise Wrong(f"{file.name} has no stream of {CUTOFF} bytes")
        for path in dict.fromkeys([long[0], long[len(long) // 2], long[-1]]):
            self.stream(file, streams, path, directory, entries[path], sector)
        small = [path for path in streams if 0 < len(streams[path]) < CUTOFF]
        if small:
            self.small(file, streams, max(small, key=lambda path: len(streams[path])), root, entries)

    def stream(self, file, streams, path, directory, entry, sector):
        """The edits of one stream that has a chain of its own."""
        place, start = entry
        old = streams[path]
        size = len(old)
        sectors = file.stat().st_size // sector - 1

        def changed(new):
            return {**streams, path: new}

        def write(offset, data):
            return f"write:{start}:{offset}:{self.data(data)}"

        def length(new):
            return f"write:{directory}:{128 * place + 120}:{self.data(struct.pack('<Q', new))}"

        at = size // 3
        over = noise("over", min(sector + 188, size - at))
        number = self.edit(file, "in place", [write(at, over)], changed(old[:at] + over + old[at + len(over) :]))
        if number == 25:
            # The stream begins in the middle of a chain: its maker strung all streams on one.
            self.inside(file, start)
            self.said.append(f"{file.name}: {path[-1]} begins inside another stream's chain: a change is refused by 25")
            return
        if number:
            raise Wrong(f"{file.name}, {path[-1]}: refused {number}")
        if int(self.ask("chain", file, start)[0]) != -(-size // sector) * sector:
            self.said.append(f"{file.name}: the chain of {path[-1]} goes on in other streams: edited in place alone")
            return

        more = noise("more", 3 * sector + 123)
        self.must(file, "grown", [write(size, more), length(size + len(more))], changed(old + more))
        half = max(CUTOFF, size // 2)
        again = noise("again", 2 * sector + 9)
        steps = [f"resize:{start}:{half}", length(half), write(half, again), length(half + len(again))]
        self.must(file, "cut and grown", steps, changed(old[:half] + again))
        if sectors + sector // 4 + 3 < 16_384:
            past = noise("past", sector // 4 * sector + 77)
            self.must(file, "grown past a FAT sector", [write(size, past), length(size + len(past))], changed(old + past))
        if sector == 512 and sectors < 1000 and "grown past the header's list" not in sum(self.edits.values(), []):
            past = noise("list", (HEADER_SECTORS - sectors + 200) * sector)
            steps = [write(size, past), length(size + len(past))]
            self.must(file, "grown past the header's list", steps, changed(old + past))

    def small(self, file, streams, path, root, entries):
        """A stream of the mini stream, overwritten in place in its first mini sector."""
        start = entries[path][1]
        old = streams[path]
        over = noise("mini", min(MINI, len(old)))
        steps = [f"write:{root}:{start * MINI}:{self.data(over)}"]
        number = self.edit(file, "small, in place", steps, {**streams, path: over + old[len(over) :]})
        if number == 25:
            self.inside(file, root)
            self.said.append(f"{file.name}: the mini stream begins inside another stream's chain: a change is refused by 25")
        elif number:
            raise Wrong(f"{file.name}, {path[-1]}: refused {number}")

    def inside(self, file, start):
        """That 25 has its cause: some entry, as olefile reads the FAT, names the start."""
        if not readers.named(file, start):
            raise Wrong(f"{file.name}: a change from sector {start} is refused by 25, and no entry names it")

    def refused(self, file, number):
        """Looks for a refusal's cause in the bytes, by other code than the library's; mends a copy where it can."""
        if number != 13:
            raise Wrong(f"{file.name} is refused by {number}, and no reason for that is known here: look into it")
        image = bytearray(file.read_bytes())
        sectors = len(image) // 512 - 1
        ids = [sector for sector in struct.unpack_from("<109I", image, 76) if sector != FREE]
        wrong = 0
        for place, sector in enumerate(ids):
            for entry in range(128):
                at = 512 * (sector + 1) + 4 * entry
                if 128 * place + entry >= sectors and struct.unpack_from("<I", image, at)[0] != FREE:
                    struct.pack_into("<I", image, at, FREE)
                    wrong += 1
        if not wrong:
            raise Wrong(f"{file.name} is refused by 13, and all entries past its {sectors} sectors are FREE")
        mended = self.made / f"mended-{file.name}"
        mended.write_bytes(image)
        told = self.ask("open", mended)[0]
        self.said.append(f"{file.name}: {wrong} entries past its {sectors} sectors are not FREE; with these FREE: {told}")
        if not told.startswith("opened"):
            raise Wrong(f"{mended.name}: {told}")
        if readers.contents(mended) != readers.contents(file):
            raise Wrong(f"{mended.name} has other streams than {file.name}")
        return mended

    def read(self, files):
        """What each reader says of the originals and of the edited files; which of them confirm how many."""
        confirmed = {}
        for reader in (reader for reader in readers.READERS if reader.there()):
            found = reader.read(files + list(self.expected))
            true = {file: readers.contents(file) for file in files}
            able = []
            for file in files:
                same = found[file] == {path: readers.digest(data) for path, data in true[file].items()}
                if same:
                    able.append(file)
                else:
                    name = reader.name
                    self.said.append(f"{file.name}: {name} does not read the original as olefile does; not asked further")
            for edited, streams in self.expected.items():
                if self.original[edited] not in able:
                    continue
                if found[edited] != streams:
                    held = found[edited] or {}
                    bad = [path for path in streams.keys() | held.keys() if held.get(path) != streams.get(path)]
                    raise Wrong(f"{edited.name} ({self.original[edited].name}): {reader.name} differs at {bad[:3]}")
                confirmed.setdefault(reader.name, []).append(edited)
        return confirmed


def made_files(check):
    """Everything that the makers make, each in a folder of its own; its known streams are compared first."""
    made, missing = [], []
    for name, maker in makers.MAKERS.items():
        folder = check.made / name.replace(":", "").replace(" ", "")
        folder.mkdir(parents=True)
        these = maker(folder)
        made += these
        if not these:
            missing.append(name)
    for one in made:
        streams = readers.contents(one.file)
        for path, data in one.known.items():
            if streams.get(path) != data:
                raise Wrong(f"{one.file.name}: olefile does not find in {path} what was put there")
    return made, missing


def main():
    work, real = (pathlib.Path(word).resolve() for word in sys.argv[1:])
    needed = [reader.name for reader in readers.READERS[:2] if not reader.there()]
    if needed:
        print(f"real-files: skipped: there is no {' and no '.join(needed)}")
        return 77
    shutil.rmtree(work, ignore_errors=True)
    check = Check(work, real)
    check.edited.mkdir(parents=True)
    made, missing = made_files(check)
    files, opened = [], 0
    for one in made:
        told = check.ask("open", one.file)[0]
        file = one.file
        if told.startswith("refused"):
            file = check.refused(file, int(told.split()[1]))
        else:
            opened += 1
        check.file(file)
        files.append(file)
        size, edits = one.file.stat().st_size, len(check.edits[file])
        print(f"{one.file.name}, by {one.program}, {size:,} bytes: {told}; edits {edits}")
    confirmed = check.read(files)
    for line in check.said:
        print(f"  {line}")
    for name in missing:
        print(f"  {name} is not there: nothing made by it")
    kinds = sum(check.edits.values(), [])
    print("edits: " + ", ".join(f"{kinds.count(kind)} {kind}" for kind in dict.fromkeys(kinds)))
    print("confirmed: " + ", ".join(f"{len(edited)} by {name}" for name, edited in confirmed.items()))
    # every edit is confirmed by both readers that must be there
    if any(len(confirmed.get(name, [])) != len(kinds) for name in ("olefile", "gsf")):
        raise Wrong("some edit was not confirmed by olefile and by gsf")
    for kind in KINDS:
        if kind not in kinds:
            raise Wrong(f"no file was edited so: {kind}")
    print(f"{len(made)} files by {len(makers.MAKERS) - len(missing)} makers, {opened} opened strictly, {len(kinds)} edits")
    # what was made stays, as food for scripts/fuzz
    shutil.rmtree(check.edited)
    for data in work.glob("data*"):
        data.unlink()
    return 0


if __name__ == "__main__":
    try:
        sys.exit(main())
    except (Wrong, subprocess.CalledProcessError) as wrong:
        print(f"real-files: {wrong}")
        sys.exit(1)
