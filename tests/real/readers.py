"""Readers of compound files that nobody here wrote. Each gives, for a list of files, what every stream of it holds.

`read(files)` gives a dictionary: the file to {path: SHA-256}, a path being a tuple of names; or to None where the reader
fails on it. olefile also tells where a stream stands in the directory, by `layout`.
"""
import hashlib
import io
import re
import shutil
import subprocess

from makers import HERE, has_module, has_perl, has_poi, poi


def digest(data):
    return hashlib.sha256(data).hexdigest()


def opened(file):
    import olefile

    # every defect that olefile knows of is an error
    return olefile.OleFileIO(str(file), raise_defects=olefile.DEFECT_UNSURE)


def contents(file):
    """Every stream's bytes, by olefile."""
    with opened(file) as ole:
        return {tuple(path): ole.openstream(path).read() for path in ole.listdir()}


def layout(file):
    """The first directory sector, the root's first sector; and of every stream its place in the directory and its start."""
    with opened(file) as ole:
        entries = {}
        for path in ole.listdir():
            place = ole._find(path)
            entries[tuple(path)] = (place, ole.direntries[place].isectStart)
        return ole.first_dir_sector, ole.root.isectStart, entries


def named(file, start):
    """Whether some entry of the FAT names this sector, so that it is not the first of a chain."""
    with opened(file) as ole:
        return start in ole.fat


class Olefile:
    name = "olefile"

    def there(self):
        return has_module("olefile")

    def read(self, files):
        return {file: self.one(file) for file in files}

    def one(self, file):
        try:
            return {path: digest(data) for path, data in contents(file).items()}
        except OSError:
            return None


class Gsf:
    name = "gsf"

    def there(self):
        return shutil.which("gsf") is not None

    def read(self, files):
        return {file: self.one(file) for file in files}

    def one(self, file):
        listed = subprocess.run(["gsf", "list", str(file)], capture_output=True, encoding="utf-8", errors="replace")
        if listed.returncode:
            return None
        lengths = {}
        for line in listed.stdout.split("\n")[1:]:
            # a letter, a date or as many blanks, the length, the name
            found = re.fullmatch(r"f  .{19} *(\d+) (.*)", line, re.DOTALL)
            if found is not None:
                lengths[found[2]] = int(found[1])
        # all streams one after the other
        said = subprocess.run(["gsf", "cat", str(file), *lengths], capture_output=True)
        if said.returncode or len(said.stdout) != sum(lengths.values()):
            return None
        held, at = {}, 0
        for name, length in lengths.items():
            held[tuple(name.split("/"))] = digest(said.stdout[at : at + length])
            at += length
        return held


class Xlrd:
    """xlrd's own reader of compound files. It can be asked for a stream by its name, so it is asked for olefile's."""

    name = "xlrd"

    def there(self):
        return has_module("xlrd")

    def read(self, files):
        return {file: self.one(file) for file in files}

    def one(self, file):
        from xlrd.compdoc import CompDoc, CompDocError

        try:
            document = CompDoc(file.read_bytes(), logfile=io.StringIO())
            held = {}
            for path, data in contents(file).items():
                found = document.get_named_stream("/".join(path))
                if found is None and data:
                    return None
                held[path] = digest(found or b"")
            return held
        except (CompDocError, AssertionError, IndexError, OSError):
            return None


class Lines:
    """A reader in another language, which is run once for all files and writes a line for each stream."""

    def read(self, files):
        said = subprocess.run(self.words(files), capture_output=True, text=True, check=True).stdout
        held = {file: {} for file in files}
        named = {str(file): file for file in files}
        for line in said.splitlines():
            file, path, *rest = line.split("\t")
            if not rest:
                held[named[file]] = None
            elif held[named[file]] is not None:
                names = tuple(bytes.fromhex(name).decode("utf-16-le") for name in path.split("/"))
                held[named[file]][names] = rest[0]
        return held


class Lite(Lines):
    name = "OLE::Storage_Lite"

    def there(self):
        return has_perl("OLE::Storage_Lite")

    def words(self, files):
        return ["perl", str(HERE / "lite.pl"), "read", *map(str, files)]


class Poi(Lines):
    name = "Apache POI"

    def there(self):
        return has_poi()

    def words(self, files):
        return poi("read", *files)


READERS = [Olefile(), Gsf(), Xlrd(), Lite(), Poi()]
