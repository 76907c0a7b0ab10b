"""Compound files made by programs that nobody here wrote. What the streams hold is ours, the same at every run.

Each maker writes into a folder and gives a list of Made. A maker whose program is not there gives none, and says so.
"""
import dataclasses
import hashlib
import os
import pathlib
import shutil
import subprocess

HERE = pathlib.Path(__file__).resolve().parent
POI = [f"/usr/share/java/{name}.jar" for name in ("poi", "commons-collections4", "commons-codec", "commons-logging")]


@dataclasses.dataclass
class Made:
    file: pathlib.Path
    program: str
    known: dict  # streams that are known beforehand: path (a tuple of names) to bytes


def noise(seed, length):
    """Bytes that look like nothing else, the same for the same seed."""
    return hashlib.shake_128(f"rasuvelk {seed}".encode()).digest(length)


def run(*words, **more):
    subprocess.run([str(word) for word in words], check=True, stdout=subprocess.DEVNULL, stderr=subprocess.DEVNULL, **more)


def has_module(name):
    try:
        __import__(name)
        return True
    except ImportError:
        return False


def has_perl(module):
    if shutil.which("perl") is None:
        return False
    return not subprocess.run(["perl", f"-M{module}", "-e", "1"], capture_output=True).returncode


def has_poi():
    return shutil.which("java") is not None and all(os.path.exists(jar) for jar in POI)


def poi(*words):
    return ["java", "-cp", ":".join(POI), str(HERE / "Poi.java"), *map(str, words)]


def by_xlwt(folder):
    """A sheet of 8,000 numbers; and a stream so long that the FAT needs a DIFAT sector."""
    if not has_module("xlwt"):
        return []
    import xlwt
    from xlwt.CompoundDoc import XlsDoc

    book = xlwt.Workbook()
    sheet = book.add_sheet("numbers")
    for row in range(2000):
        for column in range(4):
            sheet.write(row, column, row * column)
    name = f"xlwt {xlwt.__VERSION__}"
    book.save(str(folder / "sheet.xls"))
    stream = noise("difat", 7_200_000)
    XlsDoc().save(str(folder / "difat.xls"), stream)
    # xlwt fills the stream up to a multiple of 4,096 bytes
    full = stream + bytes(4096 - len(stream) % 4096)
    return [Made(folder / "sheet.xls", name, {}), Made(folder / "difat.xls", name, {("Workbook",): full})]


# name to length: on both sides of the 4,096 bytes from which on a stream has a chain of its own
LENGTHS = {"none": 0, "one": 1, "small": 700, "below": 4095, "edge": 4096, "above": 4097, "long": 66_000}


def by_gsf(folder):
    """A tree of folders, with streams of every length; and one with a DIFAT sector."""
    if shutil.which("gsf") is None:
        return []
    version = subprocess.run(["gsf", "--version"], capture_output=True, text=True).stdout.split()
    name = f"gsf {version[-1]}" if version else "gsf"
    streams = folder / "streams"
    deep = streams / "folder" / "deeper"
    deep.mkdir(parents=True)
    known = {(stream,): noise(stream, length) for stream, length in LENGTHS.items()}
    known[("folder", "inner")] = noise("inner", 9000)
    known[("folder", "deeper", "tiny")] = noise("tiny", 10)
    for path, data in known.items():
        streams.joinpath(*path).write_bytes(data)
    run("gsf", "createole", folder / "tree.ole", *sorted(os.listdir(streams)), cwd=streams)
    huge = {("small",): known[("small",)], ("huge",): noise("huge", 7_300_000)}
    (streams / "huge").write_bytes(huge[("huge",)])
    run("gsf", "createole", folder / "difat.ole", "small", "huge", cwd=streams)
    return [Made(folder / "tree.ole", name, known), Made(folder / "difat.ole", name, huge)]


def by_libgsf(folder):
    """Version 4, which libgsf makes where it is asked for sectors of 4,096 bytes."""
    try:
        import gi

        gi.require_version("Gsf", "1")
        from gi.repository import Gsf
    except (ImportError, ValueError):
        return []
    known = {(stream,): noise(stream, length) for stream, length in LENGTHS.items() if length}
    known[("longer",)] = noise("longer", 300_000)
    sink = Gsf.OutputStdio.new(str(folder / "version4.ole"))
    storage = Gsf.OutfileMSOle.new_full(sink, 4096, 64)
    for (stream,), data in known.items():
        child = storage.new_child(stream, False)
        child.write(data)
        child.close()
    storage.close()
    return [Made(folder / "version4.ole", "libgsf, sectors of 4,096", known)]


def by_msibuild(folder):
    """An installer's database: a table, a summary, and two streams."""
    if shutil.which("msibuild") is None:
        return []
    file = folder / "sample.msi"
    (folder / "first").write_bytes(noise("first", 50_000))
    (folder / "second").write_bytes(noise("second", 600))
    run("msibuild", file, "-s", "Sample", "Somebody", "x64;1033", "{11111111-2222-3333-4444-555555555555}")
    columns = "`Property` CHAR(72) NOT NULL, `Value` CHAR(0) NOT NULL LOCALIZABLE PRIMARY KEY `Property`"
    run("msibuild", file, "-q", f"CREATE TABLE `Property` ({columns})")
    run("msibuild", file, "-q", "INSERT INTO `Property` (`Property`, `Value`) VALUES ('ProductName', 'Sample')")
    run("msibuild", file, "-a", "first", folder / "first", "-a", "second", folder / "second")
    return [Made(file, "msibuild", {})]


def by_perl(folder):
    """A small file, and one with a DIFAT sector."""
    if not has_perl("OLE::Storage_Lite"):
        return []
    words = ["perl", "-MOLE::Storage_Lite", "-e", "print $OLE::Storage_Lite::VERSION"]
    text = subprocess.run(words, capture_output=True, text=True)
    made = []
    for file, longest in (("lite.ole", 70_000), ("lite-difat.ole", 7_300_000)):
        lengths = {"one": 5000, "two": 100, "three": longest}
        words, known = [], {}
        for stream, length in lengths.items():
            known[(stream,)] = noise(stream, length)
            (folder / f"{file}.{stream}").write_bytes(known[(stream,)])
            words += [stream, folder / f"{file}.{stream}"]
        run("perl", HERE / "lite.pl", "make", folder / file, *words)
        made.append(Made(folder / file, f"OLE::Storage_Lite {text.stdout}", known))
    return made


def by_writeexcel(folder):
    """A sheet of 8,000 numbers."""
    if not has_perl("Spreadsheet::WriteExcel"):
        return []
    program = """
        my $book = Spreadsheet::WriteExcel->new($ARGV[0]);
        my $sheet = $book->add_worksheet("numbers");
        for my $row (0 .. 1999) { $sheet->write($row, $_, $row * $_) for 0 .. 3 }
        $book->close;
        print $Spreadsheet::WriteExcel::VERSION;
    """
    words = ["perl", "-MSpreadsheet::WriteExcel", "-e", program, str(folder / "writeexcel.xls")]
    version = subprocess.run(words, check=True, capture_output=True, text=True).stdout
    return [Made(folder / "writeexcel.xls", f"Spreadsheet::WriteExcel {version}", {})]


# what is put into a file by those that are used where they are installed, and never installed by the script
FEW = {("long",): 50_000, ("small",): 700, ("folder", "inner"): 9000}


def few(folder):
    """These streams; and the words that name each and the file that holds it."""
    known, words = {}, []
    for path, length in FEW.items():
        known[path] = noise(path[-1], length)
        file = folder / ".".join(path)
        file.write_bytes(known[path])
        words += ["/".join(path), file]
    return known, words


def by_ruby(folder):
    """ruby-ole, where it is installed."""
    if shutil.which("ruby") is None or subprocess.run(["ruby", "-role/storage", "-e", "1"], capture_output=True).returncode:
        return []
    known, words = few(folder)
    program = """
        Ole::Storage.open(ARGV.shift, "wb+") do |ole|
          ARGV.each_slice(2) do |path, data|
            ole.dir.mkdir(File.dirname(path)) if path.include?("/")
            ole.file.open(path, "wb") { |out| out.write(File.binread(data)) }
          end
        end
    """
    run("ruby", "-role/storage", "-e", program, folder / "ruby.ole", *words)
    return [Made(folder / "ruby.ole", "ruby-ole", known)]


def by_poi(folder):
    """Apache POI, where it is installed."""
    if not has_poi():
        return []
    known, words = few(folder)
    subprocess.run(poi("make", folder / "poi.ole", *words), check=True)
    return [Made(folder / "poi.ole", "Apache POI", known)]


MAKERS = {
    "xlwt": by_xlwt,
    "gsf": by_gsf,
    "libgsf": by_libgsf,
    "msibuild": by_msibuild,
    "OLE::Storage_Lite": by_perl,
    "Spreadsheet::WriteExcel": by_writeexcel,
    "ruby-ole": by_ruby,
    "Apache POI": by_poi,
}
