"""What release/ holds: its products, how each is made of what was built, and the manifest."""

import glob
import hashlib
import lzma
import os
import re
import shutil
import subprocess
import sys
import tempfile
import zlib

TOP = os.path.dirname(os.path.dirname(os.path.realpath(__file__)))
RELEASE = f"{TOP}/release"
MANIFEST = f"{RELEASE}/manifest"
# The crates of the kit that are linked into the program, and the data of Unicode in its library.
LICENSED = ["arrayvec", "clap", "indexmap", "itoa", "smallvec", "strsim", "thiserror", "unicode"]


class Lacking(Exception):
    """Why a product cannot be made here."""


def read(path):
    with open(path, "rb") as file:
        return file.read()


def write(path, data):
    """Writes a file under another name first, so that no part of it is ever taken for the whole."""
    os.makedirs(os.path.dirname(path), exist_ok=True)
    with open(f"{path}.part", "wb") as file:
        file.write(data)
    os.replace(f"{path}.part", path)


def hash_of(data):
    return hashlib.sha256(data).hexdigest()


def compressed(data):
    """The data compressed by xz, which takes a quarter less than `packed`."""
    return lzma.compress(data, preset=9 | lzma.PRESET_EXTREME)


def packed(data):
    """The same bytes for the same data, without a time or a name."""
    packer = zlib.compressobj(9, zlib.DEFLATED, 31)
    return packer.compress(data) + packer.flush()


def header(path, mode, size, kind, target, epoch):
    """The header of a member of a tar archive (ustar); versions of Python write different ones."""
    name, prefix = path, ""
    while len(name.encode()) > 100:
        first, _, name = name.partition("/")
        prefix = f"{prefix}/{first}" if prefix else first
    fields = [f"{name:\0<100}", f"{mode:07o}\0", "0000000\0", "0000000\0", f"{size:011o}\0", f"{epoch:011o}\0"]
    fields += [" " * 8, kind, f"{target:\0<100}", "ustar\0" + "00", f"{'root':\0<32}", f"{'root':\0<32}"]
    fields += ["0000000\0", "0000000\0", f"{prefix:\0<155}"]
    block = "".join(fields).encode().ljust(512, b"\0")
    return block[:148] + f"{sum(block):06o}\0 ".encode() + block[156:]


def archived(files, epoch=0):
    """A tar archive of some files: of each its path, its mode and its bytes, or the target of a link."""
    made = b""
    for path in sorted({*files, *folders_of(files)}):
        mode, data = files.get(path, ("folder", b""))
        if mode == "folder":
            made += header(f"{path}/", 0o755, 0, "5", "", epoch)
        elif mode == "link":
            made += header(path, 0o777, 0, "2", data, epoch)
        else:
            made += header(path, mode, len(data), "0", "", epoch) + data + b"\0" * (-len(data) % 512)
    return made + b"\0" * (-(len(made) + 1024) % 10240 + 1024)


def folders_of(paths):
    for path in paths:
        names = path.split("/")
        for number in range(1, len(names)):
            yield "/".join(names[:number])


def do(*words, **how):
    """What a command prints; fails if the command does."""
    ran = subprocess.run(words, stdout=subprocess.PIPE, stderr=subprocess.STDOUT, check=False, **how)
    if ran.returncode:
        raise Lacking(f"{os.path.basename(words[0])} failed: {ran.stdout.decode(errors='replace').strip()}")
    return ran.stdout.decode(errors="replace")


def sources(call, *words):
    """What a function of tools/sources.sh answers."""
    script = f'top=$1; . "$top/tools/sources.sh"; shift; {call} "$@"'
    return do("sh", "-c", script, "sh", TOP, *words).strip()


def kit():
    """The folder of the kit."""
    rt = shutil.which("rt")
    if rt is None:
        raise Lacking("there is no rt, the command of the Rattle kit")
    return os.path.dirname(os.path.dirname(os.path.realpath(rt)))


def first_line(*words):
    return do(*words).splitlines()[0]


def tools():
    """The versions of what the products are built by, as far as it is here."""
    found = {}
    if shutil.which("rt"):
        found["rt"] = first_line("rt", "version")
        clang = f"{kit()}/toolchain/bin/clang"
        if os.path.exists(clang):
            found["clang"] = first_line(clang, "--version")
    if shutil.which("wasm-opt"):
        found["wasm-opt"] = first_line("wasm-opt", "--version")
    return found


def built(path, how):
    """The bytes of a file that a build leaves."""
    if not os.path.exists(f"{TOP}/{path}"):
        raise Lacking(f"{path} was not built: {how}")
    return read(f"{TOP}/{path}")


def merged(archive):
    """An archive with the object of the kit through which the library allocates."""
    with tempfile.TemporaryDirectory() as room:
        write(f"{room}/crate.a", archive)
        shutil.copy(f"{kit()}/c/liblibc_c.a", f"{room}/heap.a")
        script = "create whole.a\naddlib crate.a\naddlib heap.a\nsave\nend\n"
        do(f"{kit()}/toolchain/bin/llvm-ar", "-M", input=script.encode(), cwd=room)
        return read(f"{room}/whole.a")


def soname():
    """The name by which programs find the shared library: its number is that of the exported version."""
    return "libpercalesilt.so." + re.search(r"^PERCALESILT_(\d+) ", read(f"{TOP}/clib/exports.map").decode(), re.M)[1]


def linked(archive):
    """The shared library, which exports the calls of the header alone."""
    toolchain = f"{kit()}/toolchain"
    with tempfile.TemporaryDirectory() as room:
        write(f"{room}/whole.a", archive)
        words = ["-shared", "-soname", soname(), "--version-script", f"{TOP}/clib/exports.map", "-z", "defs", "-s"]
        words += ["-z", "now", "--gc-sections", "--build-id=none", "--threads=1", "--whole-archive", "whole.a"]
        words += ["--no-whole-archive", *(f"{toolchain}/lib/{it}" for it in ("libgcc.a", "libc.so.6"))]
        do(f"{toolchain}/bin/ld.lld", *words, "-o", "whole.so", cwd=room)
        return read(f"{room}/whole.so")


class Product:
    """A file of release/, by its name without the ending that packing adds."""

    # the file that the build leaves, the command that builds it, and what of it is packed
    path, how, crate, origin = "", "", "", ""
    # further files that it is made of, as patterns
    further = ()
    # the tools whose versions have to be equal for equal bytes, beside the kit
    by = ()

    def __init__(self, name):
        self.name = name
        self.packed = f"{RELEASE}/{name}.xz"
        self.origin = self.origin or self.path

    def files(self):
        return sorted(os.path.relpath(it, TOP) for one in self.further for it in glob.glob(f"{TOP}/{one}"))

    def sources(self):
        """The hash of all that it is made of and proved by."""
        return sources("sources_hash", self.crate, *self.files())

    def made(self):
        """Its bytes, of what was built here."""
        return built(self.path, self.how)

    def check_age(self):
        """Fails if what was built is older than a source."""
        built(self.path, self.how)
        needed = sources("needed_for", self.crate)
        try:
            sources("is_newest", f"{TOP}/{self.path}", needed, *self.files())
        except Lacking:
            raise Lacking(f"{self.path} is older than its sources: {self.how}") from None


class Program(Product):
    path, how, crate = "crates/recw/out/recw", "./recw --prove, or .ci/run", "recw"


class Archive(Product):
    path, how = "crates/percalesilt/out/libpercalesilt.a", ".ci/run, or rt lib in crates/percalesilt"
    crate, origin = "percalesilt", "crates/percalesilt/out/libpercalesilt.a with the kit's allocator"

    def made(self):
        return merged(super().made())


class Shared(Archive):
    further = ("clib/exports.map",)
    origin = "the shared library of crates/percalesilt/out/libpercalesilt.a"

    def made(self):
        return linked(super().made())


class Page(Product):
    path, how, crate = "web/out/recw.html", "web/build, or .ci/run", "recw_wasm"
    further = (
        *["web/build", "web/*.js", "web/page.*", "web/help.html", "web/heap.c", "web/helpers.c", ".ci/archive.py"],
        *["editors/vscode/rec.tmLanguage.json", "examples/*.rec", "examples/*.trm", "examples/*/*.rec"],
        "crates/recw_cli/src/refusals.rt",
        "crates/recw/src/expected.rt",
        "docs/reference/*.md",
    )
    by = ("clang", "wasm-opt")


class Licenses(Product):
    """The licences of the libraries that the others contain."""

    origin = "the licence files of the kit"

    def sources(self):
        return "kit"

    def made(self):
        found = sorted(it for crate in LICENSED for it in glob.glob(f"{kit()}/rattle/{crate}/LICENSE*"))
        return archived({os.path.relpath(it, f"{kit()}/rattle"): (0o644, read(it)) for it in found})

    def check_age(self):
        kit()


PRODUCTS = {
    it.name: it
    for it in (
        *[Program("recw"), Archive("libpercalesilt.a"), Shared("libpercalesilt.so"), Page("recw.html")],
        Licenses("licenses.tar"),
    )
}


def manifest():
    """The keys of release/manifest with their values."""
    if not os.path.exists(MANIFEST):
        raise Lacking("there is no release/manifest")
    return dict(line.split(" ", 1) for line in read(MANIFEST).decode().splitlines())


def holds(known, name):
    """Whether release/ has a product."""
    return f"{name}.file" in known


def checked(known, name, what, data):
    """The data, if it has the hash that the manifest has for it."""
    if hash_of(data) != known[f"{name}.{what}"]:
        raise Lacking(f"release/{name}.xz: {what} has the hash {hash_of(data)}, the manifest {known[f'{name}.{what}']}")
    return data


def unpacked(name):
    """A product of release/, checked by both of its hashes."""
    known = manifest()
    if not holds(known, name):
        raise Lacking(f"release/ has no {name}")
    if not os.path.exists(f"{RELEASE}/{name}.xz"):
        raise Lacking(f"there is no release/{name}.xz")
    data = checked(known, name, "packed", read(f"{RELEASE}/{name}.xz"))
    return checked(known, name, "file", lzma.decompress(data))


def lack_of(name):
    """Why release/ cannot stand for what the sources here build, or nothing."""
    try:
        unpacked(name)
        if PRODUCTS[name].sources() != manifest()[f"{name}.sources"]:
            raise Lacking(f"release/{name}.xz was made from other sources")
    except Lacking as why:
        return str(why)
    return ""


def fail(why, status=1):
    print(f"{os.path.basename(sys.argv[0])}: {why}", file=sys.stderr)
    sys.exit(status)
