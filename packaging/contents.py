"""What each package holds: files by their paths, each with its mode and its bytes, or the target of a link."""

import base64
import glob
import hashlib
import io
import json
import os
import re
import tarfile
import time
import zipfile
from xml.sax.saxutils import quoteattr

from released import TOP, archived, packed, read, soname

TRIPLET = "x86_64-linux-gnu"
MAINTAINER = "Percalesilt maintainers <maintainers@users.noreply.percalesilt.example>"
COPYRIGHT = """Format: https://www.debian.org/doc/packaging-manuals/copyright-format/1.0/
Upstream-Name: Percalesilt
Comment: licenses/ has the licences of the libraries of other authors that
 this contains, and docs/THIRD-PARTY.md of the sources lists them.

Files: *
Copyright: 2026 Percalesilt maintainers
License: Apache-2.0
 On Debian systems the text of the Apache License, version 2.0, is in
 /usr/share/common-licenses/Apache-2.0.
"""
PROGRAM_TEXT = """rewriting engine for REC specifications, proved
 Evaluates the terms of a specification by its rules, innermost first, and
 reads, prints, counts, matches and builds annotated terms. Every function of
 the program was proved to meet its contract."""
LIBRARY_TEXT = """store of annotated terms and rewriting engine, proved
 A C library: an archive, a shared library, the header and a pkg-config file.
 Every function of the library was proved to meet its contract."""
# Documents, and the files that they name for their readers.
DOCUMENTS = [
    *["README.md", "LICENSE", "CHANGELOG.md", "CONTRIBUTING.md", "docs/*.md", "docs/*.png", "docs/*.svg"],
    *["docs/reference/*.md", "bench/*.md", "examples/*.*", "examples/check/*", "examples/join/*", "examples/rows/*"],
    *["examples/tutorial/*", "examples/prompt", "editors/README.md", "editors/recw-lsp", "editors/vim/*/*.vim"],
    *["editors/vscode/*.*", "tools/*.md", "tools/*.py", "completions/*", "packaging/README.md"],
]
EXTENSION = ["package.json", "README.md", "client.js", "extension.js", "language-configuration.json"]
EXTENSION += ["rec.tmLanguage.json"]


def here(path):
    return read(f"{TOP}/{path}")


def mode_of(path):
    return 0o755 if os.access(f"{TOP}/{path}", os.X_OK) else 0o644


def licences(tar):
    """The licence files in the product licenses.tar, by their paths in it."""
    with tarfile.open(fileobj=io.BytesIO(tar)) as archive:
        return {it.name: (0o644, archive.extractfile(it).read()) for it in archive.getmembers() if it.isfile()}


def below(folder, files):
    return {f"{folder}/{path}": file for path, file in files.items()}


def documents():
    """The documents and what they name, by their paths in the repository."""
    found = sorted({it for one in DOCUMENTS for it in glob.glob(f"{TOP}/{one}")})
    paths = [os.path.relpath(it, TOP) for it in found if os.path.isfile(it)]
    return {it: (mode_of(it), here(it)) for it in paths}


def program(version, recw, page, tar, epoch):
    """The files of the program, below /usr or another prefix."""
    files = {
        "bin/recw": (0o755, recw),
        "bin/recw-lsp": (0o755, here("editors/recw-lsp")),
        "share/man/man1/recw.1.gz": (0o644, packed(here("recw.1"))),
        "share/bash-completion/completions/recw": (0o644, here("completions/recw.bash")),
        "share/zsh/vendor-completions/_recw": (0o644, here("completions/_recw")),
        "share/fish/vendor_completions.d/recw.fish": (0o644, here("completions/recw.fish")),
        f"share/recw/recw-{version}.vsix": (0o644, extension(epoch)),
        "share/doc/recw/copyright": (0o644, COPYRIGHT.encode()),
    }
    if page is not None:
        files["share/recw/recw.html"] = (0o644, page)
    for it in ("ftdetect/rec", "ftplugin/rec", "syntax/rec", "compiler/recw"):
        files[f"share/vim/vimfiles/{it}.vim"] = (0o644, here(f"editors/vim/{it}.vim"))
    files.update(below("share/doc/recw", documents()))
    files.update(below("share/doc/recw/licenses", licences(tar)))
    return files


def library(version, archive, shared, tar, libdir, prefix):
    """The files of the C library, below /usr or another prefix."""
    described = here("clib/percalesilt.pc.in").decode().replace("@PREFIX@", prefix).replace("@VERSION@", version)
    described = re.sub(r"^libdir=.*$", f"libdir=${{prefix}}/{libdir}", described, flags=re.M)
    files = {
        "include/percalesilt.h": (0o644, here("clib/percalesilt.h")),
        f"{libdir}/libpercalesilt.a": (0o644, archive),
        f"{libdir}/libpercalesilt.so.{version}": (0o644, shared),
        f"{libdir}/{soname()}": ("link", f"libpercalesilt.so.{version}"),
        f"{libdir}/libpercalesilt.so": ("link", soname()),
        f"{libdir}/pkgconfig/percalesilt.pc": (0o644, described.encode()),
        "share/doc/libpercalesilt-dev/copyright": (0o644, COPYRIGHT.encode()),
    }
    files.update(below("share/doc/libpercalesilt-dev/licenses", licences(tar)))
    return files


def package():
    """The files of the Python package, without the shared library."""
    names = [os.path.basename(it) for it in sorted(glob.glob(f"{TOP}/clib/percalesilt/*.py"))]
    return {f"percalesilt/{it}": (0o644, here(f"clib/percalesilt/{it}")) for it in [*names, "py.typed"]}


def ar(members, epoch):
    """An archive in the format of ar, as Debian packages are."""
    made = b"!<arch>\n"
    for name, data in members:
        made += f"{name:<16}{epoch:<12}{0:<6}{0:<6}{'100644':<8}{len(data):<10}`\n".encode()
        made += data + b"\n" * (len(data) % 2)
    return made


def least_libc(files):
    """The version of the C library that the programs and libraries need, as Debian writes it."""
    whole = b"".join(data for mode, data in files.values() if mode != "link")
    found = [tuple(map(int, it.split(b"."))) for it in re.findall(rb"\0GLIBC_(\d+(?:\.\d+)+)(?=\0)", whole)]
    return f"libc6 (>= {'.'.join(map(str, max(found)))})" if found else "libc6"


def deb(name, version, text, files, epoch, triggers=""):
    """A Debian package of files below /usr."""
    size = sum((len(data) + 1023) // 1024 for mode, data in files.values() if mode != "link")
    control = {
        "Package": name,
        "Version": version,
        "Architecture": "amd64",
        "Maintainer": MAINTAINER,
        "Installed-Size": size,
        "Depends": least_libc(files),
        **({"Suggests": "python3, rlwrap"} if "bin/recw-lsp" in files else {}),
        "Section": "devel" if name == "recw" else "libdevel",
        "Priority": "optional",
        "Description": text,
    }
    sums = "".join(
        f"{hashlib.md5(data).hexdigest()}  usr/{path}\n" for path, (mode, data) in sorted(files.items()) if mode != "link"
    )
    told = {"control": "".join(f"{key}: {value}\n" for key, value in control.items()), "md5sums": sums}
    if triggers:
        told["triggers"] = triggers
    head = archived({f"./{it}": (0o644, data.encode()) for it, data in told.items()}, epoch)
    body = archived(below("./usr", files), epoch)
    return ar([("debian-binary", b"2.0\n"), ("control.tar.gz", packed(head)), ("data.tar.gz", packed(body))], epoch)


def zipped(files, epoch):
    """A zip archive of files, with the time of the epoch in UTC."""
    made = io.BytesIO()
    with zipfile.ZipFile(made, "w", zipfile.ZIP_DEFLATED) as archive:
        for path, (mode, data) in files.items():
            member = zipfile.ZipInfo(path, time_of(epoch))
            member.compress_type, member.external_attr, member.create_system = zipfile.ZIP_DEFLATED, (mode | 0o100000) << 16, 3
            archive.writestr(member, data)
    return made.getvalue()


def time_of(epoch):
    """The date and time of an epoch; a zip archive knows none before 1980."""
    return time.gmtime(max(epoch, 315532800))[:6]


def extension(epoch):
    """The extension of Visual Studio Code, as its `code --install-extension` takes it."""
    about = json.loads(here("editors/vscode/package.json"))
    files = {f"extension/{it}": (0o644, here(f"editors/vscode/{it}")) for it in EXTENSION}
    files["extension/LICENSE.txt"] = (0o644, here("LICENSE"))
    identity = {"Language": "en-US", "Id": about["name"], "Version": about["version"], "Publisher": about["publisher"]}
    attributes = " ".join(f"{key}={quoteattr(value)}" for key, value in identity.items())
    manifest = f"""<?xml version="1.0" encoding="utf-8"?>
<PackageManifest Version="2.0.0" xmlns="http://schemas.microsoft.com/developer/vsx-schema/2011">
  <Metadata>
    <Identity {attributes}/>
    <DisplayName>{about["displayName"]}</DisplayName>
    <Description xml:space="preserve">{about["description"]}</Description>
    <Categories>{",".join(about["categories"])}</Categories>
    <License>extension/LICENSE.txt</License>
    <Properties>
      <Property Id="Microsoft.VisualStudio.Code.Engine" Value={quoteattr(about["engines"]["vscode"])}/>
    </Properties>
  </Metadata>
  <Installation>
    <InstallationTarget Id="Microsoft.VisualStudio.Code"/>
  </Installation>
  <Dependencies/>
  <Assets>
    <Asset Type="Microsoft.VisualStudio.Code.Manifest" Path="extension/package.json" Addressable="true"/>
    <Asset Type="Microsoft.VisualStudio.Services.Content.Details" Path="extension/README.md" Addressable="true"/>
    <Asset Type="Microsoft.VisualStudio.Services.Content.License" Path="extension/LICENSE.txt" Addressable="true"/>
  </Assets>
</PackageManifest>
"""
    kinds = {"json": "application/json", "md": "text/markdown", "js": "application/javascript", "txt": "text/plain"}
    kinds["vsixmanifest"] = "text/xml"
    types = "".join(f'<Default Extension=".{end}" ContentType="{kind}"/>' for end, kind in sorted(kinds.items()))
    types = f'<Types xmlns="http://schemas.openxmlformats.org/package/2006/content-types">{types}</Types>'
    first = {
        "extension.vsixmanifest": (0o644, manifest.encode()),
        "[Content_Types].xml": (0o644, f'<?xml version="1.0" encoding="utf-8"?>\n{types}\n'.encode()),
    }
    return zipped({**first, **files}, epoch)


def wheel(version, shared, tar, epoch):
    """The Python package with the shared library in it."""
    info = f"percalesilt-{version}.dist-info"
    metadata = f"""Metadata-Version: 2.1
Name: percalesilt
Version: {version}
Summary: A store of annotated terms and a rewriting engine, proved
Author: Percalesilt maintainers
License: Apache-2.0
License-File: LICENSE
Classifier: License :: OSI Approved :: Apache Software License
Classifier: Operating System :: POSIX :: Linux
Classifier: Programming Language :: Python :: 3
Classifier: Typing :: Typed
Requires-Python: >=3.8
Description-Content-Type: text/markdown

The C library `libpercalesilt` for Python, with the library in it: terms in which equal terms are one object, patterns,
and evaluation by rules.

```python
from percalesilt import Store

store = Store()
term = store.parse("plus(x{{at(3,7)}}, 1)")
print(term, int(term.args[1]), store.appl("f", term, [1, 2]))
```
"""
    files = {**package(), "percalesilt/libpercalesilt.so": (0o755, shared)}
    files[f"{info}/METADATA"] = (0o644, metadata.encode())
    files[f"{info}/WHEEL"] = (0o644, b"Wheel-Version: 1.0\nGenerator: packaging\nRoot-Is-Purelib: false\n"
                              b"Tag: py3-none-linux_x86_64\n")
    files[f"{info}/LICENSE"] = (0o644, here("LICENSE"))
    files.update(below(f"{info}/licenses", licences(tar)))
    record = ""
    for path, (_, data) in files.items():
        digest = base64.urlsafe_b64encode(hashlib.sha256(data).digest()).rstrip(b"=").decode()
        record += f"{path},sha256={digest},{len(data)}\n"
    files[f"{info}/RECORD"] = (0o644, f"{record}{info}/RECORD,,\n".encode())
    return zipped(files, epoch)
