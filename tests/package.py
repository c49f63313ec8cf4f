#!/usr/bin/env -S python3 -B
"""Makes all packages of release/ twice, in two folders and under other settings, and compares the bytes; then each of
them is installed, used and removed: the Debian packages in an empty root, the wheel in a virtual environment without
a network, the extension as Visual Studio Code reads it, and the archive in a folder. What is missing is named."""

import glob
import json
import os
import re
import shutil
import subprocess
import sys
import tarfile
import tempfile
import xml.etree.ElementTree
import zipfile

from common import TOP, done, same, text_of

ADDED = "s(s(s(z)))\t3\n"
USER = """import percalesilt
store = percalesilt.Store()
term = store.parse("plus(x{at(3,7)}, 1)")
print(term, int(term.args[1]), store.appl("f", term, [1, 2]))
"""
USED = "plus(x{at(3,7)},1) 1 f(plus(x{at(3,7)},1),[1,2])\n"
# Files of the repository that documents name for those who use what is installed.
FOR_USERS = re.compile(r"(examples|editors|completions)/|tools/\w+\.py")


def is_there(part, *commands):
    """Whether there are these commands; which one is missing is said."""
    missing = [it for it in commands if shutil.which(it) is None]
    if missing:
        print(f"not tried: {part}, since there is no {missing[0]}")
    return not missing


def told(words, **how):
    """What a command prints, and its status if that is not 0."""
    ran = subprocess.run(words, stdout=subprocess.PIPE, stderr=subprocess.STDOUT, text=True, check=False, **how)
    return ran.stdout + (f"(status {ran.returncode})" if ran.returncode else "")


def make(folder, umask, **settings):
    """Makes the packages, without the kit; what is left out is printed."""
    os.mkdir(folder)
    how = {"cwd": folder, "env": {**os.environ, "PATH": "/usr/sbin:/usr/bin:/sbin:/bin", **settings}}
    old = os.umask(umask)
    said = told([sys.executable, "-B", f"{TOP}/packaging/packages"], **how)
    os.umask(old)
    for line in said.splitlines():
        if line.startswith("left out"):
            print(f"not tried: {line}")
    same("packaging/packages", False, said if "(status" in said else False)
    found = {}
    for name in sorted(os.listdir(folder)):
        with open(f"{folder}/{name}", "rb") as file:
            found[name] = file.read()
    return found


def files_below(folder):
    """The files below a folder, links included, by their paths in it."""
    found = (f"{at}/{it}" for at, _, names in os.walk(folder) for it in names)
    return sorted(os.path.relpath(it, folder) for it in found)


def named_for_users(text):
    """The paths in a document that somebody who has installed it is to use."""
    for word in re.findall(r"[\w./-]+", text):
        path = word.rstrip("./")
        if FOR_USERS.match(path):
            yield path


def unnamed(folder):
    """Paths that the installed documents name and that are not installed."""
    for path in glob.glob(f"{folder}/**/*.md", recursive=True):
        with open(path, encoding="utf-8") as file:
            for name in named_for_users(file.read()):
                if os.path.exists(f"{TOP}/{name}") and not os.path.exists(f"{folder}/{name}"):
                    yield f"{os.path.relpath(path, folder)}: {name}"


def installed(root, package):
    """Whether a package can be put into an empty root, of which nothing is run."""
    os.makedirs(f"{root}/var/lib/dpkg/info")
    os.makedirs(f"{root}/var/lib/dpkg/updates")
    with open(f"{root}/var/lib/dpkg/status", "w", encoding="utf-8"):
        pass
    said = told(["dpkg", f"--root={root}", "--force-depends", "--force-unsafe-io", "--install", package])
    same(f"installing {os.path.basename(package)}", False, said if "(status" in said else False)
    name = os.path.basename(package).partition("_")[0]
    words = ["dpkg-query", f"--admindir={root}/var/lib/dpkg", "-W", "-f", "${Status}|${Description}", name]
    status, _, description = told(words).partition("|")
    same(f"{name}: status", "install ok installed", status)
    commit = told(["git", "-C", TOP, "rev-parse", "HEAD"]).strip()
    if "(status" not in commit:
        same(f"{name}: commit", True, f"Made of commit {commit}." in description)
    return name


def purge(root, name):
    """Removes a package; nothing is left of it."""
    said = told(["dpkg", f"--root={root}", "--force-depends", "--force-unsafe-io", "--purge", name])
    same(f"removing {name}", False, said if "(status" in said else False)
    left = [it for it in files_below(root) if not it.startswith("var/lib/dpkg")]
    same(f"nothing is left of {name}", [], left)


def program(room, package):
    root = f"{room}/program"
    name = installed(root, package)
    home = f"{root}/usr/share/doc/recw"
    words = [f"{root}/usr/bin/recw", "eval", "--count", f"{home}/examples/add.rec"]
    same("the installed program", ADDED, told(words))
    client = [sys.executable, "-B", f"{home}/examples/client.py", f"{root}/usr/bin/recw", f"{home}/examples/add.rec", "z"]
    same("the installed client", "z is z\nits value is z\n", told(client))
    wanted = ["bin/recw", "bin/recw-lsp", "share/doc/recw/examples/prompt", "share/man/man1/recw.1.gz", "share/bash-completion/completions/recw"]
    wanted += ["share/zsh/vendor-completions/_recw", "share/fish/vendor_completions.d/recw.fish"]
    wanted += [f"share/vim/vimfiles/{it}/rec.vim" for it in ("ftdetect", "ftplugin", "syntax")]
    wanted += ["share/vim/vimfiles/compiler/recw.vim", "share/doc/recw/copyright", "share/doc/recw/LICENSE"]
    wanted += ["share/doc/recw/licenses/strsim/LICENSE", "share/doc/recw/examples/check/unused.rec"]
    wanted += [f"share/doc/recw/{it}" for it in ("examples/client.py", "examples/cluster.py", "editors/README.md")]
    same("files of recw", [], [it for it in wanted if not os.path.exists(f"{root}/usr/{it}")])
    same("names in installed documents", [], list(unnamed(home)))
    purge(root, name)


def library(room, package):
    root = f"{room}/library"
    name = installed(root, package)
    place = {
        **os.environ,
        "PKG_CONFIG_SYSROOT_DIR": root,
        "PKG_CONFIG_LIBDIR": f"{root}/usr/lib/x86_64-linux-gnu/pkgconfig",
        # those of the root are no folders of the system
        "PKG_CONFIG_ALLOW_SYSTEM_CFLAGS": "1",
        "PKG_CONFIG_ALLOW_SYSTEM_LIBS": "1",
        "LD_LIBRARY_PATH": f"{root}/usr/lib/x86_64-linux-gnu",
    }
    use_library(room, place, "the installed library")
    words = [sys.executable, "-B", "-c", USER]
    place = {**os.environ, "PYTHONPATH": f"{TOP}/clib", "PERCALESILT": f"{place['LD_LIBRARY_PATH']}/libpercalesilt.so"}
    same("the installed library from Python", USED, told(words, env=place))
    purge(root, name)


def use_library(room, place, what):
    """Compiles clib/users/evaluate.c by what pkg-config says, shared and static, and runs it."""
    if not is_there(what, "cc", "pkg-config"):
        return
    for kind in ("shared", "static"):
        words = told(["pkg-config", "--cflags", "--libs", "percalesilt"], env=place).split()
        static = ["-Wl,-Bstatic", "-lpercalesilt", "-Wl,-Bdynamic"]
        if kind == "static":
            words = [one for it in words for one in (static if it == "-lpercalesilt" else [it])]
        made = f"{room}/evaluate-{kind}"
        source = f"{TOP}/clib/users/evaluate.c"
        same(f"{what}: compiling, {kind}", "", told(["cc", source, *words, "-o", made], env=place))
        env = place if kind == "shared" else os.environ
        if os.path.exists(made):
            same(f"{what}: {kind}", ADDED.strip(), told([made, f"{TOP}/examples/add.rec"], env=env).strip())
            os.remove(made)


def wheel(room, package):
    with zipfile.ZipFile(package) as archive:
        metadata = archive.read(next(it for it in archive.namelist() if it.endswith("/METADATA"))).decode()
        same("wheel: licence", True, "\nLicense: Apache-2.0\n" in metadata)
        same("wheel: types", True, "percalesilt/py.typed" in archive.namelist())
    made = told([sys.executable, "-m", "venv", f"{room}/environment"])
    if "(status" in made:
        print("not tried: the wheel, since this Python makes no virtual environment")
        return
    python = f"{room}/environment/bin/python"
    # nothing is asked of a network, and nothing of the caller's settings counts
    place = {"PATH": os.environ["PATH"], "HOME": room, "PIP_NO_INDEX": "1", "PIP_DISABLE_PIP_VERSION_CHECK": "1"}
    said = told([python, "-m", "pip", "install", package], env=place, cwd=room)
    same("wheel: pip install", False, said if "(status" in said else False)
    same("wheel: used", USED, told([python, "-c", USER], env=place, cwd=room))
    same("wheel: pip check", False, "(status" in told([python, "-m", "pip", "check"], env=place, cwd=room))
    if is_there("the types of the wheel", "mypy"):
        with open(f"{room}/user.py", "w", encoding="utf-8") as file:
            file.write(USER)
        words = ["mypy", "--strict", "--no-error-summary", f"--python-executable={python}", f"--cache-dir={room}/mypy"]
        same("wheel: types by mypy", "", told([*words, f"{room}/user.py"], env=place, cwd=room))
    said = told([python, "-m", "pip", "uninstall", "--yes", "percalesilt"], env=place, cwd=room)
    same("wheel: pip uninstall", False, said if "(status" in said else False)
    left = [it for it in files_below(f"{room}/environment") if "percalesilt" in it]
    same("nothing is left of the wheel", [], left)


def extension(room, package):
    folder = f"{room}/extension"
    with zipfile.ZipFile(package) as archive:
        archive.extractall(folder)
    with open(f"{folder}/extension/package.json", encoding="utf-8") as file:
        about = json.load(file)
    space = "{http://schemas.microsoft.com/developer/vsx-schema/2011}"
    manifest = xml.etree.ElementTree.parse(f"{folder}/extension.vsixmanifest").getroot()
    identity = manifest.find(f"{space}Metadata/{space}Identity").attrib
    wanted = {"Language": "en-US", "Id": about["name"], "Version": about["version"], "Publisher": about["publisher"]}
    same("extension: identity", wanted, identity)
    assets = [it.attrib["Path"] for it in manifest.iter(f"{space}Asset")]
    same("extension: assets", [], [it for it in assets if not os.path.exists(f"{folder}/{it}")])
    types = xml.etree.ElementTree.parse(f"{folder}/[Content_Types].xml").getroot()
    ends = {it.attrib["Extension"] for it in types}
    same("extension: types", [], [it for it in files_below(f"{folder}/extension") if os.path.splitext(it)[1] not in ends])
    for it in files_below(f"{folder}/extension"):
        if os.path.exists(f"{TOP}/editors/vscode/{it}"):
            with open(f"{folder}/extension/{it}", encoding="utf-8") as file:
                same(f"extension: {it}", text_of(f"editors/vscode/{it}"), file.read())
    if is_there("the extension in Visual Studio Code", "code"):
        place = ["code", "--user-data-dir", f"{room}/data", "--extensions-dir", f"{room}/extensions", "--no-sandbox"]
        name = f"{about['publisher']}.{about['name']}"
        same("code --install-extension", False, "(status" in told([*place, "--install-extension", package]))
        same("code --list-extensions", f"{name}\n", told([*place, "--list-extensions"]))
        same("code --uninstall-extension", False, "(status" in told([*place, "--uninstall-extension", name]))


def archive(room, package, programs):
    with tarfile.open(package) as whole:
        whole.extractall(f"{room}/archive")
    (folder,) = glob.glob(f"{room}/archive/*")
    if "program" in programs:
        words = [f"{folder}/bin/recw", "eval", "--count", f"{folder}/share/doc/recw/examples/add.rec"]
        same("the program of the archive", ADDED, told(words))
    if "library" in programs:
        place = {**os.environ, "PKG_CONFIG_LIBDIR": f"{folder}/lib/pkgconfig", "LD_LIBRARY_PATH": f"{folder}/lib"}
        use_library(room, place, "the library of the archive")
        place = {"PATH": os.environ["PATH"], "PYTHONPATH": f"{folder}/python"}
        same("the Python package of the archive", USED, told([sys.executable, "-B", "-c", USER], env=place))


def main():
    if not os.path.exists(f"{TOP}/release/manifest"):
        print("not tried: the packages, since there is no release/")
        done()
    with tempfile.TemporaryDirectory() as room:
        os.chmod(room, 0o755)
        made = make(f"{room}/one", 0o022, SOURCE_DATE_EPOCH="1790000000")
        other = make(f"{room}/another folder", 0o077, SOURCE_DATE_EPOCH="1790000000", TZ="Asia/Tokyo", LC_ALL="C")
        same("the same bytes", [], [it for it in {*made, *other} if made.get(it) != other.get(it)])
        same("the sums", 0, subprocess.run(["sha256sum", "--quiet", "-c", "SHA256SUMS"], cwd=f"{room}/one").returncode)
        if os.path.exists(f"{TOP}/.git"):
            usual = make(f"{room}/usual", 0o022)
            same("the time of the commit", [], sorted({*made} ^ {*usual}))
        kinds = {"program": "recw_*.deb", "library": "libpercalesilt-dev_*.deb", "wheel": "*.whl", "extension": "*.vsix"}
        there = {kind: found[0] for kind, it in kinds.items() for found in [glob.glob(f"{room}/one/{it}")] if found}
        for kind, package in there.items():
            is_deb = package.endswith(".deb")
            if is_deb and (os.getuid() or not is_there(package, "dpkg", "dpkg-query")):
                print(f"not tried: {os.path.basename(package)}, which only root may install")
                continue
            globals()[kind](room, package)
        archive(room, glob.glob(f"{room}/one/*.tar.gz")[0], there)
    done()


if __name__ == "__main__":
    main()
