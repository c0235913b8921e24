"""Archives of files: the same bytes wherever and whenever they are made of the same files."""

import gzip
import hashlib
import io
import pathlib
import tarfile
from typing import Dict, NamedTuple


class Entry(NamedTuple):
    """A file of a package: its bytes and its mode, or what it links to."""

    content: bytes = b""
    mode: int = 0o644
    link: str = ""


Files = Dict[str, Entry]


def tar(files: Files, seconds: int, top: str = "./") -> bytes:
    """A tar of the files and of the folders above them, all root's and of this time."""
    made = io.BytesIO()
    with tarfile.open(fileobj=made, mode="w", format=tarfile.GNU_FORMAT) as archive:
        folders = {str(folder) for it in files for folder in pathlib.PurePosixPath(it).parents} - {"."}
        for path in sorted({*files} | folders):
            about = tarfile.TarInfo(f"{top}{path}")
            about.mtime, about.uname, about.gname = seconds, "root", "root"
            entry = files.get(path, Entry(mode=0o755))
            about.mode, about.size, about.linkname = 0o777 if entry.link else entry.mode, len(entry.content), entry.link
            about.type = tarfile.SYMTYPE if entry.link else tarfile.REGTYPE if path in files else tarfile.DIRTYPE
            archive.addfile(about, io.BytesIO(entry.content))
    return made.getvalue()


def zipped(content: bytes) -> bytes:
    return gzip.compress(content, 9, mtime=0)


def deb(files: Files, control: Dict[str, str], scripts: Dict[str, str], seconds: int) -> bytes:
    """A Debian package: the fields of its control file, and the scripts and lists with it."""
    sums = "".join(f"{hashlib.md5(files[it].content).hexdigest()}  {it}\n" for it in sorted(files) if not files[it].link)
    sizes = sum(-(-len(it.content) // 1024) for it in files.values())
    fields = {"Package": control["Package"], "Installed-Size": str(sizes), **control}
    about = {"control": "".join(f"{name}: {text}\n" for name, text in fields.items()), "md5sums": sums, **scripts}
    beside = {name: Entry(text.encode(), 0o755 if text.startswith("#!") else 0o644) for name, text in about.items()}
    made = b"!<arch>\n"
    for name, content in (
        ("debian-binary", b"2.0\n"),
        ("control.tar.gz", zipped(tar(beside, seconds))),
        ("data.tar.gz", zipped(tar(files, seconds))),
    ):
        made += f"{name:<16}{seconds:<12}{0:<6}{0:<6}{'100644':<8}{len(content):<10}`\n".encode() + content + b"\n" * (len(content) % 2)
    return made
