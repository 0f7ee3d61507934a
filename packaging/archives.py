"""Archives that are the same, byte for byte, whenever and wherever they are made of the same files."""
import gzip
import io
import tarfile
from dataclasses import dataclass


@dataclass(frozen=True)
class Entry:
    """A file of a package: its path below the package's root, its bytes, and whether it can be run."""

    path: str
    content: bytes
    is_program: bool = False


def squeezed(content):
    """The bytes, compressed, without a name or a date."""
    return gzip.compress(content, compresslevel=9, mtime=0)


def folders_above(entries):
    """The folders that the files are in, those above first."""
    parts = [it.path.split("/")[:-1] for it in entries]
    return sorted({"/".join(it[:end]) for it in parts for end in range(1, len(it) + 1)})


def member(name, mode, date, kind, size=0):
    """The head of a member, which belongs to root and has the date of the package."""
    head = tarfile.TarInfo(name)
    head.mode, head.mtime, head.type, head.size = mode, date, kind, size
    head.uname = head.gname = "root"
    return head


def tar_of(entries, date, root):
    """A tar archive of the files, and of the folders that they are in, below a root."""
    room = io.BytesIO()
    with tarfile.open(fileobj=room, mode="w", format=tarfile.USTAR_FORMAT) as archive:
        for folder in folders_above(entries):
            archive.addfile(member(f"{root}{folder}", 0o755, date, tarfile.DIRTYPE))
        for it in sorted(entries, key=lambda entry: entry.path):
            mode = 0o755 if it.is_program else 0o644
            head = member(f"{root}{it.path}", mode, date, tarfile.REGTYPE, len(it.content))
            archive.addfile(head, io.BytesIO(it.content))
    return squeezed(room.getvalue())


def ar_of(members, date):
    """An ar archive of named bytes, as a Debian package is one."""
    text = b"!<arch>\n"
    for name, content in members:
        text += f"{name:<16}{date:<12}{0:<6}{0:<6}{'100644':<8}{len(content):<10}`\n".encode()
        text += content + b"\n" * (len(content) % 2)
    return text


def deb_of(control, entries, date):
    """A Debian package of files, which are installed at their paths below /."""
    head = tar_of([Entry("control", control.encode())], date, "./")
    body = tar_of(entries, date, "./")
    return ar_of([("debian-binary", b"2.0\n"), ("control.tar.gz", head), ("data.tar.gz", body)], date)
