"""Archives whose bytes are the same wherever they are made: tar, gzip, and the `ar` of a .deb."""
import gzip
import hashlib
import io
import tarfile
from dataclasses import dataclass


@dataclass(frozen=True)
class Packed:
    """A file below its root, with its mode; or a link, whose content is the path that it leads to."""

    path: str
    content: bytes
    mode: int = 0o644
    is_link: bool = False


def zipped(content):
    """Compressed, without a name or a time."""
    buffer = io.BytesIO()
    with gzip.GzipFile(filename='', mode='wb', fileobj=buffer, mtime=0, compresslevel=9) as file:
        file.write(content)
    return buffer.getvalue()


def tarred(files, top, time):
    """A compressed tar of the files and of each folder above them, by name, owned by root, all of one time."""
    buffer, folders = io.BytesIO(), {top.rstrip('/') or '.'}
    for it in files:
        parts = (top + it.path).split('/')[:-1]
        folders |= {'/'.join(parts[:count]) for count in range(1, len(parts) + 1)} - {''}
    entries = [(folder, None) for folder in folders] + [(top + it.path, it) for it in files]
    with tarfile.open(fileobj=buffer, mode='w', format=tarfile.GNU_FORMAT) as tar:
        for path, it in sorted(entries, key=lambda pair: pair[0]):
            entry = tarfile.TarInfo(path)
            entry.mode, entry.mtime, entry.uname, entry.gname = it.mode if it else 0o755, time, 'root', 'root'
            if it is None:
                entry.type = tarfile.DIRTYPE
            elif it.is_link:
                entry.type, entry.linkname, entry.mode = tarfile.SYMTYPE, it.content.decode(), 0o777
            else:
                entry.size = len(it.content)
            tar.addfile(entry, io.BytesIO(it.content) if it and not it.is_link else None)
    return zipped(buffer.getvalue())


def deb(control, files, time):
    """The three members of a .deb; `control` are the lines of the control file. Its sums are of the files alone."""
    plain = [it for it in files if not it.is_link]
    size = sum(-(-len(it.content) // 1024) for it in plain)
    lines = [*control[:-1], 'Installed-Size: %d' % size, control[-1]]
    sums = ''.join('%s  %s\n' % (hashlib.md5(it.content).hexdigest(), it.path) for it in plain)
    kept = ''.join('/%s\n' % it.path for it in plain if it.path.startswith('etc/'))
    named = [('conffiles', kept)] * bool(kept) + [('control', '\n'.join(lines) + '\n'), ('md5sums', sums)]
    members = [('debian-binary', b'2.0\n')]
    members += [('control.tar.gz', tarred([Packed(name, text.encode()) for name, text in named], './', time))]
    members += [('data.tar.gz', tarred(files, './', time))]
    found = b'!<arch>\n'
    for name, content in members:
        head = '%-16s%-12d%-6d%-6d%-8s%-10d`\n' % (name, time, 0, 0, '100644', len(content))
        found += head.encode() + content + b'\n' * (len(content) % 2)
    return found


def is_deb(content):
    return content.startswith(b'!<arch>\n')


def members_of(content):
    """The content of each file that is packed in a .deb or a .tar.gz, by its path; of a link where it leads to."""
    tars = [content]
    if is_deb(content):
        at, parts = 8, {}
        while at + 60 <= len(content):
            size = int(content[at + 48 : at + 58])
            parts[content[at : at + 16].decode().strip()] = content[at + 60 : at + 60 + size]
            at += 60 + size + size % 2
        tars = [parts['control.tar.gz'], parts['data.tar.gz']]
    found = {}
    for tar in (tarfile.open(fileobj=io.BytesIO(it)) for it in tars):
        for entry in tar:
            if entry.issym():
                found[entry.name] = b'-> ' + entry.linkname.encode()
            elif entry.isfile():
                found[entry.name] = tar.extractfile(entry).read()
    return found
