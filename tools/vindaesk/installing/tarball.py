"""A tarball that runs where it is unpacked."""
import io
import tarfile

from .contents import Contents, packed


def written(contents: Contents, date: int) -> bytes:
    """The bytes of a tarball of these files. They do not depend on who makes it, or where; the date is in seconds since
    1970."""
    whole = io.BytesIO()
    with tarfile.open(mode="w", fileobj=whole, format=tarfile.GNU_FORMAT) as tar:
        for path, file in sorted(contents.items()):
            entry = tarfile.TarInfo(path)
            entry.size = len(file.body)
            entry.mode = 0o755 if file.is_command else 0o644
            if file.leads_to:
                entry.type, entry.linkname, entry.mode = tarfile.SYMTYPE, file.leads_to, 0o777
            entry.mtime = date
            entry.uname = entry.gname = "root"
            tar.addfile(entry, io.BytesIO(file.body))
    return packed(whole.getvalue())
