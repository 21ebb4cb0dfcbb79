"""Reply packets and JAM bases that others' programs could have written, byte for byte from the published layouts."""

from __future__ import annotations

import io
import struct
import zipfile
from typing import Sequence

NO_CRC = 0xFFFFFFFF
DELETED = 0x80000000


def reply_packet(board: str, conference: int, sender: str, subject: str, text: str) -> bytes:
    """Gives the blocks of a reply packet with one message to all."""
    body = text.replace("\n", "\xe3").encode("latin-1")
    blocks = 1 + -(-len(body) // 128)
    header = f" {conference:<7}12-01-2609:00{'ALL':<25}{sender.upper():<25}{subject:<25}{'':12}{'':8}{blocks:<6}"
    counts = b"\xe1" + struct.pack("<HH", conference, 1) + b" "
    return board.ljust(128).encode("ascii") + header.encode("ascii") + counts + body.ljust((blocks - 1) * 128)


def reply_archive(board: str, conference: int, sender: str, subject: str, text: str = "A letter.\n") -> bytes:
    """Gives the archive that a caller's reader makes of a reply packet."""
    archive = io.BytesIO()
    with zipfile.ZipFile(archive, "w") as file:
        file.writestr(board + ".MSG", reply_packet(board, conference, sender, subject, text))
    return archive.getvalue()


def base_header() -> bytes:
    return struct.pack("<4s5I1000x", b"JAM", 1_700_000_000, 1, 0, NO_CRC, 1)


def base_record(number: int, subject: str, attribute: int = 0, too_long: int = 0) -> bytes:
    """Gives a header of a base and its subfields, with no text. Its length of the subfields may be said too long."""
    fields = b"".join(
        struct.pack("<HHI", name, 0, len(value)) + value
        for name, value in ((2, b"Dee Far"), (3, b"All"), (6, subject.encode("ascii")))
    )
    moments = (1_700_000_000, 0, 1_700_000_000)
    numbers = (len(fields) + too_long, 0, NO_CRC, NO_CRC, 0, 0, 0, *moments, number, attribute, 0, 0, 0, NO_CRC, 0)
    return struct.pack("<4sHH17I", b"JAM", 1, 0, *numbers) + fields


def base_files(records: Sequence[bytes]) -> dict[str, bytes]:
    """Gives the files of a base, by their endings."""
    headers, index = base_header(), b""
    for record in records:
        index += struct.pack("<II", NO_CRC, len(headers))
        headers += record
    return {"jhr": headers, "jdx": index, "jdt": b""}
