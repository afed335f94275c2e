"""What is said once the page answers: its address, and if others can open it, a code to scan, if the system can make one."""
from __future__ import annotations

import io

LOCAL = ("127.", "localhost", "[::1]")


def told(place: str) -> str:
    """Where the page is. A place is an address with a port."""
    address = f"http://{place}/"
    return f"the table is at {address}" + ("" if place.startswith(LOCAL) else _code_of(address))


def _code_of(address: str) -> str:
    """A code to scan, as lines of text."""
    try:
        import qrcode
    except ImportError:
        return ""
    code, out = qrcode.QRCode(border=2), io.StringIO()
    code.add_data(address)
    code.print_ascii(out, invert=True)
    return "\n" + out.getvalue()
