"""Who may ask. The server is named by its number or as localhost, with its port; other names that lead here, other
pages and frames in them get nothing."""

from email.message import Message
from typing import List

_NAMES = ("127.0.0.1", "localhost")
_OWN = ("none", "same-origin")


def is_ours(host: str, port: int) -> bool:
    """Whether a Host header names this server."""
    names = {f"{name}:{port}" for name in _NAMES}
    return host in names or (port == 80 and host in _NAMES)


def are_headers(headers: Message) -> bool:
    """Whether each line of a head is one header. What is none, and what stands behind it, Python takes for a body."""
    is_whole = not headers.defects and not headers.get_payload() and headers.get_unixfrom() is None
    return is_whole and not any(end in str(value) for value in headers.values() for end in "\r\n")


def denial(headers: Message, port: int, is_page: bool) -> str:
    """Why a request is denied, in a sentence; nothing where it isn't. The page itself may be asked for by a link
    elsewhere, since whoever has the link has the token."""
    hosts = _all(headers, "Host")
    if len(hosts) != 1 or not is_ours(hosts[0], port):
        return "This server is asked by its own name alone."
    if any(origin != f"http://{hosts[0]}" for origin in _all(headers, "Origin")):
        return "Another page may not ask."
    if all(site in _OWN for site in _all(headers, "Sec-Fetch-Site")):
        return ""
    if is_page and _all(headers, "Sec-Fetch-Mode") == ["navigate"] and _all(headers, "Sec-Fetch-Dest") == ["document"]:
        return ""
    return "Another page may not ask."


def _all(headers: Message, name: str) -> List[str]:
    return [str(value).strip().lower() for value in headers.get_all(name, [])]
