"""The way to a server: its address, the login, and a connection."""
import http.client
import ipaddress
import netrc
import os
import socket
import ssl
from pathlib import Path
from urllib.parse import SplitResult, quote, unquote, urlsplit

from fwdesk_ctl.errors import Wrong


NEAR = "/run/fwdesk/edge.sock"  # the proxy's way in for this machine, without TLS and login
NEAR_PORT = "http://127.0.0.1:8081"  # the same of a proxy that has no such socket


def find_near() -> str:
    """The address of the proxy's way in for this machine."""
    return f"http+unix://{quote(NEAR, safe='')}" if Path(NEAR).is_socket() else NEAR_PORT


def address(url: str) -> SplitResult:
    """The parts of an address, whose scheme may be http+unix too, with the path of a socket in place of the host."""
    try:
        at = urlsplit(url)
        _ = at.scheme == "http+unix" or at.port
    except ValueError:
        at = urlsplit("")
    if at.scheme not in ("http", "https", "http+unix") or not at.netloc or at.query or at.fragment:
        raise Wrong(f"invalid URL {url!r}: expected for example https://desk.example:8443")
    if "@" in at.netloc:
        raise Wrong(
            "the URL contains a login: set FWDESK_USER and FWDESK_PASSWORD, or add a line to ~/.netrc"
        )
    return at


def is_near(at):
    """Whether an address is on this machine."""
    try:
        return (
            at.scheme == "http+unix"
            or at.hostname == "localhost"
            or ipaddress.ip_address(at.hostname).is_loopback
        )
    except ValueError:
        return False


def login_file() -> Path | None:
    """The file that logins are read from: of FWDESK_NETRC, or ~/.netrc where it is there. A user without a home, as a
    service has one, or with one that he may not look into, has none."""
    if named := os.environ.get("FWDESK_NETRC"):
        return Path(named)
    try:
        file = Path.home() / ".netrc"
        return file if file.exists() else None
    except (RuntimeError, PermissionError):
        return None


def said(host):
    """The login of the environment, or of a file as ~/.netrc; None where there is none."""
    if "FWDESK_USER" in os.environ:
        return os.environ["FWDESK_USER"], os.environ.get("FWDESK_PASSWORD", "")
    file = login_file()
    if file is None:
        return None
    try:
        found, about = netrc.netrc(file).authenticators(host), file.stat()
    except (OSError, netrc.NetrcParseError) as error:
        raise Wrong(f"{file}: {error}") from None
    if found and (about.st_mode & 0o077 or about.st_uid != os.geteuid()):
        raise Wrong(f"{file} holds a password and others may read it: chmod 600 {file}")
    return (found[0], found[2]) if found else None


def login(at):
    """The user and password for an address, or None."""
    known = said("localhost" if at.scheme == "http+unix" else at.hostname)
    if known and at.scheme == "http" and not is_near(at):
        raise Wrong(
            f"a password isn't sent to {at.hostname} without TLS: use a URL that begins with https"
        )
    return known


def connection(at, ca, timeout):
    """A connection to an address; nobody is asked anything yet."""
    if at.scheme == "https":
        try:
            trusted = ssl.create_default_context(cafile=ca)
        except OSError as error:
            raise Wrong(f"{ca}: {error}") from None
        return http.client.HTTPSConnection(at.hostname, at.port, timeout=timeout, context=trusted)
    if at.scheme == "http":
        return http.client.HTTPConnection(at.hostname, at.port, timeout=timeout)
    link = http.client.HTTPConnection("localhost", timeout=timeout)
    link.sock = socket.socket(socket.AF_UNIX)
    link.sock.settimeout(timeout)
    link.sock.connect(unquote(at.netloc))
    return link
