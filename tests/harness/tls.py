"""Keys, requests and certificates, made by openssl. Not run by itself."""
import subprocess
from pathlib import Path

CURVE = ("-newkey", "ec", "-pkeyopt", "ec_paramgen_curve:prime256v1")
OF_THIS_MACHINE = "subjectAltName=IP:127.0.0.1,DNS:localhost"


def openssl(*words: object) -> str:
    """What openssl prints, which has to succeed."""
    told = [str(it) for it in ("openssl", *words)]
    ran = subprocess.run(
        told, check=True, stdout=subprocess.PIPE, stderr=subprocess.PIPE, text=True
    )
    return ran.stdout.strip()


def hashed(password: str, kind: str = "-6") -> str:
    """A password as a line of a userlist has it."""
    return openssl("passwd", kind, password)


def make_request(folder: Path, name: str, subject: str) -> tuple[Path, Path]:
    """NAME.key and NAME.csr, which asks for a certificate of a subject, as '/CN=dev-1'."""
    key, request = folder / f"{name}.key", folder / f"{name}.csr"
    openssl("req", "-new", *CURVE, "-nodes", "-subj", subject, "-keyout", key, "-out", request)
    return key, request


def self_sign(
    folder: Path,
    name: str,
    subject: str,
    extension: str = OF_THIS_MACHINE,
    kind: tuple[str, ...] = CURVE,
) -> tuple[Path, Path]:
    """NAME.key and NAME.crt, which are there for two days."""
    folder.mkdir(parents=True, exist_ok=True)
    key, crt = folder / f"{name}.key", folder / f"{name}.crt"
    own = ("-nodes", "-days", 2, "-subj", subject, "-addext", extension)
    openssl("req", "-x509", *kind, *own, "-keyout", key, "-out", crt)
    return key, crt


def make_certificate(folder: Path, name: str = "server", subject: str = "/CN=localhost") -> Path:
    """NAME.pem of this machine, with a key of its own, as a proxy reads it; also NAME.crt and NAME.key."""
    pem, crt = folder / f"{name}.pem", folder / f"{name}.crt"
    if not crt.exists():
        self_sign(folder, name, subject)
    pem.write_text(crt.read_text() + (folder / f"{name}.key").read_text())
    return pem
