"""The proxy's certificate: of an authority of this machine's own, of ACME, or one that is there.

HAProxy reads `server.pem`, the certificate and its key in one file. Devices are given `ca.crt`, the authority's, so
they stay as they are when the server's certificate is made anew or moves to another machine."""
import ipaddress
import shutil
import tempfile
from pathlib import Path

from fwdesk_setup import places
from fwdesk_setup.errors import Refused
from fwdesk_setup.files import write_whole
from fwdesk_setup.ports import listener_on
from fwdesk_setup.run import output_of, run

# days; both outlive the machine, since nobody renews them. An alert tells 21 days before the end
OF_AUTHORITY, OF_SERVER = 7300, 3650
# where an authority of ACME looks for certbot's proof, and what takes a renewed certificate over
ACME_PORT, DEPLOY_HOOK = 80, "/usr/share/fwdesk/fwdesk-setup --renewed"
CURVE = ("-newkey", "ec", "-pkeyopt", "ec_paramgen_curve:prime256v1", "-nodes")


def alternative(name: str) -> str:
    """A name as a certificate has it: of an address or of a host."""
    try:
        return f"IP:{ipaddress.ip_address(name)}"
    except ValueError:
        return f"DNS:{name}"


def is_for(certificate: Path, name: str) -> bool:
    """Whether a certificate is for a name or an address."""
    option = "-checkip" if alternative(name).startswith("IP:") else "-checkhost"
    said = run("openssl", "x509", "-noout", "-in", certificate, option, name)[1]
    return " does match certificate" in said


def pem() -> Path:
    return places.ETC / "server.pem"


def make_authority() -> None:
    """Makes the authority of this machine's own, where it isn't there."""
    key, certificate = places.ETC / "ca.key", places.ETC / "ca.crt"
    if certificate.exists():
        return
    with tempfile.TemporaryDirectory() as folder:
        made = Path(folder)
        output_of(
            *("openssl", "req", "-x509", *CURVE, "-days", OF_AUTHORITY),
            *("-subj", "/CN=fwdesk's own authority"),
            *("-addext", "basicConstraints=critical,CA:TRUE,pathlen:0"),
            *("-addext", "keyUsage=critical,keyCertSign,cRLSign"),
            *("-keyout", made / "key", "-out", made / "crt"),
        )
        write_whole(key, (made / "key").read_text(encoding="ascii"), 0o600)
        write_whole(certificate, (made / "crt").read_text(encoding="ascii"))


def make_own(name: str) -> bool:
    """A certificate of the own authority for a name; tells whether one was made."""
    server = places.ETC / "server.crt"
    if pem().exists() and server.exists() and is_for(server, name):
        return False
    make_authority()
    authority = ("-CA", places.ETC / "ca.crt", "-CAkey", places.ETC / "ca.key", "-CAcreateserial")
    with tempfile.TemporaryDirectory() as folder:
        made = Path(folder)
        extensions = f"subjectAltName={alternative(name)}\nextendedKeyUsage=serverAuth\nbasicConstraints=CA:FALSE\n"
        (made / "extensions").write_text(extensions, encoding="ascii")
        request = ("-keyout", made / "key", "-out", made / "request")
        # a common name has 64 characters at most; the name itself stands in the extension
        output_of("openssl", "req", *CURVE, "-subj", f"/CN={name[:64]}", *request)
        output_of(
            *("openssl", "x509", "-req", "-in", made / "request", *authority[:4]),
            *("-CAserial", made / "serial", "-CAcreateserial", "-days", OF_SERVER),
            *("-extfile", made / "extensions", "-out", made / "crt"),
        )
        certificate = (made / "crt").read_text(encoding="ascii")
        key = (made / "key").read_text(encoding="ascii")
    write_whole(places.ETC / "server.key", key, 0o600)
    write_whole(pem(), certificate + key, 0o600)
    write_whole(server, certificate)
    return True


def join(certificate: Path, key: Path, name: str) -> bool:
    """Has the proxy use a certificate that is there, for instance ACME's; tells whether that changes anything."""
    for it in (certificate, key):
        if not it.is_file():
            raise Refused(f"{it} isn't there")
    public = ("-noout", "-pubkey")
    of_certificate = run("openssl", "x509", "-in", certificate, *public)
    if of_certificate[0] or of_certificate != run("openssl", "pkey", "-in", key, "-pubout"):
        raise Refused(f"{key} isn't the key of {certificate}")
    if not is_for(certificate, name):
        raise Refused(f"{certificate} isn't for {name}")
    if run("openssl", "x509", "-noout", "-in", certificate, "-checkend", 0)[0]:
        raise Refused(f"{certificate} has ended")
    text = certificate.read_text(encoding="ascii").rstrip() + "\n"
    of_key = key.read_text(encoding="ascii")
    write_whole(places.ETC / "server.crt", text)
    write_whole(places.ETC / "server.key", of_key, 0o600)
    return write_whole(pem(), text + of_key, 0o600)


def refuse_acme(name: str) -> None:
    """Refuses a machine on which certbot can't get the first certificate of a name."""
    if not shutil.which("certbot"):
        raise Refused("certbot isn't there: apt install certbot")
    if files_of_acme(name)[0].exists():
        return
    if words := acme_port_fault(name):
        raise Refused(f"{words}\nNothing was changed")


def acme_port_fault(name: str) -> str | None:
    """What keeps certbot from getting and renewing a certificate, with the way on; None where nothing does."""
    holder = listener_on(ACME_PORT)
    if holder is None:
        return None
    chain, key = files_of_acme(name)
    return (
        f"--acme needs port {ACME_PORT} now and at each renewal, and {holder} listens there. Stop it for good, or have "
        "certbot put its proof into the folder that it serves, and name the certificate (/var/www/html is Debian's):\n"
        f"    certbot certonly --webroot -w /var/www/html -d {name} --deploy-hook '{DEPLOY_HOOK}'\n"
        f"    fwdesk-setup {name} --certificate {chain} --key {key}"
    )


def ask_acme(name: str, mail: str) -> None:
    """Has certbot get a certificate, and renew it from then on."""
    output_of(
        *("certbot", "certonly", "--standalone", "--non-interactive", "--agree-tos"),
        *("--keep-until-expiring", "--cert-name", name, "-d", name, "-m", mail),
        *("--deploy-hook", DEPLOY_HOOK),
    )


def files_of_acme(name: str) -> tuple[Path, Path]:
    """Where certbot keeps the newest certificate of a name, with its chain, and its key."""
    folder = places.ROOT / "etc/letsencrypt/live" / name
    return folder / "fullchain.pem", folder / "privkey.pem"
