"""Operators' passwords: made, checked, and hashed as HAProxy has them."""
import secrets
import subprocess

from fwdesk_ctl.errors import NotDone, Wrong

# without letters that are taken for one another; 20 of them are 98 bits
LETTERS = "abcdefghjkmnpqrstuvwxyz23456789"
GROUPS, SIZE = 4, 5
LEAST, MOST = 10, 200  # characters of a password
SECONDS = 60  # for a digest


def make() -> str:
    """A password that nobody guesses, in groups that can be read out."""
    return "-".join("".join(secrets.choice(LETTERS) for _ in range(SIZE)) for _ in range(GROUPS))


def check(password: str) -> str:
    """A password that somebody has chosen; raises Wrong where it can't be one."""
    if not LEAST <= len(password) <= MOST or not password.isprintable():
        raise Wrong(f"a password has {LEAST} to {MOST} characters, and no control characters")
    return password


def digest_of(password: str) -> str:
    """The password as HAProxy has it: SHA-512 of crypt(3). It is told to openssl by a pipe alone."""
    try:
        ran = subprocess.run(
            ["openssl", "passwd", "-6", "-stdin"],
            input=f"{password}\n",
            capture_output=True,
            text=True,
            timeout=SECONDS,
        )
    except OSError as error:
        raise NotDone(f"openssl: {error.strerror}") from None
    digest = ran.stdout.strip()
    if ran.returncode or not digest.startswith("$6$"):
        raise NotDone(f"openssl passwd: {ran.stderr.strip() or 'no digest'}")
    return digest
