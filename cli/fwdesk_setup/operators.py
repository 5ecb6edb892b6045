"""The operators: who logs in, and what each may."""
from fwdesk_ctl import passwords
from fwdesk_ctl.operators import MAY, ROLES, USERS
from fwdesk_setup import places
from fwdesk_setup.files import write_whole

ALL_ROLES = ",".join(MAY)


def users_text(users: dict[str, str]) -> str:
    """The file of logins: names with the hashes of their passwords."""
    lines = [f"    user {name} password {password}\n" for name, password in users.items()]
    return "# who may log in: fwdesk-ctl operator\nuserlist operators\n" + "".join(lines)


def roles_text(roles: dict[str, str]) -> str:
    """The file of what each login may."""
    return "".join(f"{name} {may}\n" for name, may in roles.items())


def write_operators(users: dict[str, str], roles: dict[str, str]) -> bool:
    """Writes both files; the roles first, so that a login never has more than it may."""
    changed = write_whole(places.OWN / ROLES, roles_text(roles), 0o640, "haproxy")
    return write_whole(places.OWN / USERS, users_text(users), 0o640, "haproxy") or changed


def add_first(name: str) -> str | None:
    """Adds the first operator, who may do all, and gives the password; None where somebody is there already."""
    if (places.OWN / USERS).exists():
        return None
    password = passwords.make()
    write_operators({name: passwords.digest_of(password)}, {name: ALL_ROLES})
    return password
