"""Cases of fwdesk-ctl: operators are added, changed and removed, at a HAProxy that runs."""
import json
import re

from harness import http_client
from harness.tls import hashed

from harness.fwdesk_ctl import HOST, eventually, free_port, listens, needs, packages

OWN = """global
    presetenv FWDESK_OPERATORS {conf}/operators.map
"""
USERS = """# who may log in
userlist operators
    user anna password {digest}
    # the last line
"""
# what each request gets is the list of what its operator may
EDGE = """global
    presetenv FWDESK_OPERATORS /nowhere
defaults
    mode http
    timeout client 10s
    timeout server 10s
    timeout connect 5s
frontend fwdesk
    bind {host}:{port}
    http-request auth unless {{ http_auth(operators) }}
    http-request set-var(txn.may) http_auth_user,map_str("${{FWDESK_OPERATORS}}")
    http-request return status 200 content-type text/plain lf-string "may %[var(txn.may)]"
"""
# as Debian's unit: it checks, and tells the master
SYSTEMCTL = """#!/bin/sh
cd "{folder}" && echo "$*" >> calls
case $1 in
  is-active) test ! -e stopped ;;
  reload) test ! -e refuses || {{ echo "Job for haproxy.service failed." >&2; exit 1; }}
    haproxy -c -f conf -f parts/edge > /dev/null && kill -USR2 "$(cat pid)" ;;
esac
"""
# a HAProxy that refuses one operator
REFUSES_BEN = """#!/bin/sh
if grep -q "user ben" "$3/20-operators.cfg"; then echo "[ALERT] no ben" >&2; exit 1; fi
exec {haproxy} "$@"
"""
PASSWORD = "a secret of anna's"


class Topology:
    """A HAProxy with the operators' files, as its package has them."""

    def __init__(self, env):
        needs("haproxy", "openssl")
        self.env, self.port = env, free_port()
        self.conf, self.parts = env.folder / "conf", env.folder / "parts"
        for it in (self.conf, self.parts / "edge", env.folder / "programs"):
            it.mkdir(parents=True)
        digest = hashed(PASSWORD)
        (self.conf / "10-own.cfg").write_text(OWN.format(conf=self.conf))
        (self.conf / "20-operators.cfg").write_text(USERS.format(digest=digest))
        (self.conf / "20-operators.cfg").chmod(0o640)
        (self.conf / "operators.map").write_text("anna look,steer,approve,hold\n")
        (self.parts / "edge/10-edge.cfg").write_text(EDGE.format(host=HOST, port=self.port))
        file = env.folder / "programs/systemctl"
        file.write_text(SYSTEMCTL.format(folder=env.folder))
        file.chmod(0o755)
        env.environment["PATH"] = f"{env.folder}/programs:{env.environment['PATH']}"
        words = [packages.found("haproxy"), "-W", "-db", "-p", str(env.folder / "pid")]
        words += ["-f", str(self.conf), "-f", str(self.parts / "edge")]
        self.child = env.processes.start("haproxy", words)
        eventually("HAProxy", lambda: listens(self.port), child=self.child)
        (env.folder / "pid").write_text(str(self.child.pid))

    def words(self, *words):
        return ["operator", *words, "--conf", self.conf, "--parts", self.parts]

    def gives(self, *words, given=""):
        status, out, said = self.env.ctl(*self.words(*words), given=given)
        assert status == 0, f"{words}: status {status}: {said}"
        return out.strip()

    def refuses(self, status, why, *words, given=""):
        """Nothing of the files is changed."""
        before = self.texts()
        got, out, said = self.env.ctl(*self.words(*words), given=given)
        assert (got, out) == (status, "") and why in said, f"{words}: status {got}: {out}{said}"
        assert self.texts() == before, f"{words}: a file is changed"

    def texts(self):
        return {it.name: it.read_text() for it in sorted(self.conf.iterdir()) if it.name[0] != "."}

    def asks(self, name, password):
        """The status that a login gets, and what it may."""
        login = http_client.login(name, password)
        reply = http_client.ask("GET", "/", fields=login, port=self.port)
        return reply.status, reply.text.removeprefix("may ") if reply.status == 200 else ""

    def sees(self, name, password, wanted):
        """A reload takes a moment."""
        eventually(f"{name} gets {wanted}", lambda: self.asks(name, password) == wanted, 20)


def changes_operators(env):
    """operator: added with a password that is printed once, new password, roles, removed; each is in force at the
    running HAProxy; other operators and what stands beside them stay"""
    topology = Topology(env)
    topology.sees("anna", PASSWORD, (200, "look,steer,approve,hold"))
    assert topology.gives("list").split() == ["anna", "look,steer,approve,hold"]
    password = topology.gives("add", "ben", "--may", "steer")
    assert re.fullmatch(r"([a-z2-9]{5}-){3}[a-z2-9]{5}", password), password
    topology.sees("ben", password, (200, "look,steer"))
    assert topology.asks("ben", "wrong") == (401, "")
    assert password not in "".join(topology.texts().values())
    assert re.search(r"^    user ben password \$6\$", topology.texts()["20-operators.cfg"], re.M)
    other = topology.gives("password", "ben")
    assert other != password
    topology.sees("ben", other, (200, "look,steer"))
    assert topology.asks("ben", password) == (401, "")
    assert topology.gives("password", "ben", "--stdin", given="one of his own\n") == ""
    topology.sees("ben", "one of his own", (200, "look,steer"))
    topology.gives("roles", "ben", "hold,approve")
    topology.sees("ben", "one of his own", (200, "look,approve,hold"))
    listed = json.loads(topology.gives("list", "--json"))
    assert listed[1] == {"operator": "ben", "may": "look,approve,hold", "login": True}
    topology.gives("add", "carla@example.org", "--stdin", given="nobody's business\n")
    topology.sees("carla@example.org", "nobody's business", (200, "look"))
    topology.gives("remove", "ben")
    topology.sees("ben", "one of his own", (401, ""))
    assert topology.asks("anna", PASSWORD) == (200, "look,steer,approve,hold")
    topology.gives("remove", "carla@example.org")
    text = topology.texts()
    assert text["operators.map"] == "anna look,steer,approve,hold\n"
    assert (
        text["20-operators.cfg"].count("user ") == 1
        and "# the last line\n" in text["20-operators.cfg"]
    )
    assert (topology.conf / "20-operators.cfg").stat().st_mode & 0o777 == 0o640


def operator_refuses(env):
    """operator: names, roles and passwords that are none, one who is there or isn't; nothing is changed"""
    topology = Topology(env)
    for status, why, words, given in (
        (2, "is no operator's name", ("add", "a:b"), ""),
        (2, "is no operator's name", ("add", "a b"), ""),
        (
            2,
            "'steering' is no role: look, steer, approve, hold",
            ("add", "ben", "--may", "steering"),
            "",
        ),
        (2, "'' is no role", ("roles", "anna", ""), ""),
        (2, "10 to 200 characters", ("add", "ben", "--stdin"), "short\n"),
        (2, "10 to 200 characters", ("add", "ben", "--stdin"), ""),
        (2, "control characters", ("password", "anna", "--stdin"), "with a\ttab in it\n"),
        (1, "anna is there already", ("add", "anna"), ""),
        (1, "there is no operator ben", ("password", "ben"), ""),
        (1, "there is no operator ben", ("roles", "ben", "look"), ""),
        (1, "there is no operator ben", ("remove", "ben"), ""),
        (2, "takes 1 words", ("add", "ben", "a secret of ben's"), ""),
        (2, "invalid choice", ("forbid", "ben"), ""),
    ):
        topology.refuses(status, why, *words, given=given)
    assert not (env.folder / "calls").exists(), "nothing is reloaded"
    (topology.conf / "20-operators.cfg").rename(topology.conf / "30-mine.cfg")
    topology.refuses(2, "fwdesk-setup makes it", "list")
    env.refuses(2, "fwdesk-setup makes it", "operator", "list", "--conf", env.folder / "none")


def operator_checks_all(env):
    """operator: a configuration that HAProxy refuses is never loaded, and neither is one that was broken before; what
    isn't reloaded is put back; where HAProxy doesn't run it is told"""
    topology = Topology(env)
    broken = topology.conf / "90-broken.cfg"
    broken.write_text("frontend mine\n    bind nowhere:\n    nonsense\n")
    topology.refuses(1, "isn't valid as it is", "add", "ben")
    assert "nothing is changed" in env.ctl(*topology.words("add", "ben"))[2]
    broken.unlink()
    # a second userlist of this name would be ignored by HAProxy, which only warns of it
    (topology.conf / "30-more.cfg").write_text("userlist operators\n    user carla password x\n")
    topology.refuses(1, "duplicated userlist 'operators'", "add", "ben")
    (topology.conf / "30-more.cfg").unlink()
    stand_in = env.folder / "programs/haproxy"
    stand_in.write_text(REFUSES_BEN.format(haproxy=packages.found("haproxy")))
    stand_in.chmod(0o755)
    topology.refuses(1, "HAProxy refuses it: [ALERT] no ben; nothing is changed", "add", "ben")
    stand_in.unlink()
    (env.folder / "refuses").touch()
    topology.refuses(1, "Job for haproxy.service failed", "add", "ben")
    topology.refuses(1, "Job for haproxy.service failed", "remove", "anna")
    (env.folder / "refuses").unlink()
    (env.folder / "stopped").touch()
    status, out, said = env.ctl(*topology.words("add", "ben"))
    assert status == 0 and out and "it is loaded when that starts" in said, said
    assert topology.asks("ben", out.strip()) == (401, "")
    assert topology.asks("anna", PASSWORD)[0] == 200


def operator_of_many_fleets(env):
    """operator: where roles are those of fleets it gives logins alone"""
    topology = Topology(env)
    (topology.conf / "10-own.cfg").write_text(
        OWN.format(conf=topology.conf) + "    presetenv FWDESK_MANY 1\n"
    )
    topology.refuses(2, "fwdesk-fleet allow FLEET NAME", "add", "ben", "--may", "look")
    topology.refuses(2, "fwdesk-fleet allow FLEET NAME", "roles", "anna", "look")
    password = topology.gives("add", "ben")
    topology.sees("ben", password, (200, ""))
    topology.gives("remove", "ben")
    topology.sees("ben", password, (401, ""))
    assert topology.texts()["operators.map"] == "anna look,steer,approve,hold\n"


CASES = [changes_operators, operator_refuses, operator_checks_all, operator_of_many_fleets]
