"""Cases of fwdesk-ctl: files for hawkBit's clients, through fwdesk-hawkbit."""
import hashlib
import json
import signal
import subprocess
import sys

from harness.fwdesk_ctl import CLI, Adapter

BASE = "/DEFAULT/controller/v1"
LARGEST = 4_194_304
# fwdesk-ctl, killed just before the so-many-th of the calls that change something, or wait for what one changed
KILLED = """
import http.client, importlib.machinery, importlib.util, os, signal, sys
sys.path.insert(0, sys.argv[1])
at, seen = int(sys.argv[2]), 0
def counted(call, counts=lambda *_: True):
    def before(*given, **more):
        global seen
        seen += counts(*given)
        if seen == at:
            os.kill(os.getpid(), signal.SIGKILL)
        return call(*given, **more)
    return before
os.replace, os.fsync = counted(os.replace), counted(os.fsync)
client = http.client.HTTPConnection
client.request = counted(client.request, lambda _, method, *more: method == "POST")
client.getresponse = counted(client.getresponse, lambda it: it._method == "POST")
loader = importlib.machinery.SourceFileLoader("fwdesk_ctl", sys.argv[1] + "/fwdesk-ctl")
module = importlib.util.module_from_spec(importlib.util.spec_from_loader("fwdesk_ctl", loader))
loader.exec_module(module)
status = module.main(sys.argv[3:])
print(seen, file=sys.stderr)
sys.exit(status)
"""


def image(name, size):
    """Bytes that no other file has."""
    return hashlib.shake_128(name.encode()).digest(size)


def file_of(env, name, size):
    file = env.folder / name
    file.write_bytes(image(name, size))
    return file


def device(env, module):
    """A device that is offered a set of this module alone, and its id."""
    (name,) = env.fleet(1, form=f"of-{module}-{{}}", first=env.get("rollouts?limit=1")["total"] + 1)
    made = env.gives("set", f"s-{name}", "1", "--module", module, "--allow-empty")
    plan = ("plan", f"r-{name}", "--set", made, "--groups", 1, "--success", 100, "--error", 100)
    env.gives("start", env.gives(*plan, "--filter", f"controllerid=={name}"))
    return name


def installs(adapter, name, *wanted):
    """A device gets each file through the adapter as hawkBit's clients do: by the sums and the size that it is told."""
    kind, action = adapter.env.offered(name)
    status, told = adapter.get(f"{BASE}/{name}/{kind}/{action}", name)
    assert status == 200, told
    chunks = json.loads(told)["deployment"]["chunks"]
    offered = {it["filename"]: it for chunk in chunks for it in chunk["artifacts"]}
    assert set(offered) == set(wanted), set(offered)
    for file in wanted:
        one, contents = offered[file], image(file, wanted_size(file))
        sums = {kind: hashlib.new(kind, contents).hexdigest() for kind in ("md5", "sha1", "sha256")}
        assert one["hashes"] == sums and one["size"] == len(contents), f"{file}: {one}"
        link = one["_links"]["download-http"]["href"]
        assert adapter.get(link[link.index("/DEFAULT/") :], name) == (
            200,
            contents,
        ), f"{file}: another file is sent"


def wanted_size(name):
    """The size of a file stands in its name."""
    return int(name.split("-")[1].partition(".")[0])


def adds_firmware(env):
    """firmware-add: a small and a large file are installed as they are; done again nothing is there twice"""
    adapter = Adapter(env)
    for number, name in ((1, f"small-{LARGEST}.swu"), (2, f"large-{LARGEST + 1}.raucb")):
        file = file_of(env, name, wanted_size(name))
        env.gives("module", name, "1")
        words = ("firmware-add", file, "--module", number, *adapter.places)
        assert env.gives(*words) == str(number)
        assert env.gives(*words) == str(number), "the same again"
        assert env.get(f"softwaremodules/{number}/artifacts")["total"] == 1
        assert (adapter.folder / "firmware" / name).exists() == (number == 2)
        installs(adapter, device(env, number), name)
        assert env.gives(*words) == str(number), "the same again, of a locked module"
    assert env.get("softwaremodules/2/artifacts/2")["size"] == 65


def refuses_firmware(env):
    """firmware-add where something speaks against it: 1 or 2, and nothing is changed, in no place"""
    adapter = Adapter(env)
    for it in "abc":
        env.gives("module", it, "1")
    first = file_of(env, "first-5000000.swu", 5_000_000)
    env.gives("firmware-add", first, "--module", 1, *adapter.places)
    lies, large = "lies-5000000.swu", file_of(env, "new-5000001.swu", 5_000_001)
    (env.folder / "firmware" / lies).write_bytes(b"another file")
    (env.folder / "other.swu").write_bytes(b"x" * 5_000_000)
    env.gives("set", "c", "1", "--module", 3, "--allow-empty")
    tried = (
        (
            ("other.swu", "--module", 2, "--name", first.name),
            1,
            "give each version a name of its own",
        ),
        ((file_of(env, lies, 5_000_000), "--module", 2), 1, "another file"),
        ((file_of(env, "new-100.swu", 100), "--module", 3), 1, "a set names module 3"),
        ((file_of(env, "new-100.swu", 100), "--module", 9), 1, "404 not_found"),
        ((file_of(env, "new-100.bin", 100), "--module", 2), 2, "neither in .swu nor in .raucb"),
        (("missing.swu", "--module", 2), 2, "No such file"),
        ((large, "--module", 2, "--firmware", env.folder / "none"), 1, "no folder"),
    )
    before = sorted((env.folder / "firmware").iterdir())
    for words, wanted, why in tried:
        pairs = [it for it in zip(adapter.places[::2], adapter.places[1::2]) if it[0] not in words]
        env.refuses(wanted, why, "firmware-add", *words, *(it for pair in pairs for it in pair))
        assert env.get("softwaremodules/2/artifacts")["total"] == 0
    assert before == sorted((env.folder / "firmware").iterdir())


def adds_firmware_in_spite_of_kills(env):
    """firmware-add killed before each of its calls: what the desk has is installed; begun again it is done"""
    adapter = Adapter(env)
    env.gives("module", "before", "1")
    first = f"first-{LARGEST + 7}.swu"
    env.gives(
        "firmware-add", file_of(env, first, wanted_size(first)), "--module", 1, *adapter.places
    )
    before = device(env, 1)
    at, seen = 0, None
    while seen is None:
        at += 1
        name = f"at{at}-{LARGEST + at}.swu"
        module = env.gives("module", name, "1")
        words = [
            "firmware-add",
            file_of(env, name, wanted_size(name)),
            "--module",
            module,
            *adapter.places,
        ]
        seen = killed(env, at, words)
        of_before(env, adapter, before, module, name, first)
        assert env.gives(*words) != "", name
        assert env.get(f"softwaremodules/{module}/artifacts")["total"] == 1
        if at % 2 == 0:
            installs(adapter, device(env, module), name)
    assert at > 4, f"it was killed at {at} calls alone"


def killed(env, at, words):
    """Kills the order before its so-many-th call. Answers how many there are where it comes to its end."""
    own = {"FWDESK_URL": env.url, **env.environment}
    order = [sys.executable, "-c", KILLED, str(CLI), str(at), *map(str, words)]
    ran = subprocess.run(
        order, env=own, cwd=env.folder, stdout=subprocess.PIPE, stderr=subprocess.PIPE, text=True
    )
    if ran.returncode == -signal.SIGKILL:
        return None
    assert ran.returncode == 0, ran.stderr
    return int(ran.stderr.split()[-1])


def of_before(env, adapter, before, module, name, first):
    """After a kill an earlier rollout's device gets its file, and so does one that is offered what the desk has now."""
    installs(adapter, before, first)
    if env.get(f"softwaremodules/{module}/artifacts")["total"]:
        installs(adapter, device(env, module), name)


def waits_for_images(env):
    """an artifact that came by upload is installed; a stub whose image isn't there, or is another file, is offered later"""
    adapter = Adapter(env)
    small, large = "small-3000.swu", f"large-{LARGEST + 1}.swu"
    for it in (small, large):
        file_of(env, it, wanted_size(it))
        env.gives("module", it, "1")
    env.gives("upload", small, "--module", 1)
    (env.folder / "stub").write_text(
        hashlib.sha256(image(large, wanted_size(large))).hexdigest() + "\n"
    )
    env.gives("upload", "stub", "--module", 2, "--name", large)
    installs(adapter, device(env, 1), small)
    name = device(env, 2)
    kind, action = env.offered(name)
    for there in (None, b"another file"):
        if there:
            (env.folder / "firmware" / large).write_bytes(there)
        status, told = adapter.get(f"{BASE}/{name}/{kind}/{action}", name)
        assert status == 503 and b"image" in told, told
        status, told = adapter.get(f"{BASE}/{name}/softwaremodules/2/artifacts/{large}", name)
        assert status == 503, told
    (env.folder / "firmware" / large).write_bytes(image(large, wanted_size(large)))
    installs(adapter, name, large)


CASES = [adds_firmware, refuses_firmware, adds_firmware_in_spite_of_kills, waits_for_images]
