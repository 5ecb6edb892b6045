"""The web UI and fwdesk-ctl read a file of devices by the same rules: web/fleetfile.js, run by node, against fleet_file.py."""
import base64
import json
import random
import re
import shutil
import subprocess
import tempfile
from pathlib import Path

from crate_graph import ROOT
from harness.asserting import same

from fwdesk_ctl import fleet_file
from fwdesk_ctl.import_targets import changes_of

NODE = shutil.which("node")
HEAD = "controllerid,name,token,tags\n"
GOOD = HEAD + 'dev-1,Pump one,tok-dev-1,lab yard\n\ndev-2,"Pump, 2",tok-dev-2,\n'
READ = """
import {readFileSync} from "node:fs";
import {changesOf, readFleet} from "./fleetfile.js";
const read = (it) => readFleet(Uint8Array.from(Buffer.from(it, "base64")));
const [files, file, there] = JSON.parse(readFileSync(0));
console.log(JSON.stringify([files.map(read), changesOf(read(file).devices, there)]));
"""
# one line for each rule that a device breaks
BROKEN = (
    "a b,Pump,tok-dev-3,lab",
    "dev-1,Pump,tok-dev-3,lab",
    "dev-3,,tok-dev-3,lab",
    f"dev-3,{'é' * 65},tok-dev-3,lab",
    "dev-3,Pu\x7fmp,tok-dev-3,lab",
    "dev-3,Pump,short,lab",
    f"dev-3,Pump,{'t' * 65},lab",
    "dev-3,Pump,tok dev 3,lab",
    "dev-3,Pump,tok-dev-3, lab",
    "dev-3,Pump,tok-dev-3,lab;north",
    "dev-3,Pump,tok-dev-3,lab lab lab",
    f"dev-3,Pump,tok-dev-3,{' '.join(f't{it}' for it in range(17))}",
    "dev-3,Pump,tok-dev-3",
    "dev-3,Pump,tok-dev-3,lab,",
    "dev-3;Pump;tok-dev-3;lab",
    'dev-3,"Pump,tok-dev-3,lab',
)


def by_page(files, file=b"", there=()):
    """What the web UI's module reads of files, and what it says would be changed of the targets that are there."""
    with tempfile.TemporaryDirectory() as folder:
        for it in ("fleetfile.js", "limits.js"):
            shutil.copy(ROOT / "web" / it, folder)
        Path(folder, "language.js").write_text("export const t = (key) => key;\n")
        Path(folder, "package.json").write_text('{"type": "module"}\n')
        Path(folder, "read.js").write_text(READ)
        given = [[base64.b64encode(it).decode() for it in files]]
        given += [base64.b64encode(file).decode(), list(there)]
        ran = subprocess.run(
            [NODE, "read.js"], cwd=folder, input=json.dumps(given), capture_output=True, text=True
        )
    assert ran.returncode == 0, ran.stderr
    return json.loads(ran.stdout)


def is_left_out():
    if not NODE:
        print("left out: node isn't there, so the page's rules of a file aren't compared")
    return not NODE


def english():
    """The page's words for each fault."""
    text = (ROOT / "web/en.js").read_text(encoding="utf-8")
    return dict(re.findall(r'"fault\.(\w+)": "([^"]*)"', text))


def said(words, fault):
    """A fault of the page as a line and its English words."""
    line, word, values = [*fault, {}][:3]
    text = words[word]
    for key, value in values.items():
        text = text.replace(f"{{{key}}}", str(value))
    return line, text


def without_quotes(fault):
    """A fault without what one of both says of the text itself: Python quotes it, and tells the byte."""
    line, text = fault
    text = re.sub(r"(?s)^.* is no (id|tag): ", r"no \1: ", text)
    text = re.sub(r"(?s)^the first line is .* in place of ", "the first line: ", text)
    return line, re.sub(r"^(a byte of it|byte \d+) isn't UTF-8", "not UTF-8", text)


def compare(files):
    """Compares what both read of files; gives the page's words for faults that came up."""
    words, met = english(), set()
    for data, read in zip(files, by_page(files)[0]):
        file = fleet_file.read(data)
        wanted = sorted(without_quotes(it) for it in file.faults if it[0])
        found = sorted(without_quotes(said(words, it)) for it in read["faults"])
        assert found == wanted, f"{data!r}: {found} in place of {wanted}"
        rows = [{"id": it.controller_id, "name": it.name, "tags": it.tags} for it in file.rows]
        same(read["devices"], rows)
        met |= {it[1] for it in read["faults"]}
    return met


def test_the_page_tells_each_fault_as_the_command_does():
    if is_left_out():
        return
    files = [f"{GOOD}{it}\n".encode() for it in BROKEN]
    files += [GOOD.replace("dev-1,Pump", "dev-1,P\u00fcmp").encode("latin-1"), b"id,name\n"]
    files.append(f"{GOOD}{chr(10).join(BROKEN)}\n".encode())
    assert compare(files) == set(english()), set(english()) - compare(files)


def test_the_page_agrees_about_random_files():
    if is_left_out():
        return
    dice, letters, files = random.Random(71), '"",,;\n\r\t a.é0', []
    for _ in range(600):
        text = list(GOOD)
        for _ in range(dice.randint(0, 4)):
            at = dice.randrange(len(text))
            text[at : at + dice.randint(0, 1)] = dice.choice(letters)
        data = "".join(text).encode()
        at = dice.randrange(len(data))
        data = (
            data[:at] + bytes(dice.choices((0xE4, 0xC3, 0x80), k=dice.random() < 0.2)) + data[at:]
        )
        files.append(b"\xef\xbb\xbf" * (dice.random() < 0.1) + data)
    assert len(compare(files)) > 6


def test_the_page_tells_the_same_changes():
    if is_left_out():
        return
    there = [
        {"controllerId": "dev-1", "name": "Pump one", "tags": ["lab", "retired"]},
        {"controllerId": "dev-2", "name": "Pump two", "tags": ["lab"]},
    ]
    data = (
        HEAD + "dev-1,Pump one,tok-dev-1,lab yard\ndev-2,Pump 2,tok-dev-2,lab\nnew,N,tok-new-1,\n"
    )
    found = by_page([], data.encode(), there)[1]
    wanted = changes_of(fleet_file.read(data.encode()), there)
    same(found["fresh"], 1)
    same(wanted["new"], ["new"])
    same(found["renamed"], [{"id": "dev-2", "from": "Pump two", "to": "Pump 2"}])
    same(wanted["renamed"], [{"controllerId": "dev-2", "from": "Pump two", "to": "Pump 2"}])
    same(found["loses"], [{"id": "dev-1", "tags": ["retired"]}])
    same(wanted["losesTags"], [{"controllerId": "dev-1", "tags": ["retired"]}])
    same((found["gains"], len(wanted["gainsTags"])), (1, 1))
