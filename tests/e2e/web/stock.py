"""Devices and firmware: imports, uploads, sets, tags. Not run by itself."""
import hashlib
import json
import os

from .steps import case, confirmed, entered


@case()
def an_import_with_a_wrong_line(browser, env):
    entered(browser, env, "#/targets")
    browser.open("details:has(#import-file)")
    wrong = (
        "wrong.csv",
        "dev-1,Lab,tok-dev-1,lab\ndev 2,Lab,tok-dev-2,lab\n",
        3,
        "dev 2,Lab,tok-dev-2,lab",
    )
    quoted = "quoted.csv", 'dev-1,"a, b",tok-dev-1,\ndev-2,,tok-dev-2,\n', 3, "dev-2,,tok-dev-2,"
    for name, text, line, shown in (wrong, quoted):
        (env.folder / name).write_text(f"controllerid,name,token,tags\n{text}")
        browser.type("#import-file", str(env.folder / name))
        browser.click("details:has(#import-file) button")
        is_line = (
            "document.querySelector('#import-told [data-line]')?.dataset.line === arguments[0]"
        )
        is_shown = "document.querySelector('#import-told mark').innerText === arguments[1]"
        browser.until(f"{is_line} && {is_shown}", str(line), shown)
        assert "(number 14)" in browser.text("#import-told")
    assert env.api("GET", "/rest/v1/targets")["total"] == 0
    (env.folder / "right.csv").write_text(
        "controllerid,name,token,tags\n"
        + "".join(f"dev-{k},Lab {k},tok-dev-{k},lab north\n" for k in range(60))
    )
    browser.type("#import-file", str(env.folder / "right.csv"))
    browser.click("details:has(#import-file) button")
    browser.until(
        "document.querySelector('#import-told').innerText.includes('Imported: 60 devices.')"
    )
    browser.until("document.querySelectorAll('tbody tr').length === 50")
    browser.click("tbody a")
    browser.type("#tag", "south")
    browser.press("\ue007")
    browser.until("document.querySelectorAll('.tags li').length === 3")
    browser.click("[aria-label='Remove the tag lab']")
    browser.until("document.querySelectorAll('.tags li').length === 2")
    assert env.api("GET", "/rest/v1/targets/dev-0")["tags"] == ["north", "south"]


HEADER = b"controllerid,name,token,tags\n"
ONE = b"dev-1,Lab,tok-dev-1,lab\n"
# files that are refused: the line that the server tells, and what the page says of it
FAULTY = {
    "empty": (b"", 0, "The file is empty: not even its first line is there."),
    "cut": (
        HEADER + ONE[:-1],
        0,
        "The last line of the file has no line feed at its end: add one.",
    ),
    "carriage": (
        HEADER + ONE[:-1] + b"\r",
        0,
        "The last line of the file has no line feed at its end: add one.",
    ),
    "utf16": (
        b"\xff\xfe" + (HEADER + ONE).decode().encode("utf-16-le"),
        0,
        "The file is in UTF-16: save it as UTF-8.",
    ),
    "utf16be": (
        b"\xfe\xff" + (HEADER + ONE).decode().encode("utf-16-be"),
        1,
        "The file is in UTF-16: save it as UTF-8.",
    ),
    "blank": (b"\n\r\n", 1, "The file has no record, not even controllerid,name,token,tags."),
    "semicolons": (
        (HEADER + ONE).replace(b",", b";"),
        1,
        "Line 1 has to be controllerid,name,token,tags; it is controllerid;name;token;tags",
    ),
    "gaps": (
        HEADER + b"\n\n" + ONE + b"dev-2,Lab,tok,lab\n",
        3,
        "Record 3, at line 5 of the file, is dev-2,Lab,tok,lab",
    ),
    "crlf": (
        HEADER.replace(b"\n", b"\r\n") + b"\r\n" + ONE + b"dev-2,,tok-dev-2,\n",
        3,
        "Record 3, at line 4 of the file, is dev-2,,tok-dev-2,",
    ),
    "mark": (b"\xef\xbb\xbf" + HEADER + ONE + ONE, 3, "Line 3 is dev-1,Lab,tok-dev-1,lab"),
    "quoted": (
        HEADER + b'dev-1,"a ""b"", c",tok-dev-1,\n' + b"dev 2,Lab,tok-dev-2,\n",
        3,
        "Line 3 is dev 2,Lab,tok-dev-2,",
    ),
    "lines": (
        HEADER + b"\n" + ONE + b'dev-2,"a\nb",tok-dev-2,\ndev-3,Lab,tok-dev-3,\n',
        3,
        'Record 3, at line 4 of the file, is dev-2,"a b",tok-dev-2,',
    ),
    "unclosed": (
        HEADER + ONE + b'dev-2,"Lab,tok-dev-2,\ndev-3,Lab,tok-dev-3,\n',
        3,
        'Line 3 is dev-2,"Lab,tok-dev-2, dev-3,Lab,tok-dev-3,',
    ),
    "inside": (
        HEADER + b'dev-1,La"b,tok-dev-1,\n' + b"dev-2,Lab,tok-dev-2,lab lab\n",
        3,
        "Line 3 is dev-2,Lab,tok-dev-2,lab lab",
    ),
    "latin": (
        HEADER + ONE + b"dev-2,K\xe4the,tok-dev-2,\n",
        3,
        "Line 3 is dev-2,K\ufffdthe,tok-dev-2, It has bytes that aren't UTF-8.",
    ),
}


@case()
def imports_word_by_word(browser, env):
    """Each faulty file is refused as docs/API.md has it, and what the page says of it is so.
    One that is too large isn't sent."""
    entered(browser, env, "#/targets")
    browser.open("details:has(#import-file)")
    for name, (data, line, words) in FAULTY.items():
        (env.folder / f"{name}.csv").write_bytes(data)
        told = env.ask("POST", "/desk/v1/import", data)
        assert (told[0], json.loads(told[2])["line"]) == (400, line), (name, told)
        browser.type("#import-file", str(env.folder / f"{name}.csv"))
        browser.click("details:has(#import-file) button")
        said = f"Refused: a line of the file is wrong, and nothing of it was imported (number 14). {words}"
        try:
            browser.until(
                "document.querySelector('#import-told').innerText.replace(/\\s+/g, "
                "' ').trim() === arguments[0]",
                said,
                seconds=15,
            )
        except AssertionError:
            raise AssertionError(
                f"{name}: {browser.text('#import-told')!r} in place of {said!r}"
            ) from None
    assert env.api("GET", "/rest/v1/targets")["total"] == 0
    (env.folder / "large.csv").write_bytes(HEADER + ONE * 200_000)
    browser.forget()
    browser.type("#import-file", str(env.folder / "large.csv"))
    browser.click("details:has(#import-file) button")
    words = (
        "large.csv has 4\u202f800\u202f029 bytes, and the server takes at most 4\u202f194\u202f304: "
        "nothing was sent."
    )
    browser.until("document.querySelector('#import-told').innerText.includes(arguments[0])", words)
    assert not browser.asked("import"), "a file that is too large is sent"


@case()
def an_import_tells_all_faults_and_asks_before_it_changes(browser, env):
    """All wrong lines at once, each with its fault, as `fwdesk-ctl import --check` tells them. Where devices that are there would be
    renamed or lose tags that is asked first: nothing is sent without a yes."""
    rows = "".join(f"dev-{k},Lab {k},tok-dev-{k},lab retired\n" for k in range(9))
    env.api("POST", "/desk/v1/import", HEADER.decode() + rows)
    entered(browser, env, "#/targets")
    browser.open("details:has(#import-file)")
    button = "details:has(#import-file) button"
    wrong = ("dev 1,Lab,tok-dev-1,lab", "new-1,Lab,short,lab;north", "dev-2,,tok-dev-2,lab")
    (env.folder / "wrong.csv").write_text(HEADER.decode() + ONE.decode() + "\n".join(wrong) + "\n")
    browser.type("#import-file", str(env.folder / "wrong.csv"))
    browser.click(button)
    browser.until("document.querySelectorAll('#import-faults li').length === 4")
    assert "4 faults in 3 lines" in browser.text("#import-faults")
    assert browser.texts("#import-faults li") == [
        "line 3: dev 1 is no id: 1 to 64 of A-Z a-z 0-9 . _ -",
        "line 4: the token has 5 characters: 8 to 64 are needed",
        "line 4: lab;north is no tag: 1 to 64 of A-Z a-z 0-9 . _ -",
        "line 5: the name is empty",
    ]
    changed = (
        "dev-0,Lab 0,tok-dev-0,lab\ndev-1,Other,tok-dev-1,lab retired yard\nnew-1,New,tok-new-1,\n"
    )
    (env.folder / "right.csv").write_text(HEADER.decode() + changed)
    before = env.api("GET", "/rest/v1/targets")
    browser.type("#import-file", str(env.folder / "right.csv"))
    words = (
        "3 devices: 1 new, 1 renamed, 1 lose tags, 1 gain tags.",
        "dev-1 is renamed: Lab 1 \u2192 Other",
        "dev-0 loses: retired",
    )
    browser.forget()
    confirmed(browser, button, *words, wanted=False)
    browser.until("document.querySelector('#import-told').innerText === 'Nothing was sent.'")
    assert not browser.asked("import") and env.api("GET", "/rest/v1/targets") == before
    assert browser.text("#import-faults") == ""
    confirmed(browser, button, *words)
    told = "document.querySelector('#import-told').innerText.includes('Imported: 3 devices.')"
    browser.until(told)
    assert env.api("GET", "/rest/v1/targets/dev-1")["name"] == "Other"
    assert env.api("GET", "/rest/v1/targets/dev-0")["tags"] == ["lab"]


@case()
def uploads_word_by_word(browser, env):
    """What the server would refuse is said when the file is chosen, and isn't sent; the eighth file is the last."""
    env.api("POST", "/rest/v1/softwaremodules", [{"name": "app", "type": "os", "version": "1.0"}])
    entered(browser, env, "#/firmware/modules/1")
    browser.find("#upload-file")
    browser.js(
        "window.sent = 0; const send = XMLHttpRequest.prototype.open;"
        "XMLHttpRequest.prototype.open = function (...words) { window.sent += 1; "
        "return send.apply(this, words); }"
    )
    (env.folder / "my file (1).bin").write_bytes(b"abc")
    (env.folder / "large.bin").write_bytes(bytes(4_194_305))
    taken = (
        "can't be a name on the server, which takes 1 to 128 of A-Z a-z 0-9 . _ -: type another one. "
        "Nothing was sent."
    )
    large = (
        "large.bin has 4\u202f194\u202f305 bytes, and the server takes at most 4\u202f194\u202f304: "
        "nothing was sent."
    )
    for name, words in (
        ("my file (1).bin", f"\u201cmy file (1).bin\u201d {taken}"),
        ("large.bin", large),
    ):
        browser.type("#upload-file", str(env.folder / name))
        browser.until("document.querySelector('#upload-told').innerText === arguments[0]", words)
        browser.click("#upload button")
        assert browser.text("#upload-told") == words and browser.js("return window.sent") == 0
    assert "4\u202f194\u202f304 bytes, 8 files in a module, 256 in all" in browser.text(
        "#upload-file-hint"
    )
    browser.type("#upload-file", str(env.folder / "my file (1).bin"))
    browser.type("#upload-name", "mine.bin")
    browser.click("#upload button")
    browser.until("document.querySelectorAll('tbody tr').length === 1")
    for k in range(7):
        env.api("POST", f"/rest/v1/softwaremodules/1/artifacts?filename={k}.bin", b"abc")
    full = "document.querySelector('main').innerText.includes('It has the 8 files that a module may have.')"
    browser.until(f"{full} && !document.querySelector('#upload')", seconds=12)


@case()
def a_set_is_asked_about(browser, env):
    """It says which modules are locked, and which have no file, before it is made; none chosen, or nine,
    is said before it is sent."""
    for k in range(1, 61):
        env.api(
            "POST",
            "/rest/v1/softwaremodules",
            [{"name": f"part-{k}", "type": "os", "version": "1.0"}],
        )
    env.api("POST", "/rest/v1/softwaremodules/60/artifacts?filename=a.bin", b"abc")
    entered(browser, env, "#/firmware")
    newest = [f"part-{k} 1.0" for k in range(60, 10, -1)]
    assert browser.texts(
        "[aria-label=Modules] td:first-child"
    ) == newest and "the newest 50 of 60" in browser.text("main")
    browser.open("details:has(#new-set)")
    browser.type("#set-name", "os")
    browser.type("#set-version", "3")
    browser.click("#new-set > button")
    browser.until(
        "document.querySelector('#notice').innerText.includes('Nothing was sent: a set has 1 to 8 modules, "
        "and none is chosen.')"
    )
    browser.js(
        "[...document.querySelectorAll('#new-set input[type=checkbox]')].slice(0, "
        "9).forEach((it) => (it.checked = true))"
    )
    browser.click("#new-set > button")
    browser.until(
        "document.querySelector('#notice').innerText.includes('Nothing was sent: a set has 1 to 8 modules, "
        "and 9 are chosen.')"
    )
    browser.js(
        "[...document.querySelectorAll('#new-set input[type=checkbox]')].slice(1, "
        "9).forEach((it) => (it.checked = false))"
    )
    browser.type("#firmware-search", "PART-7")
    browser.until("document.querySelectorAll('[aria-label=Modules] tbody tr').length === 1")
    assert [it.strip() for it in browser.texts("#set-modules label")] == [
        "part-60 1.0",
        "part-7 1.0",
    ], "what is chosen isn't to be seen"
    browser.click("#set-modules label:nth-child(2)")
    browser.click("#new-set > button")
    browser.until("document.getElementById('dialog').open")
    assert browser.texts("#dialog-words p") == [
        "Locks part-7 1.0, part-60 1.0 for good: they take no further file.",
        "Without a file: part-7 1.0. Devices are offered nothing " "to install of it.",
    ], browser.texts("#dialog-words p")
    browser.press("\ue00c")
    browser.until("!document.getElementById('dialog').open")
    assert (
        env.api("GET", "/rest/v1/distributionsets")["total"] == 0
        and not env.api("GET", "/rest/v1/softwaremodules/7")["locked"]
    )
    confirmed(browser, "#new-set > button", "Locks part-7 1.0, part-60 1.0 for good")
    browser.until("document.querySelector('#notice').innerText.includes('Added: set 1, os 3.')")
    assert env.api("GET", "/rest/v1/distributionsets/1")["modules"] == [{"id": 7}, {"id": 60}]
    browser.type("#firmware-search", "os 3")
    browser.until(
        "document.querySelectorAll('[aria-label=Sets] tbody tr').length === 1 && "
        "!document.querySelector('[aria-label=Modules]')"
    )


@case()
def an_upload(browser, env):
    """A module, its file with the SHA-256 that the browser computed, and a set."""
    entered(browser, env, "#/firmware")
    browser.open("details:has(#new-module)")
    for name, value in {"name": "app", "type": "os", "version": "1.0"}.items():
        browser.type(f"#module-{name}", value)
    browser.click("#new-module button")
    browser.click("tbody a")
    data = os.urandom(700_000)
    (env.folder / "image.bin").write_bytes(data)
    browser.js(
        "const send = XMLHttpRequest.prototype.open;"
        "XMLHttpRequest.prototype.open = function (...words) { window.sent = words[1]; "
        "return send.apply(this, words); };"
        "const look = () => { window.seen = Math.max(window.seen, "
        "document.querySelector('progress')?.value ?? 0); };"
        "window.seen = 0; new MutationObserver(look).observe(document.body, {subtree: true, childList: true, "
        "characterData: true});"
    )
    browser.type("#upload-file", str(env.folder / "image.bin"))
    browser.click("#upload button")
    digest = hashlib.sha256(data).hexdigest()
    browser.until("document.querySelector('tbody code')?.innerText === arguments[0]", digest)
    assert (
        f"sha256={digest}" in browser.js("return window.sent")
        and browser.js("return window.seen") == 1
    ), "the progress isn't shown"
    assert "700\u202f000 bytes" in browser.text("#notice") and digest in browser.text("#notice")
    assert (
        env.api("GET", "/rest/v1/softwaremodules/1/artifacts")["content"][0]["hashes"]["sha256"]
        == digest
    )
    browser.type("#upload-file", str(env.folder / "image.bin"))
    browser.click("#upload button")
    browser.until("document.querySelector('#notice .bad')?.innerText.includes('number 5')")
    # as a browser is where the page comes by plain http from another machine
    browser.js("Object.defineProperty(crypto, 'subtle', {value: undefined})")
    browser.type("#upload-file", str(env.folder / "image.bin"))
    browser.type("#upload-name", "second.bin")
    browser.click("#upload button")
    browser.until("document.querySelectorAll('tbody tr').length === 2")
    assert "sha256" not in browser.js(
        "return window.sent"
    ) and "the browser computed no SHA-256" in browser.text("#notice")
    entered(browser, env, "#/firmware")
    browser.open("details:has(#new-set)")
    browser.type("#set-name", "r2")
    browser.type("#set-version", "1.0")
    browser.click("#new-set input[type=checkbox]")
    confirmed(browser, "#new-set > button", "Locks app 1.0 for good: it takes no further file.")
    browser.until("document.querySelectorAll('table').length === 2")
    assert env.api("GET", "/rest/v1/distributionsets/1")["modules"] == [{"id": 1}]


STEPS = "return [...document.querySelectorAll('.steps li')].map((it) => it.dataset.state)"
# drops a file onto the form, as a hand does
DROP = """const files = new DataTransfer(); files.items.add(new File([arguments[0]], arguments[1]));
document.getElementById('drop').dispatchEvent(new DragEvent('drop', {dataTransfer: files, bubbles: true, cancelable: true}));"""


@case()
def new_firmware_in_one_press(browser, env):
    """A dropped file names itself; one press makes the module, uploads and makes the set, and leads to a plan of it."""
    entered(browser, env, "#/firmware")
    browser.find("#ship")
    names = {
        "pump-control_2.1.raucb": ("pump-control", "2.1"),
        "gateway-v1.10.2-rc1.tar.gz": ("gateway", "1.10.2-rc1"),
        "image.bin": ("image", ""),
        "os 3.swu": ("os", "3"),
    }
    for name, read in names.items():
        browser.js(DROP, "abc", name)
        found = browser.js(
            "return ['name', 'version'].map((it) => document.getElementById(`ship-${it}`).value)"
        )
        assert tuple(found) == read, (name, found)
    browser.js(DROP, "the image", "pump-control_2.1.raucb")
    browser.click("#ship button.main")
    browser.until("document.querySelector('#ship-told .ok')")
    assert browser.js(STEPS) == ["done"] * 3
    assert env.api("GET", "/rest/v1/softwaremodules/1") | {"locked": True} == {
        "id": 1,
        "locked": True,
        "name": "pump-control",
        "type": "os",
        "version": "2.1",
    }
    files = env.api("GET", "/rest/v1/softwaremodules/1/artifacts")["content"]
    digest = hashlib.sha256(b"the image").hexdigest()
    assert [(it["providedFilename"], it["hashes"]["sha256"]) for it in files] == [
        ("pump-control_2.1.raucb", digest)
    ]
    assert env.api("GET", "/rest/v1/distributionsets/1")["modules"] == [{"id": 1}]
    browser.click("#ship-told a")
    browser.until("document.querySelector('#rollout-set')?.value === '1'")


@case()
def new_firmware_that_fails_in_the_middle(browser, env):
    """It says which step failed and what is there; another press goes on from there, and makes nothing twice. A file of
    another content is refused by its version."""
    entered(browser, env, "#/firmware")
    browser.find("#ship")
    browser.js(DROP, "the image", "pump-2.1.bin")
    # the line breaks at the upload
    browser.js(
        "window.line = XMLHttpRequest.prototype.send;"
        "XMLHttpRequest.prototype.send = function () { setTimeout(() => this.onerror()); };"
    )
    browser.click("#ship button.main")
    browser.until("document.querySelector('#ship-told .bad')")
    assert browser.js(STEPS) == ["done", "failed", "later"]
    said = browser.text("#ship-told")
    assert "Module 1, pump 2.1, is made." in said and "Each ticked part is there." in said, said
    browser.js("XMLHttpRequest.prototype.send = window.line")
    browser.click("#ship button.main")
    browser.until("document.querySelector('#ship-told .ok')")
    assert "Module 1, pump 2.1, was there." in browser.text("#ship-told")
    counts = lambda: [
        env.api("GET", f"/rest/v1/{it}")["total"]
        for it in ("softwaremodules", "distributionsets", "softwaremodules/1/artifacts")
    ]
    assert counts() == [1, 1, 1]
    browser.js(DROP, "another image", "pump-2.1.bin")
    browser.click("#ship button.main")
    browser.until("document.querySelector('#ship-told .bad')")
    assert "give each image a version of its own" in browser.text("#ship-told")
    assert counts() == [1, 1, 1]
