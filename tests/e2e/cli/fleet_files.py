"""Cases of fwdesk-ctl: a file of targets is checked before it is imported."""
import json
import random
import re

from fwdesk_ctl.fleet_file import read

HEAD = "controllerid,name,token,tags\n"


def written(env, text, name="fleet.csv"):
    data = text if isinstance(text, bytes) else text.encode()
    (env.folder / name).write_bytes(data)
    return name


def records(env):
    return env.get("targets?limit=500")["content"]


def checks_a_file(env):
    """import --check: new, renamed, tags lost and gained; nothing is changed; the import then does what was told"""
    env.fleet(3)
    for it in ("retired", "back"):
        env.ask("POST", f"/rest/v1/targets/dev-00002/tags/{it}")
    before = records(env)
    rows = "dev-00001,Pump,tok-dev-00001,lab\ndev-00002,Pump two,tok-dev-00002,lab yard\nnew-1,New,tok-new-1,lab\n"
    lines = env.gives("import", "--check", written(env, HEAD + rows)).splitlines()
    assert lines == [
        "new      new-1",
        "renamed  dev-00002: Pump -> Pump two",
        "loses    dev-00002: back retired",
        "gains    dev-00002: yard",
        "3 devices: 1 new, 1 renamed, 1 lose tags, 1 gain tags",
    ], lines
    assert records(env) == before, "--check changes something"
    told = json.loads(env.gives("import", "--check", "fleet.csv", "--json"))
    assert told["losesTags"] == [{"controllerId": "dev-00002", "tags": ["back", "retired"]}]
    assert (told["devices"], told["new"], told["faults"]) == (3, ["new-1"], [])
    assert env.gives("import", "fleet.csv") == "3"
    after = {it["controllerId"]: it for it in records(env)}
    assert after["dev-00002"]["tags"] == ["lab", "yard"] and after["new-1"]["name"] == "New"
    assert after["dev-00003"] == before[2], "a device that isn't in the file stays as it is"
    unchanged = env.gives("import", "--check", "fleet.csv")
    assert unchanged == "3 devices: 0 new, 0 renamed, 0 lose tags, 0 gain tags"
    env.refuses(2, "No such file", "import", "--check", "missing.csv")
    env.refuses(
        6, "cannot reach", "import", "--check", "fleet.csv", FWDESK_URL="http://127.0.0.1:1"
    )


WRONG = (
    ("a b,Pump,tok-dev-1,lab", "'a b' is no id"),
    ("ok-1,Other,tok-dev-1,lab", "ok-1 is in line 2 already"),
    ("dev-2,Pump,short,lab", "the token has 5 characters: 8 to 64 are needed"),
    ("dev-3,Pump,tok dev 3,lab", "the token has another character"),
    ("dev-4;Pump;tok-dev-4;lab", "semicolons stand between its values"),
    ("dev-5,Pump,tok-dev-5", "3 values in place of 4"),
    ("dev-6,Pump,tok-dev-6,lab,", "5 values in place of 4"),
    ("dev-7,,tok-dev-7,lab", "the name is empty"),
    (f"dev-8,{'x' * 129},tok-dev-8,lab", "the name has 129 bytes"),
    ("dev-9,Pump,tok-dev-9,lab;north", "'lab;north' is no tag"),
    ("dev-10,Pump,tok-dev-10,lab lab", "the tag lab comes 2 times"),
    ("dev-11,Pump,tok-dev-11, lab", "one space stands between two tags"),
    (f"dev-12,Pump,tok-dev-12,{' '.join(f't{it}' for it in range(17))}", "17 tags, more than 16"),
    ("dev-13,Pu\x01mp,tok-dev-13,lab", "a control character"),
)


def tells_each_fault(env):
    """import --check: each wrong line with what is wrong in it, all at once; a secret isn't told; the desk refuses each
    of these lines too"""
    env.fleet(1)
    before = records(env)
    rows = "ok-1,Pump,tok-ok-001,lab\n" + "".join(f"{it}\n" for it, _ in WRONG)
    status, out, said = env.ctl("import", "--check", written(env, HEAD + rows))
    lines = out.splitlines()
    assert status == 1 and f"{len(WRONG)} faults in {len(WRONG)} lines" in said, said
    for number, (_, words) in enumerate(WRONG, 3):
        assert any(
            it.startswith(f"wrong    line {number}: ") and words in it for it in lines
        ), f"{words}: {out}"
    assert "new      ok-1" in lines and "tok dev 3" not in out + said
    for row, _ in WRONG:
        text = f"{HEAD}ok-1,Pump,tok-ok-001,lab\n{row}\n"
        status, told = env.call("POST", "/desk/v1/import", text)
        assert (status, told["error"], told["line"]) == (400, "import_line", 3), (row, told)
    status, _, said = env.ctl("import", written(env, f"{HEAD}{WRONG[1][0]}\n{WRONG[2][0]}\n"))
    assert status == 1 and "line 3: the token has 5 characters" in said, said
    for text, words in (
        ("", "it is empty"),
        (HEAD + "dev-1,Pump,tok-dev-1,lab", "doesn't end with a line feed"),
        ("id,name\ndev-1,Pump\n", "the first line is 'id,name'"),
        (
            (HEAD + "dev-1,P\u00fcmp,tok-dev-1,lab\n").encode("latin-1"),
            "line 2: byte 8 isn't UTF-8",
        ),
        ((HEAD + "dev-1,Pump,tok-dev-1,lab\n").encode("utf-16"), "it is UTF-16"),
        (HEAD + 'dev-1,"Pump,tok-dev-1,lab\n', "a quote is opened"),
    ):
        status, out, said = env.ctl("import", "--check", written(env, text))
        assert status == 1 and words in out, f"{words}: {out}{said}"
        assert (
            env.call("POST", "/desk/v1/import", (env.folder / "fleet.csv").read_bytes())[0] == 400
        )
    for text in (
        "\ufeff" + HEAD + rows[:24] + "\n",
        (HEAD + rows[:24] + "\n").replace("\n", "\r\n"),
    ):
        assert env.gives("import", "--check", written(env, text)).startswith("new      ok-1")
    assert records(env) == before


# what a hand does to a line of a long file, and what is wrong in it then
SLIPS = (
    (lambda it: it.replace(",", ";"), "semicolons stand between its values: commas are needed"),
    (lambda it: it.replace("dev-", "dev ", 1), "'dev {}' is no id: 1 to 64 of A-Z a-z 0-9 . _ -"),
    (lambda it: it.replace(",lab", ""), "it has 3 values in place of 4"),
    (lambda it: f"{it},", "it has 5 values in place of 4"),
    (lambda it: re.sub("tok-[^,]*", "tok-1", it), "the token has 5 characters: 8 to 64"),
    (lambda it: it.replace("tok-dev", "tok dev"), "the token has another character"),
    (lambda it: it.replace(",Pump,", ",,"), "the name is empty"),
    (lambda it: it.replace(",lab", ",lab  north"), "one space stands between two tags"),
    (lambda it: it.replace(",lab", ",lab;north"), "'lab;north' is no tag"),
    (lambda it: it.replace(it.split(",")[0], "dev-00001", 1), "dev-00001 is in line 2 already"),
)


def mistyped_thousand(env):
    """import --check of 1,000 devices with 40 slips in it: all 40 lines at once, each with its fault, and no other line; a
    mistyped id that is one is told as new; nothing is changed; mended, the file is imported"""
    names = env.fleet(1000)
    before = env.get("targets?limit=500")
    good = [f"{it},Pump,tok-{it},lab" for it in names]
    rows, wanted = list(good), {}
    for count, at in enumerate(range(17, 1000, 25)):
        slip, words = SLIPS[count % len(SLIPS)]
        rows[at] = slip(good[at])
        wanted[at + 2] = words.format(names[at].removeprefix("dev-"))
    # an O for a 0, which no rule of a file refuses
    rows[500] = good[500].replace("dev-00501", "dev-O0501", 1)
    status, out, said = env.ctl("import", "--check", written(env, HEAD + "\n".join(rows) + "\n"))
    assert status == 1 and "40 faults in 40 lines; nothing is changed" in said, said
    told = [it.removeprefix("wrong    line ") for it in out.splitlines() if "wrong" in it]
    found = {int(number): words for number, _, words in (it.partition(": ") for it in told)}
    assert len(told) == 40 and set(found) == set(wanted), (set(found) ^ set(wanted), out)
    for line, words in wanted.items():
        assert words in found[line], f"line {line}: {found[line]!r} in place of {words!r}"
    assert "new      dev-O0501" in out and "960 devices: 1 new, 0 renamed" in out, out[-300:]
    assert env.ctl("import", "fleet.csv")[0] == 1
    assert env.get("targets?limit=500") == before and before["total"] == 1000
    assert env.gives("import", written(env, HEAD + "\n".join(good) + "\n")) == "1000"


def agrees_with_the_desk(env):
    """import --check calls a file good exactly where the desk takes it: 300 files with random changes of letters"""
    letters, dice = '"",,;\n\r\t a.é0', random.Random(71)
    good = HEAD + 'dev-1,Pump one,tok-dev-1,lab yard\n\ndev-2,"Pump, 2",tok-dev-2,\n'
    outcomes = set()
    for _ in range(300):
        text = list(good)
        for _ in range(dice.randint(0, 3)):
            at = dice.randrange(len(text))
            text[at : at + dice.randint(0, 1)] = dice.choice(letters)
        data = "".join(text).encode()
        taken = env.call("POST", "/desk/v1/import", data)[0] == 200
        import_check = not read(data).faults
        outcomes.add(taken)
        assert (
            import_check == taken
        ), f"the desk {'takes' if taken else 'refuses'} {data!r}: {read(data)}"
    assert outcomes == {True, False}


CASES = [checks_a_file, tells_each_fault, mistyped_thousand, agrees_with_the_desk]
