"""Software modules, their artifacts, and distribution sets."""

import asyncio
import contextlib
import hashlib
import os
import re
import tempfile
from collections.abc import Mapping
from pathlib import Path
from typing import Any, BinaryIO

from aiohttp import web
from aiohttp.http_exceptions import HttpProcessingError

from fwdesk_hawkbit.calls import STAMPS, Call, Json, may_hide, missing, need, on, page_of, refuse
from fwdesk_hawkbit.desk import R
from fwdesk_hawkbit.faults import Fault
from fwdesk_hawkbit.sums import KINDS, LARGEST, Count, Sums, count, pieces_of

NAME = re.compile(r"[A-Za-z0-9._-]{1,128}", re.ASCII)
# of a form: its parts beside the file, the bytes of each, and of a piece of the file
PARTS, PART, PIECE = 16, 1024, 1 << 16
MODULES = "softwaremodules"
SETS = "distributionsets"


def show_module(c: Call, it: Json) -> Json:
    more = {"typeName": it["type"], "description": "", "vendor": "", "encrypted": False}
    place = f"{MODULES}/{it['id']}"
    return STAMPS | it | more | {"deleted": False} | c.links(place, "artifacts")


@on("GET", MODULES)
async def list_modules(c: Call) -> Json:
    return c.page([show_module(c, it) for it in await c.listed(MODULES)])


async def add(c: Call, path: str, rows: list[Json]) -> list[Json]:
    """One after the other, as the desk takes them.

    Asked again after a death between two, it goes on with those that are missing; where all are there, or one is there
    otherwise, nothing is made."""
    keys = [it for it in rows[0] if it != "modules"]

    def name(it: Json) -> tuple[Any, ...]:
        return tuple(it[key] for key in keys)

    if len({name(it) for it in rows}) < len(rows):
        raise Fault("exists", "One is asked for twice")
    async with c.gateway.alone(path):
        held = {name(it): it for it in await c.desk.every(f"{R}/{path}")}
        there = [held.get(name(it)) for it in rows]
        others = [
            old for old, it in zip(there, rows) if old and old.get("modules") != it.get("modules")
        ]
        if all(there) or others:
            raise Fault("exists", "The given entity already exists in database")
        return [
            old or (await c.desk.ask("POST", f"{R}/{path}", [it]))[0]
            for old, it in zip(there, rows)
        ]


@on("POST", MODULES)
async def add_modules(c: Call) -> tuple[int, list[Json]]:
    asked = await c.objects()
    for it in asked:
        need(it, "name", "type", "version")
        refuse(it, encrypted="no artifact is encrypted")
    rows = [{key: str(it[key]) for key in ("name", "type", "version")} for it in asked]
    return 201, [show_module(c, it) for it in await add(c, MODULES, rows)]


@on("GET", f"{MODULES}/{{module}}")
async def get_module(c: Call, ident: int) -> Json:
    return show_module(c, await c.there("SoftwareModule", MODULES, ident))


async def show_artifact(c: Call, module: int, it: Json) -> Json:
    place, name = f"{MODULES}/{module}/artifacts/{it['id']}", it["providedFilename"]

    async def fetch() -> bytes:
        return await c.desk.bytes_of("GET", f"{R}/{place}/download")

    sums = await c.gateway.artifacts.whole(name, it["size"], it["hashes"]["sha256"], fetch)
    told = {"id": it["id"], "providedFilename": name, "size": sums.size, "hashes": sums.hashes}
    return STAMPS | told | {"deleted": False} | c.links(place, "download")


@on("GET", f"{MODULES}/{{module}}/artifacts")
async def list_artifacts(c: Call, ident: int) -> list[Json]:
    """A plain list in hawkBit, and no page."""
    await get_module(c, ident)
    held = await c.desk.every(f"{R}/{MODULES}/{ident}/artifacts")
    shown = [it for it in held if not c.kept.hides("artifacts", it["id"])]
    return [await show_artifact(c, ident, it) for it in shown]


async def find_artifact(c: Call, module: int, ident: int) -> Json:
    hidden = c.kept.hides("artifacts", ident) or c.kept.hides(MODULES, module)
    path = f"{R}/{MODULES}/{module}/artifacts/{ident}"
    it: Json | None = None if hidden else await c.desk.maybe(path)
    if it is None:
        raise missing("Artifact", ident)
    return it


@on("GET", f"{MODULES}/{{module}}/artifacts/{{artifact}}")
async def get_artifact(c: Call, module: int, ident: int) -> Json:
    return await show_artifact(c, module, await find_artifact(c, module, ident))


@on("GET", f"{MODULES}/{{module}}/artifacts/{{artifact}}/download")
async def download(c: Call, module: int, ident: int) -> web.StreamResponse:
    it = await find_artifact(c, module, ident)
    held = it["hashes"]["sha256"]
    if image := await c.gateway.artifacts.image(it["providedFilename"], it["size"], held):
        return web.FileResponse(image.path, headers={"Content-Type": "application/octet-stream"})
    path = f"{R}/{MODULES}/{module}/artifacts/{ident}/download"
    data = await c.desk.bytes_of("GET", path)
    return web.Response(body=data, content_type="application/octet-stream")


def need_plain(fields: Mapping[str, str]) -> None:
    """The bytes of a part are those of its file."""
    coding = fields.get("Content-Encoding", "identity").lower()
    transfer = fields.get("Content-Transfer-Encoding", "binary").lower()
    if coding != "identity" or transfer not in ("binary", "8bit", "7bit"):
        raise Fault("body", "the file is coded: send it as it is")
    if not fields.get("Content-Length", "0").isdecimal():
        raise Fault("body", "the file's length is no number")


async def take_form(c: Call, file: BinaryIO) -> tuple[Sums, str]:
    """The form's file, by pieces, into this one: its sums, and its name; or a Fault, also where a sum is another one."""
    told: dict[str, str] = dict(c.query)
    counted, files, parts = Count(), 0, 0
    if not c.request.content_type.startswith("multipart/form-data"):
        raise Fault("body", "Current request is not a multipart request")
    try:
        async for part in await c.request.multipart():
            parts += 1
            name = getattr(part, "name", None)
            if parts > PARTS or not hasattr(part, "read_chunk") or not name:
                raise Fault("body", f"a form has {PARTS} parts at most, each with a name")
            if name != "file":
                told[name] = (await part.read_chunk(PART)).decode("utf-8", "replace")
                if await part.read_chunk(1):
                    raise Fault("body", f"part {name} has over {PART} bytes")
                continue
            files += 1
            if files > 1:
                raise Fault("body", "one file at a time")
            need_plain(part.headers)
            told.setdefault("filename", part.filename or "")
            while piece := await part.read_chunk(PIECE):
                counted.add(piece)
                if counted.size > c.gateway.largest:
                    raise Fault("size", f"the file is over {c.gateway.largest} bytes")
                await asyncio.to_thread(file.write, piece)
    except (ValueError, AssertionError, KeyError, RuntimeError, HttpProcessingError) as why:
        raise Fault("body", f"the form is not well formed: {str(why)[:200]}") from None
    if not files:
        raise Fault("body", "the form has no file")
    sums = counted.sums()
    for kind in KINDS:
        said = told.get(f"{kind}sum", "").strip().lower()
        if said and said != getattr(sums, kind):
            raise Fault(f"digest {kind}", f"The {kind} of the file is {getattr(sums, kind)}")
    name = told["filename"]
    if not NAME.fullmatch(name) or name.startswith("."):
        raise Fault("constraint", f"{name!r}: a file's name is 1 to 128 letters, digits and . _ -")
    return sums, name


def place_image(file: BinaryIO, path: Path, sums: Sums) -> None:
    """Puts a large file under its name, durable; the name may have the same file already, and no other one."""
    os.fchmod(file.fileno(), 0o644)
    os.fsync(file.fileno())
    try:
        os.link(file.name, path)
    except FileExistsError:
        with open(path, "rb") as there:
            if count(pieces_of(there)) != sums:
                raise Fault(
                    "exists",
                    f"another {path.name} lies with the proxy: give each a name of its own",
                ) from None
    folder = os.open(path.parent, os.O_RDONLY)
    os.fsync(folder)
    os.close(folder)


@on("POST", f"{MODULES}/{{module}}/artifacts")
async def upload(c: Call, module: int) -> tuple[int, Json]:
    """A large file lies with the proxy before the desk has its stub, so no device is told of one that isn't there."""
    await get_module(c, module)
    async with c.gateway.uploads:
        with contextlib.ExitStack() as left:
            file: Any = tempfile.NamedTemporaryFile(dir=c.gateway.images, prefix=".upload-")
            left.enter_context(file)
            sums, name = await take_form(c, file)
            await asyncio.to_thread(file.flush)
            held = await desk_bytes(c, module, name, file, sums)
    query = {"filename": name, "sha256": hashlib.sha256(held).hexdigest()}
    made = await c.desk.ask("POST", f"{R}/{MODULES}/{module}/artifacts", held, **query)
    return 201, await show_artifact(c, module, made)


async def desk_bytes(c: Call, module: int, name: str, file: BinaryIO, sums: Sums) -> bytes:
    """What the desk is to have: the file itself, or the stub of one that lies with the proxy now."""
    if sums.size <= LARGEST:
        file.seek(0)
        return await asyncio.to_thread(file.read)
    for it in await c.desk.every(f"{R}/{MODULES}/{module}/artifacts"):
        if it["providedFilename"] == name:
            raise Fault("exists", f"module {module} has a {name} already")
    await asyncio.to_thread(place_image, file, c.gateway.images / name, sums)
    return sums.stub


# --- distribution sets


async def show_sets(c: Call, sets: list[Json]) -> list[Json]:
    """With their modules. What kind of set it is follows from these."""
    wanted = {one["id"] for it in sets for one in it["modules"]}
    many = (
        await c.desk.every(f"{R}/{MODULES}")
        if len(wanted) > 8
        else [await c.desk.ask("GET", f"{R}/{MODULES}/{it}") for it in sorted(wanted)]
    )
    held, shown = {it["id"]: show_module(c, it) for it in many}, []
    for it in sets:
        inner = [held[one["id"]] for one in it["modules"]]
        kinds = sorted({"app" if one["type"] == "application" else one["type"] for one in inner})
        told = {"type": kinds[0] if len(kinds) == 1 else "os_app", "modules": inner}
        told |= {"description": "", "complete": True, "locked": True, "valid": True}
        told |= {"deleted": False, "requiredMigrationStep": False}
        shown.append(STAMPS | it | told | c.links(f"{SETS}/{it['id']}", "assignedSM"))
    return shown


@on("GET", SETS)
async def list_sets(c: Call) -> Json:
    plain = [STAMPS | {"type": "", "description": ""} | it for it in await c.listed(SETS)]
    shown, total = c.cut(plain)
    return page_of(await show_sets(c, shown), total)


@on("POST", SETS)
async def add_sets(c: Call) -> tuple[int, list[Json]]:
    asked, rows = await c.objects(), []
    for it in asked:
        need(it, "name", "version")
        refuse(it, requiredMigrationStep="the desk keeps no such mark")
        modules = it.get("modules")
        if not isinstance(modules, list) or not modules:
            raise Fault("unsupported", "a set is made with its modules, and is whole from then on")
        if not all(isinstance(one, dict) and isinstance(one.get("id"), int) for one in modules):
            raise Fault("constraint", "modules is a list of objects with an id")
        inner = [{"id": one["id"]} for one in modules]
        rows.append({"name": it["name"], "version": str(it["version"]), "modules": inner})
    return 201, await show_sets(c, await add(c, SETS, rows))


@on("GET", f"{SETS}/{{set}}")
async def get_set(c: Call, ident: int) -> Json:
    return (await show_sets(c, [await c.there("DistributionSet", SETS, ident)]))[0]


@on("GET", f"{SETS}/{{set}}/assignedSM")
async def list_modules_of_set(c: Call, ident: int) -> Json:
    return c.page((await get_set(c, ident))["modules"])


@on("DELETE", f"{{word:{MODULES}|{SETS}}}/{{ident}}")
async def delete_thing(c: Call, path: str, ident: int) -> None:
    await c.there("SoftwareModule" if path == MODULES else "DistributionSet", path, ident)
    may_hide(c, "it")
    c.kept.hide(path, ident)


@on("DELETE", f"{MODULES}/{{module}}/artifacts/{{artifact}}")
async def delete_artifact(c: Call, module: int, ident: int) -> None:
    await find_artifact(c, module, ident)
    may_hide(c, "it")
    c.kept.hide("artifacts", ident)
