"""The refusals and the limits, as docs/reference/refusals.toml and limits.toml have them: words and numbers, and no rule."""
import tomllib
from pathlib import Path

FOLDER = Path(__file__).resolve().parent.parent / "docs/reference"
TABLE = tomllib.loads((FOLDER / "refusals.toml").read_text(encoding="utf-8"))
LIMITS = tomllib.loads((FOLDER / "limits.toml").read_text(encoding="utf-8"))["limits"]
# the name and the status of each refusal by its number
REFUSALS = {it["number"]: (it["name"], it["status"]) for it in TABLE["refusal"]}
# after these the connection ends
CLOSING = {it["number"] for it in TABLE["refusal"] if it.get("ends")}
# the reason phrases of their statuses
REASONS = {int(status): phrase for status, phrase in TABLE["reasons"].items()}
# each limit by its name in capitals, as MODULE_LIMIT
globals().update({name.upper(): number for name, number in LIMITS.items()})
