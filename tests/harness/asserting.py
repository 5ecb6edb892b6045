"""What the tests of parsers share; not run by itself."""
import contextlib
import tempfile
from pathlib import Path


@contextlib.contextmanager
def refused(kind, words=""):
    """What is done within has to be refused so."""
    try:
        yield
    except kind as error:
        assert words in str(error), f"it is refused otherwise: {error}"
    else:
        raise AssertionError(f"it isn't refused as {kind.__name__} {words}")


@contextlib.contextmanager
def written(**files):
    """A folder with these files: `src_lib_rt` is src/lib.rt."""
    with tempfile.TemporaryDirectory() as workdir:
        for name, text in files.items():
            *folders, stem, ending = name.split("_")
            file = Path(workdir, *folders, f"{stem}.{ending}")
            file.parent.mkdir(parents=True, exist_ok=True)
            file.write_text(text, encoding="utf-8")
        yield Path(workdir)


def same(found, wanted):
    assert found == wanted, f"\n  found  {found!r}\n  wanted {wanted!r}"
