"""nginx around a configuration of deploy/nginx, with all of its files in a folder. Not run by itself."""
import os
from pathlib import Path

from harness.processes import found

KINDS = ("client_body", "proxy", "fastcgi", "uwsgi", "scgi")


def write_frame(
    folder: Path, part: Path, http: str = "access_log off;", level: str = "error"
) -> list[str]:
    """Writes nginx.conf, which includes the part, and gives the words that run it in the foreground; it logs to standard
    error. `http` are directives before the part."""
    own = "".join(f"{it}_temp_path {folder}/{it};" for it in KINDS)
    user = "user root;" if os.geteuid() == 0 else ""
    top = (
        f"{user} daemon off; worker_processes 1; pid {folder}/nginx.pid; error_log stderr {level};"
    )
    conf = folder / "nginx.conf"
    conf.write_text(f"{top} events {{}}\nhttp {{ {own} {http} include {part}; }}\n")
    return [str(found("nginx")), "-e", "stderr", "-p", str(folder), "-c", str(conf)]
