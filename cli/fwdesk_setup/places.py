"""Where everything lies. `ROOT` is another folder than / in tests alone."""
import os
from pathlib import Path

ROOT = Path(os.environ.get("FWDESK_SETUP_ROOT", "/"))
# what the operator owns
ETC = ROOT / "etc/fwdesk"
OWN = ETC / "haproxy.d"
CHOICES = ETC / "setup.json"
# what the package owns, and the copies of it that were checked; CURRENT is a link to one of them
SHARE = ROOT / "usr/share/fwdesk"
COPIES = ROOT / "var/lib/fwdesk-proxy"
CURRENT = COPIES / "current"
HELD = ROOT / "var/lib/fwdesk-brake/held.map"
# the proxy's own
UNITS = ROOT / "etc/systemd/system"
HAPROXY_CFG = ROOT / "etc/haproxy/haproxy.cfg"
HAPROXY_DEFAULTS = ROOT / "etc/default/haproxy"
