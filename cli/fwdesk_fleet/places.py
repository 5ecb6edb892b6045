"""Where everything is on a machine of many fleets. Tests set other places here."""
from pathlib import Path

FLEETS = Path("/etc/fwdesk/fleets")
PROXIES = Path("/etc/haproxy/fleets")
RECORDS = Path("/var/lib/private/fwdesk-fleets")
PROGRAMS = Path("/usr/local/lib/fwdesk")
WANTED = Path("/etc/systemd/system/multi-user.target.wants")
# a database without tables, in whose pages a new desk is made
EMPTY = Path("/usr/share/fwdesk/empty.db")
# the administration sockets of the HAProxy before all, and of the one that has the connections to the servers
EDGE, DESKS = "/run/haproxy/admin.sock", "/run/haproxy-desks/admin.sock"
# that of the process which starts the edge's others
EDGE_MASTER = "/run/haproxy-master.sock"
