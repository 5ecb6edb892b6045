"""The fleets of a machine, for `fwdesk-fleet`: their files, their lines in the proxies, their units and their records."""
