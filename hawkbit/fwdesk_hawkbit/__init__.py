"""hawkBit's two interfaces before a fwdesk: the one of devices, and what pipelines use of the management."""
