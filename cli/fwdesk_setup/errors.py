"""Why fwdesk-setup ends without having done what was ordered."""
from fwdesk_ctl.errors import NotDone

__all__ = ["NotDone", "Refused"]


class Refused(Exception):
    """It won't be done as the machine is; the words say what to do. Nothing was changed."""
