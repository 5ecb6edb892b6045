"""The verbs of fwdesk-ctl, a file each. client.py asks the server for them, and errors.py has what it refuses."""
