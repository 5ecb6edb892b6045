"""What fwdesk-setup does, a module a subject: the certificate, operators, the proxy's parts, its units, and a look from outside."""
