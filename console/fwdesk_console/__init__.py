"""The console of fwdesk: it watches a desk and remembers what it saw. It never gives an order."""
