"""Sessions with a server or a bench: addresses, the protocol, and the base class of a python-can bus."""
