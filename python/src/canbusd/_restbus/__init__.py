"""Rest buses: the messages that simulated nodes send, and when they are due, on a bench and on a server."""
