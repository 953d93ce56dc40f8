"""The messages and signals in database files, as read by cantools and canmatrix."""
