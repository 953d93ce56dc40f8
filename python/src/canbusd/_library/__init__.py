"""libcanbusd: loading the library, the structs of the library, and a bench that uses the library."""
