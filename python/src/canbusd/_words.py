"""The vocabulary of the program, which `scripts/words` writes here from words/."""

# words: python
#: The options that are numbers, by the names of their arguments: the least and the most of each, and of what.
NUMBERS: dict[str, tuple[str, int, int, str]] = {
    "txqueue": ("--txqueue", 1, 1024, "frames"),
    "rxqueue": ("--rxqueue", 1, 65536, "frames"),
    "limit": ("--limit", 1, 16777216, "entries"),
    "auto_restart": ("--auto-restart", 0, 1000000, "attempts"),
    "bitrate": ("--bitrate", 5000, 1000000, "bits a second"),
    "data_bitrate": ("--dbitrate", 5000, 20000000, "bits a second"),
    "pace_ms": ("--pace", 0, 60000, "milliseconds"),
    "write_bytes": ("--write", 256, 65536, "bytes"),
    "flush": ("--flush", 0, 60000, "milliseconds"),
}
#: interfaces of a bus
MOST_NAMES = 16
#: buses of a server
MOST_BUSES = 16
#: sessions at once
MOST_SESSIONS = 64
#: rules of a bus that are not used up
MOST_RULES = 64
#: bytes of a message of a session
LONGEST_MESSAGE = 1024
#: bytes of the input of a bench
MOST_INPUT = 16777216
#: The lengths of a data frame, as numbers and as a text.
DATA_LENGTHS = (0, 1, 2, 3, 4, 5, 6, 7, 8)
DATA_BYTES = "0 to 8"
#: The lengths of a remote frame, as numbers and as a text.
REMOTE_LENGTHS = (0, 1, 2, 3, 4, 5, 6, 7, 8)
REMOTE_BYTES = "0 to 8"
#: The lengths of an FD frame, as numbers and as a text.
FD_LENGTHS = (0, 1, 2, 3, 4, 5, 6, 7, 8, 12, 16, 20, 24, 32, 48, 64)
FD_BYTES = "0 to 8, 12, 16, 20, 24, 32, 48 or 64"
#: A flag of an FD frame.
BRS = 1
#: A flag of an FD frame.
ESI = 2
#: The verdicts of a script and of rules.
GOOD = "good"
LASTBIT = "lastbit"
GLOBAL_BIT = "global bit"
GLOBAL_FORM = "global form"
VERDICTS = (
    "good",
    "lastbit",
    "global bit",
    "global form",
    "local stuff NAMES",
    "local crc NAMES",
    "local form NAMES",
)
#: The outcome of an attempt that tried a frame, and its words in a report.
OUTCOMES = {
    "done": "done",
    "lastbit": "failed in the last bit",
    "destroyed": "destroyed",
    "noack": "not acknowledged",
}
# The texts of refusals.
EMPTY_MESSAGE = "empty message"
MESSAGE_TOO_LONG = "message too long"
UNKNOWN_COMMAND = "unknown command"
WRONG_STATE = "wrong state"
MODE_NOT_SUPPORTED = "mode not supported"
BAD_WORD_COUNT = "bad word count"
BAD_ID = "bad id"
BAD_LENGTH = "bad length"
BAD_BYTE = "bad byte"
BAD_NUMBER = "bad number"
INVALID_FILTER = "invalid filter"
TOO_MANY_FILTERS = "too many filters"
NO_SUCH_INTERFACE = "no such interface"
BAD_RULE = "bad rule"
TOO_MANY_RULES = "too many rules"
FD_FRAMES_OFF = "fd frames off"
NO_BUFFERS = "no buffers"
BUS_OFF = "bus off"
INTERFACE_DOWN = "interface down"
NOT_BUS_OFF = "not bus off"
RECORD_FULL = "record full"
TOO_MANY_SESSIONS = "too many sessions"
NO_MEMORY = "no memory"
#: The commands, those of the program first, and what each does.
PROGRAM = ("serve", "bench", "audit", "bits")
COMMANDS = {
    "serve": "serve buses to clients",
    "bench": "run a script of sessions and attempts, the same at each run",
    "audit": "check a record",
    "bits": "print the bits of a frame on the wire",
    "dump": "print frames as they come",
    "send": "send frames",
    "status": "print the state and the counts of interfaces",
    "watch": "show a running server in the browser",
    "fault": "give a running bus a rule of faults",
    "restart": "bring interfaces back from bus off",
    "down": "take interfaces off the bus",
    "up": "bring interfaces up",
    "restbus": "send the messages of the other nodes of a DBC file",
    "convert": "make an ASC, BLF, pcapng or candump log of another",
    "extcap": "show the interfaces of a server in Wireshark",
    "sweep": "run a command with a fault at each attempt",
    "report": "show the run of a record as a page, or as text",
    "replay": "replay a record, and list its events",
}
# end of words
