"""The sections of docs/ whose rules the scenes show."""

CALLSIGNS = "protocol.md#addresses-and-callsigns"
LINK_SETUP = "protocol.md#link-setup-data"
STREAM_PACKET = "protocol.md#the-stream-packet"
CRC = "protocol.md#the-crc"
CONTROL = "protocol.md#control-packets"
REFUSALS = "protocol.md#why-bytes-are-refused"

TIME = "directory.md#time"
PACKETS = "directory.md#what-becomes-of-a-packet"

HOLDER = "floor.md#who-has-the-floor"
VERDICT = "floor.md#the-verdict-on-a-packet"
LAWS = "floor.md#laws"

GIVES = "module.md#what-an-event-gives-in-this-order"
GETS = "module.md#what-a-member-gets"
NUMBERS = "module.md#the-numbers"
RECORDING = "module.md#what-happens-to-a-recording"

STRANGERS = "service.md#strangers"
ALLOWED = "rules.md#what-is-allowed"
