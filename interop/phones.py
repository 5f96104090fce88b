"""The phones of the parts: a stranger, and those that have the keys of examples/keys.toml and examples/secure_key.toml."""

from controller import Phone

STRANGER = Phone("c0:00:00:00:00:0a", 1)
OWNER = Phone("c0:00:00:00:00:01", 1, "0101010101010101", 257, "00112233445566778899aabbccddeeff", 2)
TABLET = Phone("00:11:22:33:44:55", 0, "0202020202020202", 514, "ffeeddccbbaa99887766554433221100", 3)
# The same tablet by its key of 7 octets.
SMALL_KEY = Phone("00:11:22:33:44:55", 0, "0303030303030303", 771, "a1a2a3a4a5a6a7000000000000000000", 3)
SECURE = Phone("c0:00:00:00:00:02", 1, "0000000000000000", 0, "0f0e0d0c0b0a09080706050403020100", 4)
PHONES = {"stranger": STRANGER, "owner": OWNER, "tablet": TABLET, "small": SMALL_KEY, "secure": SECURE}
