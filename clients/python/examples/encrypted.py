"""Values that clients and workers alone can read: a codec that encrypts what stands in histories.

    converter = Converter(Gzip(), Encrypted(key))        # key = Fernet.generate_key(), kept where your secrets are
    client, worker = Client(url, converter=converter), Worker(service, .., converter=converter)

It is Fernet of the package `cryptography`, which Debian has as python3-cryptography. The server, its log and its page
have the texts as they stand. Types, IDs, names of signals and messages of failures are no values: they stay readable.
"""

from cryptography.fernet import Fernet, MultiFernet


class Encrypted:
    """Encrypts by the first of some keys, and decrypts by any of them: put a new key first, and let the old ones stay
    for as long as a history has texts of theirs. InvalidToken where a text is of none of them, or was changed."""

    MARK = "fernet:"

    def __init__(self, *keys: bytes):
        self._fernet = MultiFernet([Fernet(key) for key in keys])

    def encode(self, text: str) -> str:
        """The text encrypted. It gets a third longer, and differs each time."""
        return self.MARK + self._fernet.encrypt(text.encode()).decode()

    def decode(self, text: str) -> str:
        """The text that was encrypted; any other one stays as it is, as one from before the codec was there."""
        return self._fernet.decrypt(text[len(self.MARK):]).decode() if text.startswith(self.MARK) else text
