"""How values become the texts of a history: by JSON, and then by codecs, as one that makes texts smaller.

    converter = Converter(Gzip())
    client, worker = Client(url, converter=converter), Worker(service, .., converter=converter)

A client and all workers of a queue have the same converter. What an earlier one wrote is read as long as its codecs
stay in the list. The server's page and `wf show` have no codecs: they show the texts as they stand.
"""

from __future__ import annotations

import base64
import binascii
import gzip
import zlib
from typing import Any, Callable, List, Protocol, Sequence, Tuple

from wfserve.blobs import Blobs

from . import values
from .typed import typed, typed_arguments


class Codec(Protocol):
    """Makes a text another one, and that one the first one again."""

    def encode(self, text: str) -> str:
        """The text as the history has it. It has to bear a mark by which `decode` knows it, as `gzip:`."""

    def decode(self, text: str) -> str:
        """The text that was encoded so; any other text stays as it is."""


class Gzip:
    """Makes texts smaller: those that get so, and no others. JSON never begins with its mark."""

    MARK = "gzip:"

    def __init__(self, least: int = 256):
        # Texts of less bytes are left as they are.
        self._least = least

    def encode(self, text: str) -> str:
        """The text compressed, where that makes it smaller, and else as it is."""
        data = text.encode()
        if len(data) < self._least:
            return text
        made = self.MARK + base64.b64encode(gzip.compress(data, mtime=0)).decode()
        return made if len(made) < len(data) else text

    def decode(self, text: str) -> str:
        """The text that was compressed. Any other one stays as it is."""
        if not text.startswith(self.MARK) or len(text) == len(self.MARK):
            return text
        try:
            return gzip.decompress(base64.b64decode(text[len(self.MARK):], validate=True)).decode()
        except (binascii.Error, OSError, EOFError, zlib.error, UnicodeDecodeError):
            return text


class Converter:
    """Values as texts: JSON, and then each codec in its order. Empty texts, which are no value, stay empty."""

    def __init__(self, *codecs: Codec):
        self._codecs = codecs

    def with_blobs(self, service: Any) -> Converter:
        """This one, with the blobs of a service that keeps some (`service.blobs`), unless it has some already.

        What is too long for a history goes there by itself: after all other codecs, so what is kept is encrypted too.
        """
        store = getattr(service, "blobs", None)
        if store is None or any(isinstance(codec, Blobs) for codec in self._codecs):
            return self
        return Converter(*self._codecs, Blobs(store))

    def encoded(self, text: str) -> str:
        """A text as the history has it."""
        for codec in self._codecs if text else ():
            text = codec.encode(text)
        return text

    def plain(self, text: str) -> str:
        """A text of a history without what codecs made of it. Two texts with one meaning are the same then."""
        for codec in reversed(self._codecs):
            text = codec.decode(text)
        return text

    def text_of(self, value: Any) -> str:
        """A value as a text."""
        return self.encoded(values.text_of(value))

    def value_of(self, text: str, hint: Any = Any) -> Any:
        """The value of a text, as a type hint says."""
        return typed(values.value_of(self.plain(text)), hint)

    def input_of(self, arguments: Sequence[Any]) -> str:
        """Arguments as an input."""
        return self.encoded(values.input_of(arguments))

    def arguments_of(self, text: str, function: Callable[..., Any], skipped: int = 0) -> List[Any]:
        """The arguments of an input, as the function's hints say; `skipped` are those that it is given before."""
        return typed_arguments(function, values.arguments_of(self.plain(text)), skipped)

    def input_with_signals(self, arguments: Sequence[Any], signals: Sequence[Tuple[str, Any]]) -> str:
        """The input of a run that goes on, with signals that the run before leaves it."""
        return self.encoded(values.input_with_signals(arguments, signals))

    def parts_of_input(self, text: str, function: Callable[..., Any]) -> Tuple[List[Any], List[Tuple[str, Any]]]:
        """The arguments of a run that goes on, and the signals that the run before left."""
        arguments, signals = values.parts_of_input(self.plain(text))
        return typed_arguments(function, arguments, 1), signals


JSON = Converter()
