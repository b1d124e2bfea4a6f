"""The lines that each maker of scripts has."""

import random

from raven_tools import model
from raven_tools.making import lines
from raven_tools.making.chance import Chance


class Maker(Chance):
    """Makes lines by chance. A profile says which ids, bodies and vectors they have, and what comes how often."""

    def __init__(self, source: random.Random, database: model.Database):
        super().__init__(source)
        # By what is in it, lines find something.
        self.database = database

    def known_id(self) -> str:
        """Mostly the id of a row."""
        raise NotImplementedError

    def word_id(self) -> str:
        """An id without a space."""
        return self.known_id()

    def usual_body(self, name: str) -> str:
        """A document, mostly of the collection that this id belongs to."""
        raise NotImplementedError

    def vector(self, name: str) -> str:
        """A change vector, mostly one that the document has or had."""
        raise NotImplementedError

    def put(self) -> str:
        name = self.word_id()
        return lines.put(name, self.usual_body(name))

    def put_if(self) -> str:
        name = self.word_id()
        return lines.put_if(name, self.vector(name), self.usual_body(name))

    def delete(self) -> str:
        return lines.delete(self.known_id())

    def delete_if(self) -> str:
        name = self.known_id()
        return lines.delete_if(self.vector(name), name)

    def get(self) -> str:
        return lines.get(self.known_id())
