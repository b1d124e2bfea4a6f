"""The one exception of a request."""


class Refused(Exception):
    """A request that is refused and changes nothing, with the reply that says why. The steps of a tidying before it stand."""

    def __init__(self, name: str, **members: str | int):
        super().__init__(name)
        self.reply = {"Error": name, **members}
