"""Runs of the command `http` by chance: what lines of random scripts ask, simple requests, and bytes that are refused or cut short."""

from raven_tools import model, session_file
from raven_tools.making import MAKERS, worked_http
from raven_tools.making.http_calls import Call, call_of
from raven_tools.making.http_sessions import FAMOUS, Session, SessionMaker
from raven_tools.places import DATA
from raven_tools.programs import Given

# Bytes that no request is, by the end that they come to.
ENDED = {end: [data for data, name in worked_http.REFUSED if name == end] for end in worked_http.ENDS}
ENDED |= {"Truncated": worked_http.CUT_SHORT, "of another protocol": FAMOUS}
PUMPS = [(), (), ("--pump", "0"), ("--pump", "1"), ("--pump", "2"), ("--pump", "65536")]
STATS = worked_http.STATS


class RoundMaker(SessionMaker):
    """Makes one run out of a seed."""

    def __init__(self, seed: int):
        super().__init__(seed)
        self.seed = seed

    def asked(self, lines: int) -> list[Call]:
        """What the lines of a random script ask, as far as they ask anything over HTTP."""
        script = MAKERS[self.seed % len(MAKERS)](self.seed).script(lines)
        return [call for call in map(call_of, model.lines(script)) if call]

    def of_script(self, lines: int) -> Session:
        """One request in two hundred closes the session, whatever stands behind it."""
        session = Session()
        for call in self.asked(lines):
            session.add(*self.spelled(call, "db", self.chance(0.5)))
        return session

    def ended(self) -> Session:
        """Some requests, and behind them bytes that are refused, cut short, or of another protocol."""
        session = self.good(self.one_of([0, 1, 2, 5]))
        end = self.one_of(self.one_of(list(ENDED.values())))
        return Session(session.data + end + self.one_of([b"", b"", b"\r\n\r\n", STATS]), is_good=False)

    def many(self) -> Session:
        """Some requests again and again: most likely more than a session answers."""
        return Session(self.good(5).data * self.one_of([199, 200, 201]))

    def round(self, name: str, lines: int) -> Given:
        if self.chance(1):
            session = self.many()
        elif self.chance(60):
            session = self.of_script(lines)
            session = self.spoiled(session) if self.chance(40) else session
        else:
            session = self.session() if self.chance(50) else self.ended()
        return Given(name, session.data, ("http", *self.one_of(PUMPS)))


def worked() -> list[Given]:
    """Each end, each route with what it refuses, and as many requests as a session answers, all as they were worked out by hand; and what
    real clients sent."""
    whole = [data for data, _ in worked_http.WHOLE]
    # The answer to a deletion shows the change vector that it expects.
    whole += [data.replace(b"PUT /d", b"DELETE /databases/db/docs?id=a", 1) for data, request in worked_http.WHOLE if request.expected is not None]
    refused = [data for data, _ in worked_http.REFUSED]
    asked = b"".join(worked_http.asked(*answer[:4]) for answer in worked_http.ANSWERS)
    closing = worked_http.asked("GET", "/stats", (b"Connection: close",))
    sessions = [STATS + data + more for data in whole + refused + worked_http.CUT_SHORT for more in (b"", STATS)]
    sessions += [worked_http.PUT_ADA[:cut] for cut in range(len(worked_http.PUT_ADA) + 1)]
    sessions += [STATS * count + more for count in (998, 999, 1_000) for more in (b"", closing, b"\n", b"\n \n")]
    runs = [Given(f"worked session {number}", data, ("http",)) for number, data in enumerate(sessions, 1)]
    runs += [Given(session.name, session.data, ("http",)) for session in session_file.read((DATA / "http-clients.txt").read_text())]
    paths = [*worked_http.NO_ROUTE, "/databases/other/stats", "/databases/DB/stats", "/databases/d%62/stats"]
    runs.append(Given("paths", b"".join(worked_http.head(line=f"GET {path} HTTP/1.1".encode()) for path in paths), ("http",)))
    return runs + [Given(f"what each route is asked, with batches of {pump}", asked, ("http", "--pump", pump)) for pump in ("0", "1", "1024")]
