"""Errors by the codes of WebDriver."""

# https://www.w3.org/TR/webdriver2/#errors; the last two are those of HTTP alone
STATUSES = {
    "element click intercepted": 400,
    "element not interactable": 400,
    "invalid argument": 400,
    "invalid element state": 400,
    "invalid selector": 400,
    "invalid session id": 404,
    "javascript error": 500,
    "move target out of bounds": 500,
    "no such element": 404,
    "no such window": 404,
    "no such alert": 404,
    "session not created": 500,
    "stale element reference": 404,
    "timeout": 500,
    "unable to capture screen": 500,
    "unknown command": 404,
    "unknown error": 500,
    "unknown method": 405,
    "unsupported operation": 500,
    "unauthorized": 401,
    "forbidden": 403,
}


class Problem(Exception):
    """A request that is answered by an error: its code, and a sentence."""

    def __init__(self, error: str, message: str, status: int = 0):
        super().__init__(message)
        self.error = error
        self.status = status or STATUSES[error]


def text_in(body: object, key: str, most: int = 1 << 20) -> str:
    """A text that a request has to have."""
    found = body.get(key) if isinstance(body, dict) else None
    if not isinstance(found, str):
        raise Problem("invalid argument", "'%s' has to be a text" % key)
    if len(found) > most:
        raise Problem("invalid argument", "'%s' has %d characters, and may have %d" % (key, len(found), most))
    return found


def number_in(body: object, key: str, least: int, most: int) -> int:
    """A whole number that a request has to have."""
    found = body.get(key) if isinstance(body, dict) else None
    if isinstance(found, float) and found.is_integer():
        found = int(found)
    if isinstance(found, bool) or not isinstance(found, int) or not least <= found <= most:
        raise Problem("invalid argument", "'%s' has to be a whole number from %d to %d" % (key, least, most))
    return found
