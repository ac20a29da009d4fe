"""Pages of HTML, made of the templates in ``templates`` by Jinja2, which escapes all that it is given."""

import datetime
import functools
import importlib
import os
import time
from pathlib import Path
from typing import Any

_FOLDER = Path(__file__).resolve().parent / "templates"
# So many characters of a remark are shown.
_LONGEST = 400
# With more digits a time is none that a calendar has.
_DIGITS = 11
_LACKING = "Jinja2 isn't there, which makes the pages: apt-get install python3-jinja2, or pip install jinja2"


class Lacking(ImportError):
    """Jinja2 isn't installed."""

    def __init__(self, said: str = _LACKING) -> None:
        super().__init__(said)


def number(given: int) -> str:
    """A number with its thousands apart."""
    return format(given, ",")


def shortened(text: str) -> str:
    """The front of a long text."""
    return text if len(text) <= _LONGEST else text[:_LONGEST] + " .."


def capitalized(text: str) -> str:
    """A sentence with its first letter in upper case, and all others as they are."""
    return text[:1].upper() + text[1:]


def last_of_path(name: str) -> str:
    """A name without the folders that stand before it."""
    return name.rstrip("/").rpartition("/")[2] or name


@functools.lru_cache(maxsize=None)
def environment() -> Any:
    """The templates' environment, which compiles each once. Raises :class:`Lacking`."""
    try:
        jinja2: Any = importlib.import_module("jinja2")
    except ImportError:
        raise Lacking from None
    made = jinja2.Environment(
        loader=jinja2.FileSystemLoader(str(_FOLDER)), autoescape=True, undefined=jinja2.StrictUndefined, trim_blocks=True, lstrip_blocks=True
    )
    made.filters.update(number=number, shortened=shortened, capitalize_first=capitalized, last_of_path=last_of_path)
    return made


def page(template: str, **said: Any) -> bytes:
    """The page of a template that extends ``page.html``: all of it in UTF-8. Raises :class:`Lacking`."""
    text: str = environment().get_template(template).render(**said)
    return text.encode("utf-8", "replace")


def date() -> str:
    """The date of a page: now, or where ``SOURCE_DATE_EPOCH`` is set, then."""
    given = os.environ.get("SOURCE_DATE_EPOCH", "")
    seconds = int(given) if given.isdigit() and len(given) <= _DIGITS else time.time()
    return datetime.datetime.fromtimestamp(seconds, datetime.timezone.utc).strftime("%Y-%m-%d %H:%M:%S UTC")
