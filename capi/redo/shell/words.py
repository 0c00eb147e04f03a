"""The lines that begin with a dot: what each does for a session."""
from __future__ import annotations

import time
from collections.abc import Callable
from typing import Optional, Union

from . import answers, forms, transfer
from .answers import Answer
from .session import Leave, Session, Watch, folder_for


def _help(s: Session, word: str = "") -> None:
    if word:
        _help_of(s, forms.FORMS[word])
        return
    wide = max(len(form.form) for form in forms.LINES)
    for form in forms.LINES + forms.WORDS:
        s.print(f"  {form.form.ljust(wide)}  {form.what}")
    for names, what in forms.FIELDS.items():
        s.print(f"  {names}: {what}")


def _help_of(s: Session, form: forms.Form) -> None:
    s.print(f"{form.form}\n  {form.what}")
    for names, what in forms.FIELDS.items():
        if used := [name for name in names.split() if name in form.fields]:
            s.print(f"  {', '.join(used)}: {what}")
    s.print(f"  for example: {form.example}")


def _open(s: Session, folder: str) -> Answer:
    s.open(folder)
    s.greet()
    return answers.OK


def _create(s: Session, folder: str, objects: int, cap: int, limit: int, pages: str = "") -> Answer:
    s.create(folder, objects, cap, limit, bool(pages))
    s.greet()
    return answers.OK


def _dump(s: Session) -> Answer:
    store = s.opened()
    return answers.objects(list(transfer.objects(s, store)), store.stat().accepted)


def _tree(s: Session, low: int, high: int) -> Answer:
    return answers.pairs(list(s.opened().tree(low, high).range()))


def _hash(s: Session, low: int, high: int) -> Answer:
    return answers.pairs(sorted(s.opened().hash(low, high).items()))


def _map(s: Session, low: int, high: int) -> Answer:
    return answers.pairs(list(s.opened().map(low, high).range()))


def _stat(s: Session) -> Answer:
    store = s.opened()
    stat, params = store.stat(), store.params()
    share = stat.used / params.limit
    bar = "#" * min(20, round(20 * share))
    rows = [
        ("folder", s.folder),
        ("objects", f"{params.objects} of at most {params.cap} bytes"),
        ("commands", f"{stat.accepted} accepted, {stat.forced} forced: a crash may lose {stat.accepted - stat.forced}"),
        ("log", f"{stat.used} of {params.limit} bytes [{bar.ljust(20, '.')}] {100 * share:.1f} %"),
        ("to install", f"{stat.nodes} nodes with {stat.uninstalled} records; {stat.dirty} objects to be flushed"),
        ("identities", f"{stat.identities} identity writes since it was opened"),
        ("group", "open" if s.group else "none is open"),
    ]
    return Answer("\n".join(f"{name.ljust(10)}  {text}" for name, text in rows),
                  ("folder", *params._fields, *stat._fields), [(s.folder, *params, *stat)], "state")


def _mode(s: Session, mode: str) -> None:
    s.mode = mode


def _import(s: Session, path: str, *into: int) -> Answer:
    return transfer.imported(s, path, into)


def _export(s: Session, path: str, *of: int) -> Answer:
    return transfer.exported(s, path, of)


def _backup(s: Session, folder: str) -> Answer:
    store = s.opened()
    with folder_for(folder):
        return answers.number("saved", store.backup(folder))


def _drain(s: Session) -> Answer:
    store = s.opened()
    before, begun = store.stat(), time.monotonic()
    store.drain()
    s.tell(f"{before.nodes} nodes with {before.uninstalled} records are installed, in {time.monotonic() - begun:.3f} s")
    return answers.OK


def _trim(s: Session) -> Answer:
    store = s.opened()
    before = store.stat()
    store.trim()
    after = store.stat()
    s.tell(f"the log had {before.used} bytes, and has {after.used} of {store.params().limit}")
    if after.uninstalled:
        s.tell(f"{after.uninstalled} records are not installed, and stay: .drain first makes it shorter")
    return answers.OK


def _watch(s: Session, target: Union[int, str], seconds: str = "0") -> None:
    if target == "off":
        s.watch = None
        return
    x = target if isinstance(target, int) else None
    seen = s.seen(x)
    s.watch = Watch(x, float(seconds), seen, time.monotonic())
    s.tell(f"watch {seen}")


def _timer(s: Session, setting: str) -> None:
    s.timer = setting == "on"


def _quit(s: Session, how: str = "") -> None:
    raise Leave(how != "noforce")


WORDS: dict[str, Callable[..., Optional[Answer]]] = {
    ".help": _help,
    ".open": _open,
    ".create": _create,
    ".dump": _dump,
    ".tree": _tree,
    ".hash": _hash,
    ".map": _map,
    ".stat": _stat,
    ".mode": _mode,
    ".import": _import,
    ".export": _export,
    ".backup": _backup,
    ".drain": _drain,
    ".trim": _trim,
    ".abort": Session.abort,
    ".watch": _watch,
    ".timer": _timer,
    ".quit": _quit,
}
