"""Diagnostics of the protocol, from the objects of `candesk explain --json`."""

from __future__ import annotations

from typing import Any

from lsp_documents import Text

Object = dict[str, Any]

ERROR, WARNING, INFORMATION = 1, 2, 3
SEVERITIES = {"error": ERROR, "warning": WARNING, "information": INFORMATION}
# how many diagnostics an editor gets: it draws all of them, again after each edit
MAX_DIAGNOSTICS = 5_000
# the keyword for the kind of object that an entry's key names
TARGETS = {"node": "BU_", "message": "BO_", "signal": "SG_", "environment_variable": "EV_"}
# the entries whose key has the kind of their target before its ID
WITH_TARGET = ("CM_", "BA_")


def name_of(it: Object) -> str:
    """A name for display; if it isn't UTF-8, its bytes are read as Latin-1."""
    return str(it["name"]).replace("\r", " ").replace("\n", " ")


def target_of(it: Object) -> str:
    """The target of an entry, as it is written."""
    kind = ""
    if it["entry"] in WITH_TARGET:
        kind = "SG_" if "signal" in it else "BO_" if "number" in it else "BU_" if "node" in it else ""
    return " ".join([*([kind] if kind else []), *(str(it[part]) for part in ("number", "signal", "node") if part in it)])


def key_of(it: Object) -> str:
    """The key of an entry, as it is written."""
    parts = [it["entry"], TARGETS.get(it.get("object", ""), "")]
    if "name" in it:
        parts.append(name_of(it) if it["entry"] == "VAL_TABLE_" else f'"{name_of(it)}"')
    return " ".join(part for part in (*parts, target_of(it)) if part)


def subject_of(it: Object) -> str:
    """The subject of a diagnostic."""
    if "entry" in it:
        return key_of(it)
    subject = f"{it['number']} {it['message']}"
    if "signal" in it:
        subject += f".{it['signal']}"
    if "other" in it:
        subject += f" {it['message']}.{it['other']}"
    return " ".join([subject, *(str(it[part]) for part in ("node", "value") if part in it)])


def message_of(it: Object) -> str:
    if it["severity"] != "error":
        return f"{it['word']} {subject_of(it)}\n{it['remedy']}"
    start = "maybe an error, or a consequence of the first one: " if it.get("guess") else ""
    reason = f"\n{it['reason']}" if "reason" in it else ""
    return f"{start}found {it['found']}, expected {it['expected']}{reason}"


def related_to(it: Object, text: Text, uri: str) -> list[Object]:
    """The other ranges of a diagnostic."""
    others = it["at"][1:]
    about = f"{it['message']}.{it['other']}" if others else ""
    return [{"location": {"uri": uri, "range": text.range(at["from"], at["to"])}, "message": about} for at in others]


def diagnostic_of(it: Object, text: Text, uri: str, has_related: bool) -> Object:
    at = it["at"][0]
    made: Object = {
        "range": text.range(at["from"], at["to"]),
        "severity": INFORMATION if it.get("guess") else SEVERITIES[it["severity"]],
        "code": it["code"],
        "source": "candesk",
        "message": message_of(it),
    }
    if has_related and (related := related_to(it, text, uri)):
        made["relatedInformation"] = related
    return made


def diagnostics_of(objects: list[Object], text: Text, uri: str, has_related: bool) -> list[Object]:
    made = [diagnostic_of(it, text, uri, has_related) for it in objects[:MAX_DIAGNOSTICS]]
    if len(objects) > MAX_DIAGNOSTICS:
        note = f"only the first {MAX_DIAGNOSTICS:,} of {len(objects):,} problems are listed; see `candesk check`"
        made.append({"range": text.range(0, 0), "severity": INFORMATION, "source": "candesk", "message": note})
    return made
