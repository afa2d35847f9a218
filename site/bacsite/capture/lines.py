"""The entries of a capture in words, a line for each, or as objects of JSON; also reads of several
properties, and changes of values (COV)."""

from __future__ import annotations

from functools import lru_cache
from typing import NamedTuple, Sequence

from .. import standard
from ..messages import ABORT, COMPLEX, READ, SEGMENT, UNCONFIRMED, WRITE, Apdu, Message, outcome_of
from ..bodies import Body, Item, device_of, elements_of, error_body, items_of, parameters
from ..bodies import read_ack, read_body, write_body
from ..standard import MEANINGS, Form, ObjectId, PropertyRef, form_of, numbered
from ..streams import moment, times
from ..values import value_of
from .talks import GRACE, MILLI, Entry, Talk

SERVICES = numbered("Confirmed services")[0]
UNCONFIRMED_SERVICES = numbered("Unconfirmed services")[0]
CLASSES, CODES = numbered("Error classes")[0], numbered("Error codes")[0]
REASONS = {"reject": numbered("Reject reasons")[0], "abort": numbered("Abort reasons")[0]}
I_AM, WHO_IS = 0, 8
NOTIFY, SUBSCRIBE, READ_MULTIPLE = 1, 5, 14  # confirmed
UNCONFIRMED_NOTIFY = 2
OBJECT, LIST = 0, 1  # the tags of an object, and of the properties asked for or reported
MOST_LISTED = 16  # values of one request in a line


class Told(NamedTuple):
    """A property, and its value, or the class and code of its error."""

    ref: PropertyRef
    value: bytes | None = None
    error: tuple[int, int] | None = None


class Notice(NamedTuple):
    """A notification of changed values: the device, and the values."""

    device: int
    told: list[Told]


class Subscription(NamedTuple):
    """A request for notifications; without both it ends an earlier one."""

    process: int
    object_id: ObjectId
    confirmed: bool | None
    seconds: int | None


def _tagged(items: Sequence[Item] | None) -> Sequence[Item] | None:
    """Returns the items, if all of them have context tags."""
    return items if items is not None and all(it.context for it in items) else None


def _object(item: Item) -> ObjectId | None:
    return item.of_object if item.inner is None and len(item.octets) == 4 else None


def _each(octets: bytes, first: int, count: int) -> list[Told] | None:
    """Reads objects, each with the properties in the brackets after it."""
    items, every = _tagged(items_of(octets)) or [], []
    for head, body in zip(items[::2], items[1::2]):
        object_id = _object(head)
        is_list = (head.number, body.number) == (OBJECT, LIST)
        found = _properties(object_id, body, first, count) if object_id and is_list else None
        if found is None:
            return None
        every += found
    return None if len(items) % 2 else every or None


def _properties(object_id: ObjectId, body: Item, first: int, count: int) -> list[Told] | None:
    """Reads properties: the tag `first` has the property, those after it an index, a value and an
    error, up to `count`. In a notification a priority may stand for the error: it is skipped."""
    items = _tagged(body.inner)
    found: list[Told] = []
    if items is None:
        return None
    for it in items:
        at, is_open = it.number - first, it.inner is not None
        if at not in range(count) or (at and not found) or is_open != (at == 2 or first + at == 5):
            return None
        if at == 0:
            found.append(Told(object_id.ref(it.value)))
        elif at == 1 and found[-1].ref.element is not None:
            return None
        elif at == 1:
            found[-1] = found[-1]._replace(ref=found[-1].ref.at(it.value))
        elif at == 2:
            found[-1] = found[-1]._replace(value=it.octets)
        elif is_open:
            found[-1] = found[-1]._replace(error=error_body(it.octets))
    return found


def _all_told(told: list[Told] | None) -> list[Told] | None:
    return None if any(it.value is None and it.error is None for it in told or []) else told


def asked_for(octets: bytes) -> list[PropertyRef] | None:
    """Returns the properties that a ReadPropertyMultiple asks for."""
    found = _each(octets, first=0, count=2)
    return [it.ref for it in found] if found else None


def told_by(octets: bytes) -> list[Told] | None:
    """Returns the values in the acknowledgement of a ReadPropertyMultiple."""
    return _all_told(_each(octets, first=2, count=4))


def notice_of(octets: bytes) -> Notice | None:
    """Returns the contents of a notification of changed values."""
    items = _tagged(items_of(octets)) or []
    if [it.number for it in items] != [0, 1, 2, 3, 4]:
        return None
    device, object_id = _object(items[1]), _object(items[2])
    told = _all_told(_properties(object_id, items[4], 0, 4)) if object_id else None
    return Notice(device.instance, told) if device and told else None


def subscription_of(octets: bytes) -> Subscription | None:
    """Returns what a SubscribeCOV asks for."""
    items = _tagged(items_of(octets)) or []
    is_one = [it.number for it in items] in ([0, 1], [0, 1, 2], [0, 1, 2, 3])
    object_id = _object(items[1]) if is_one else None
    if object_id is None or any(it.inner is not None for it in items):
        return None
    confirmed, seconds = ([it.value for it in items[2:]] + [None, None])[:2]
    is_confirmed = None if confirmed is None else bool(confirmed)
    return Subscription(items[0].value, object_id, is_confirmed, seconds)


def millis(nanos: int) -> str:
    """Returns a time in milliseconds, to three digits or the whole ones."""
    size = nanos / MILLI
    digits = 2 if size < 9.995 else 1 if size < 99.95 else 0
    return f"{size:.{digits}f}"


def named(number: int, table: dict[int, str]) -> str:
    """Returns a number, and its name after it if it has one."""
    return f"{number} ({table[number]})" if number in table else str(number)


class Asked(NamedTuple):
    """A request in words, its body, and the value that it writes."""

    words: str
    body: Body | None = None
    value: str | None = None


def asked(apdu: Apdu) -> Asked:
    """Returns a request in words."""
    if apdu.is_cut:
        return Asked(f"service {named(apdu.service, SERVICES)}, cut by the capture")
    return _asked(apdu.service, apdu.body, apdu.part is None)


@lru_cache(4096)  # the same points are asked for again and again
def _asked(service: int, octets: bytes, is_whole: bool) -> Asked:
    told = "service " + named(service, SERVICES)
    if service not in (READ, WRITE) or not is_whole:
        return Asked(_other_words(service, octets) or told if is_whole else told)
    body = read_body(octets) if service == READ else write_body(octets)
    if not body:
        return Asked(told + ", which can't be read")
    words = f"{'read' if service == READ else 'write'} {point(body.ref)}"
    if body.value is None:
        return Asked(words, body)
    value = shown(body.value, body.ref)
    priority = "" if body.priority is None else f" at {body.priority}"
    return Asked(f"{words} = {value}{priority}", body, value)


def point(ref: PropertyRef) -> str:
    """Returns a property of an object, with its names and its numbers."""
    kind = standard.OBJECT_TYPES.get(ref.object_type, str(ref.object_type))
    number = standard.PROPERTIES.get(ref.number, str(ref.number))
    index = "" if ref.element is None else f"[{ref.element}]"
    return f"{kind} {ref.instance} {number}{index} ({ref.words()})"


@lru_cache(4096)
def shown(region: bytes, ref: PropertyRef) -> str:
    """Returns a property's value in readable form, of whatever type it is."""
    return value_of(region, Form(names=form_of(ref).names)).shown()


def _other_words(service: int, octets: bytes) -> str:
    """Returns a request of another service in words; an empty text if it is not known here."""
    subscription = subscription_of(octets) if service == SUBSCRIBE else None
    several = (asked_for(octets) if service == READ_MULTIPLE else None) or []
    if several:
        return "read several: " + _listed([point(it) for it in several])
    if not subscription:
        return _notice(octets) if service == NOTIFY else ""
    kind, instance = subscription.object_id
    where = f"{standard.OBJECT_TYPES.get(kind, str(kind))} {instance} ({kind} {instance})"
    if subscription.confirmed is None:
        return f"unsubscribe from {where}, process {subscription.process}"
    how = "confirmed" if subscription.confirmed else "unconfirmed"
    span = f"for {subscription.seconds} s" if subscription.seconds else "for ever"
    return f"subscribe to {where} {span}, {how}, process {subscription.process}"


def _listed(texts: Sequence[str]) -> str:
    """Returns the first of some texts, and the number of the others."""
    left = len(texts) - MOST_LISTED
    return ", ".join(texts[:MOST_LISTED]) + (f", and {left} more" if left > 0 else "")


def _notice(octets: bytes) -> str:
    notice = notice_of(octets)
    told = [f"{point(it.ref)} = {_told(it)}" for it in notice.told] if notice else []
    return f"change at device {notice.device}: {_listed(told)}" if notice else ""


def _told(told: Told) -> str:
    """Returns the value of a property, or why there is none."""
    if told.value is not None:
        return shown(told.value, told.ref)
    return _error(*told.error) if told.error else "bad-error"


def _error(group: int, code: int) -> str:
    known = CLASSES.get(group, str(group)), CODES.get(code, str(code))
    return f"error {group} {code} ({', '.join(known)})"


def ended(apdu: Apdu, body: Body | None) -> str:
    """Returns how an answer ends a request: a value in readable form, or numbers with names."""
    outcome = outcome_of(apdu)
    word, *numbers = outcome.split(" ")
    ack = read_ack(apdu.body) if word == "value" else None
    if ack and ack.value is not None:
        return shown(ack.value, body.ref if body else ack.ref)
    if (apdu.kind, apdu.service, apdu.is_cut) == (COMPLEX, READ_MULTIPLE, False):
        told = told_by(apdu.body) if apdu.part is None else None
        return _listed([_told(it) for it in told]) if told else outcome
    if word == "error":
        return _error(int(numbers[0]), int(numbers[1]))
    if word in REASONS:
        return f"{word} {named(int(numbers[0]), REASONS[word])}"
    return "answered, cut by the capture" if word == "cut" else outcome


def _end(talk: Talk, body: Body | None) -> str:
    """Returns how a talk ended."""
    if not talk.answers:
        return "no answer"
    first = talk.answers[0]
    if not first.whole:
        return "answered in parts, of which some are missing"
    told = ended(first.whole, body)
    return told if first.apdu.part is None else f"{told}, in {times(len(first.parts), 'part')}"


def remarks(talk: Talk, body: Body | None) -> list[str]:
    """Returns remarks on a talk."""
    said = []
    if talk.resends:
        span = talk.sends[-1] - talk.sends[0]
        copies = ", as copies" if span < GRACE else ""
        gap = millis(span // talk.resends)
        said.append(f"sent {talk.resends + 1} times, {gap} ms apart{copies}")
    if talk.late:
        said.append(f"LATE: {millis(talk.late)} ms after the last send")
    other = talk.other()
    if other:
        said.append("OTHER: the answer is of " + other.words())
    for answer in talk.answers[1:]:
        end = "" if answer.outcome == talk.outcome else ": " + ended(answer.apdu, body)
        after = millis(answer.nanos - talk.answers[0].nanos)
        said.append(f"SECOND answer {after} ms after the first{end}")
    if talk.again is not None:
        said.append(f"AGAIN, {millis(talk.nanos - talk.again)} ms after its answer")
    if talk.refused and not talk.answers:
        said.append(talk.refused)
    if talk.cut_off is not None:
        said.append(f"the capture ends {millis(talk.cut_off)} ms later")
    return said


def line_of(entry: Entry) -> str:
    """Returns the line of an entry."""
    if isinstance(entry, Message):
        mark = "!" if entry.is_fault else " "
        ends = f"{entry.sender} > {entry.receiver}"
        return f"{mark} {moment(entry.nanos // MILLI)}  {ends}  {message_words(entry)}"
    request = asked(entry.apdu)
    end = _end(entry, request.body)
    if entry.answers:
        end += f"  {millis(entry.took or 0)} ms"
    more = entry.resends or len(entry.answers) > 1 or entry.again is not None
    mark = "!" if entry.has_failed else "~" if more else " "  # ~: more than one answer needs
    head = f"{mark} {moment(entry.nanos // MILLI)}  {entry.client} > {entry.device}"
    said = "  ".join([end, *remarks(entry, request.body)])
    return f"{head}  #{entry.apdu.invoke} {request.words}: {said}"


def message_words(message: Message) -> str:
    """Returns the words of a message that is not part of a talk."""
    apdu = message.apdu
    if not apdu:
        return message.words
    if apdu.kind == UNCONFIRMED:
        readers = {I_AM: _i_am, WHO_IS: _who_is, UNCONFIRMED_NOTIFY: _notice}
        words = readers[apdu.service](apdu.body) if apdu.service in readers else ""
        return words or "unconfirmed service " + named(apdu.service, UNCONFIRMED_SERVICES)
    if apdu.is_answer:
        return f"#{apdu.invoke} an answer to nothing seen: {ended(apdu, None)}"
    kinds = {ABORT: f"abort {apdu.service} of the client", SEGMENT: "acknowledgement of a part"}
    return f"#{apdu.invoke} {kinds.get(apdu.kind, f'APDU of type {apdu.kind}')}"


def _i_am(octets: bytes) -> str:
    elements = elements_of(octets) or []
    kinds = [standard.OBJECT, standard.UNSIGNED, standard.ENUMERATED, standard.UNSIGNED]
    device = device_of(elements[0]) if [it.number for it in elements] == kinds else None
    if device is None:
        return ""
    most, number, vendor = (it.value for it in elements[1:])
    parts = MEANINGS["segmentation-supported"].get(number, str(number))
    told = f"APDUs of {most} octets, segmentation {parts}, vendor {vendor}"
    return f"I-Am device {device}, {told}"


def _who_is(octets: bytes) -> str:
    parts = list(parameters(octets))
    tags, limits = [tag for tag, _ in parts], [int.from_bytes(it, "big") for _, it in parts]
    if tags not in ([], [0, 1]) or any(not 1 <= len(it) <= 4 for _, it in parts):
        return ""
    low, high = limits or ("", "")
    told = f"Who-Is device {low}" if low == high else f"Who-Is devices {low} to {high}"
    return told if limits else "Who-Is"


def json_of(entry: Entry) -> dict[str, object]:
    """Returns an entry as an object of JSON."""
    if isinstance(entry, Message):
        ends = {"client": entry.sender, "device": entry.receiver, "what": message_words(entry)}
        return {"kind": "other", "time": moment(entry.nanos // MILLI), **ends}
    request, body = asked(entry.apdu), asked(entry.apdu).body
    return {
        "kind": "talk",
        "time": moment(entry.nanos // MILLI),
        "client": entry.client,
        "device": entry.device,
        "invoke_id": entry.apdu.invoke,
        "service": entry.apdu.service,
        "what": request.words,
        "object": body.ref.numbers() if body else None,
        "written": request.value,
        "priority": body.priority if body else None,
        "outcome": entry.outcome or "no answer",
        "shown": _end(entry, body),
        "failed": entry.has_failed,
        "ms": None if entry.took is None else entry.took / MILLI,
        "remarks": remarks(entry, body),
    }
