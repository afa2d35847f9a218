"""Finds which devices are at the addresses of a site, what each has, and what has changed since an
earlier survey; `report` prints that."""

from __future__ import annotations

import json
from concurrent.futures import ThreadPoolExecutor
from functools import partial
from itertools import chain
from threading import Event
from typing import Any, Iterator, Mapping, NamedTuple, Sequence

from .controller import Controller
from .device import TEXTS, Bounds, Device, Names, SiteObject, device_of, shortened
from .points import Target, is_routed
from .session import MOST_OPEN, Scan, late_answers
from .standard import ObjectId
from .streams import octets_of, stamp, wrong
from .sweep import Sweep
from .tools import MOST_TIMEOUT, Search, Tools, deadline_of, side_by_side
from .values import TIMEOUT

# The properties of what is compared, if they have other names: a reason begins with that of one.
PROPERTY_OF = {"name": "object-name", "vendor": "vendor-name", "model": "model-name"}
PROPERTY_OF.update(unit="units", priority="priority-array")
LATE = 8  # times --apdu-timeout: how long the silent addresses of a range are awaited at the end
MOST_SCANS = 64  # at once


class Known(NamedTuple):
    """What an earlier survey has of a device, and what it asked for. It lacks what was not read."""

    instance: int
    texts: dict[str, str]
    revision: str
    objects: dict[ObjectId, dict[str, str]]  # facts of each, by their names in changes
    is_named: bool = False  # only address and instance
    is_held: bool = False  # only the objects without the value of their program
    is_whole: bool = True  # the survey has all objects that it asked for


class Earlier:
    """An earlier survey; an empty one if none is given."""

    def __init__(self, devices: Mapping[str, Known] | None = None, reuses: bool = False) -> None:
        self._devices = devices or {}  # by their addresses
        self._addresses = {it.instance: address for address, it in self._devices.items()}
        self._reuses = reuses
        self.is_given = bool(self._devices)  # whether there is an earlier survey

    def names_at(self, address: str) -> Names:
        """Returns the names that are not read again if the device has this revision still."""
        known = self._devices.get(address) if self._reuses else None
        if not known or not known.revision:
            return {}
        names = {object_id: it.get("name", "") for object_id, it in known.objects.items()}
        return {(known.instance, known.revision): {at: it for at, it in names.items() if it}}

    def stations_at(self, reaches: Sequence[str]) -> list[str]:
        """Returns the stations of the survey behind these routers, or in these networks."""
        fronts = tuple(it.rstrip("*") for it in reaches)
        return [it for it in self._devices if "/" in it and it.startswith(fronts)]

    def compare(self, device: Device, bounds: Bounds) -> None:
        """Notes what has changed at this address."""
        known = self._devices.get(device.address)
        if known and device.instance == known.instance:
            device.changes = list(_changes(device, known, bounds))
        elif known:
            device.gone = known.instance
            device.changes = [f"was device {known.instance} {known.texts.get('name', '')}".rstrip()]
        elif self._devices and device.instance is not None:
            before = self._addresses.get(device.instance)
            device.changes = [f"was at {before}" if before else "new"]


def _changes(device: Device, known: Known, bounds: Bounds) -> Iterator[str]:
    """Yields the changes of what both surveys have."""
    if device.is_named or known.is_named:
        return
    for name, before in known.texts.items():
        text = device.texts[name]
        if text != before and (text or device.is_whole):
            yield f"{name} was {before or 'none'}"
    if bounds.devices:
        return
    now = {it.object_id: it for it in device.objects}
    for object_id, facts in known.objects.items():
        told = f"{object_id} {facts.get('name', '')}".rstrip()
        if device.listed is not None and object_id not in device.listed:
            yield f"gone: {told}"
        elif bounds.held and known.is_held and object_id not in now and device.is_whole:
            yield f"has the value of its program: {told}"
    for object_id, it in now.items():
        told = f"{object_id} {it.name}".rstrip()
        if object_id in known.objects and not it.reasons:
            yield from _changed(it, known.objects[object_id], bounds, told)
        elif object_id in known.objects or not known.is_whole:
            continue
        elif not known.is_held:
            yield f"new: {told}"
        elif bounds.held:
            yield f"no longer has the value of its program: {told}"


def _changed(
    it: SiteObject, before: Mapping[str, str], bounds: Bounds, told: str
) -> Iterator[str]:
    now = {"name": it.name, "unit": it.unit}
    now.update({"priority": it.held} if bounds.held else {})
    now.update({"description": it.description, **it.settings} if bounds.details else {})
    for name, text in now.items():
        if text != before.get(name, text):
            yield f"{name} of {told} was {before[name] or 'none'}"


def earlier_of(path: str, reuses: bool = False) -> Earlier:
    """Reads the survey in a file, as --json prints it."""
    lines = octets_of(path).splitlines()
    try:
        return Earlier(dict(filter(None, map(_known_of, lines))), reuses)
    except (ValueError, KeyError, TypeError, AttributeError):
        raise wrong("no survey by --json: " + path) from None


def _known_of(line: bytes) -> tuple[str, Known] | None:
    """Reads a line of JSON; None for a silent device. Earlier versions lack `asked_for`."""
    told = json.loads(line)
    address, instance, asked_for = str(told["address"]), told["device"], told.get("asked_for", {})
    if instance is None:
        return None
    texts = {name: str(told[name]) for name in TEXTS if name in told or name == "name"}
    lacks = [str(it) for it in told.get("reasons", [])]
    is_cut = any(it.startswith("object-list: ") or it.endswith("not asked") for it in lacks)
    is_cut = is_cut or asked_for.get("not_normal", False)
    return address, Known(
        int(instance),
        _read(texts, lacks),
        str(told.get("revision", "")),
        {ObjectId(int(it["type"]), int(it["instance"])): _facts(it) for it in told["objects"]},
        is_named=bool(asked_for.get("name_only", False)),
        is_held=bool(asked_for.get("held", False)),
        is_whole=not (is_cut or asked_for.get("devices", not told["objects"])),
    )


def _facts(told: Mapping[str, Any]) -> dict[str, str]:
    """Returns the compared facts of an object, as far as the survey asked for them."""
    found = {"name": told["name"], "unit": told["unit"]}
    found.update({"priority": told["held"]} if "held" in told else {})
    found.update({"description": told["description"]} if "description" in told else {})
    found.update(told.get("settings", {}))
    return _read({str(name): str(it) for name, it in found.items()}, told.get("reasons", []))


def _read(facts: Mapping[str, str], reasons: Sequence[str]) -> dict[str, str]:
    """Returns the facts without those that are missing for a reason."""
    missing = {it.partition(": ")[0] for it in reasons}
    return {name: it for name, it in facts.items() if PROPERTY_OF.get(name, name) not in missing}


class _Turn:
    """The turn of one address: whether the device there was asked."""

    def __init__(self, target: Target, answered: int | None = None) -> None:
        self.target = target
        self.answered = answered  # the device that a Who-Is has found there
        self.is_over = Event()
        self.search: Search | None = None  # for other devices there, if one was needed
        self.silent: list[Device] = []  # devices that may still answer at the end
        self.is_scanned = Event()  # if the address is in a range
        self.silence = TIMEOUT if target.in_range else ""  # why it is not asked; or empty

    def scanned(self, silence: str) -> None:
        """Notes why an address of a range is not asked; an empty text if somebody is there."""
        self.silence = silence
        self.is_scanned.set()


class Survey:
    """A survey: its jobs, and what they have in common."""

    def __init__(self, tools: Tools, bounds: Bounds, earlier: Earlier) -> None:
        self.tools, self.bounds, self.earlier = tools, bounds, earlier
        self.scans: list[Scan] = []

    def devices(self, targets: Sequence[Target], in_order: bool = False) -> Iterator[Device]:
        """Yields the devices at these addresses as they are ready, or in order. A device with the
        instance of another is reported, and one that has moved is not gone."""
        groups = side_by_side(self.tools, self.jobs(targets), in_order)
        devices: Iterator[Device] = chain.from_iterable(groups)
        if in_order and any(it.in_range for it in targets):  # stations follow
            places = {target.address: at for at, target in enumerate(targets)}
            devices = iter(sorted(devices, key=lambda it: places.get(it.address, len(places))))
        seen: dict[int, str] = {}
        later: list[Device] = []
        for device in devices:
            if device.instance is not None:
                first = seen.setdefault(device.instance, device.address)
                if first != device.address:
                    device.reasons.append("same instance as " + first)
            if device.gone is None and not (in_order and self.earlier.is_given):
                yield device
            else:
                later.append(device)
        for device in later:
            if device.gone in seen:  # the line of the device's new address reports the move
                device.changes = ["new"] if device.instance is not None else []
            yield device

    def jobs(self, targets: Sequence[Target]) -> list[partial[list[Device]]]:
        """Returns the jobs: addresses of ranges are scanned first, and looked at again last."""
        turns = [_Turn(it) for it in targets if not it.is_network]
        last = [it for it in turns if it.target.in_range]
        size = max(MOST_OPEN, -(-len(last) // MOST_SCANS))
        jobs = [partial(self.scanned, last[at : at + size]) for at in range(0, len(last), size)]
        jobs += [partial(self.devices_at, it) for it in turns]
        if not self.bounds.stations:
            jobs += [partial(self.stations_behind, it) for it in turns if it.target.may_be_router]
        wanted = [it.reach for it in targets if it.is_network or self.bounds.stations]
        reaches = list(dict.fromkeys(filter(None, wanted)))
        quiet = [it.reach for it in targets if not it.is_network]
        jobs += [partial(self.stations_of, reaches, quiet)] if reaches else []
        return jobs + ([partial(self.looked_at_last, last)] if last else [])

    def scanned(self, turns: Sequence[_Turn]) -> list[Device]:
        """Finds the addresses of a range at which a device is."""
        by_address = {it.target.address: it for it in turns}
        scan = Scan(self.tools, list(by_address))
        self.scans.append(scan)
        try:
            scan.run(lambda address, silence: by_address[address].scanned(silence))
        finally:
            for turn in turns:
                turn.is_scanned.set()
        return []

    def devices_at(self, turn: _Turn) -> list[Device]:
        """Returns the device at an address, and a line for each other one looked for there."""
        devices: list[Device] = []
        try:
            if turn.target.in_range:
                turn.is_scanned.wait()
            until = deadline_of(self.bounds.deadline)
            with Controller(self.tools, turn.target.address, until) as controller:
                devices = self._devices(controller, turn)
        finally:
            turn.silent = [it for it in devices if turn.target.in_range and it.is_silent]
            turn.is_over.set()
        return [it for it in devices if it not in turn.silent]

    def stations_behind(self, turn: _Turn) -> list[Device]:
        """Returns the stations behind a router that answered a Who-Is, by address and instance. It
        was sent once the router's identity was known, and is awaited while the router is asked."""
        turn.is_over.wait()
        router, search = turn.target.address + "/", turn.search
        heard = search.heard(by_now=True) if search else []
        there = [it for it in heard if it[1].startswith(router)]
        devices = [Device(address, at, asked=stamp(), is_named=True) for at, address in there]
        answered = {it.address for it in devices}
        known = [it for it in self.earlier.stations_at([router]) if it not in answered]
        devices += map(self._named, known)
        for device in devices:
            self.earlier.compare(device, self.bounds)
        return devices

    def _named(self, address: str) -> Device:
        """Returns a station of an earlier survey, only by address and instance."""
        device = Device(address, asked=stamp(), is_named=True)
        with Controller(self.tools, address, deadline_of(self.bounds.deadline)) as controller:
            device.reasons += filter(None, [controller.identify()])
        device.instance = controller.instance
        return device

    def stations_of(self, reaches: Sequence[str], quiet: Sequence[str]) -> list[Device]:
        """Returns all stations that answer a Who-Is which their routers broadcast, and a line for
        each reach that is not whole; a reach in `quiet` may have none. All routers are asked at the
        same time: all answers come to one port."""
        sweep = Sweep(self.tools, reaches, self.bounds, quiet)
        sweep.run()
        stations = sweep.stations()
        turns = [_Turn(Target(it.address, (it.instance,)), it.instance) for it in stations]
        answered = {it.address for it in stations}
        known = [it for it in self.earlier.stations_at(reaches) if it not in answered]
        turns += [_Turn(Target(it, (None,))) for it in known]
        lines = [Device(it.word, reasons=sweep.reasons_of(it, stations)) for it in sweep.reaches]
        lines[0].reasons += sweep.faults
        by_router: dict[str, list[_Turn]] = {}
        for turn in turns:
            by_router.setdefault(turn.target.address.partition("/")[0], []).append(turn)

        def asked(group: Sequence[_Turn]) -> list[Device]:
            return [device for turn in group for device in self.devices_at(turn)]

        with ThreadPoolExecutor(self.tools.at_once) as pool:
            devices = [it for some in pool.map(asked, by_router.values()) for it in some]
        return devices + [it for it in lines if it.reasons]

    def looked_at_last(self, turns: Sequence[_Turn]) -> list[Device]:
        """Returns the silent addresses of ranges. They are asked once more after all others, and
        awaited as long as their time allows; datagrams to the first sockets count too."""
        for turn in turns:
            turn.is_over.wait()
        silent, timeout = [it for turn in turns for it in turn.silent], self.tools.timeout
        left = self.bounds.deadline * 1000 - (self.tools.retries + 2) * timeout
        patience = min(LATE * timeout, MOST_TIMEOUT, left)
        said = late_answers(self.tools, [it.address for it in silent], patience)
        for address in (it for scan in self.scans for it in scan.late(bool(silent))):
            said.setdefault(address, "a read is answered very late")
        for device in silent:
            device.hidden = device.hidden and device.address not in said
            device.reasons += filter(None, [said.get(device.address)])
        return silent

    def _devices(self, controller: Controller, turn: _Turn) -> list[Device]:
        devices: list[Device] = []
        asked = stamp()
        for wanted in turn.target.wanted:
            reason = _identified(controller, wanted, turn)
            if reason:
                found = [reason, *_others(controller, turn)]
                hidden = turn.silence == TIMEOUT and found == [TIMEOUT]
                devices.append(Device(controller.address, reasons=found, hidden=hidden))
            elif all(device.instance is None for device in devices):
                names = self.earlier.names_at(controller.address)
                devices.append(device_of(controller, self.bounds, names))
        for device in devices:
            device.asked = asked
            self.earlier.compare(device, self.bounds)
        return devices


def _identified(controller: Controller, wanted: int | None, turn: _Turn) -> str:
    """Returns why the controller must not be asked as this device. A silent device is asked once
    more if it answers a Who-Is: another client kept it busy, or the request was lost."""
    if turn.silence:
        controller.silent, reason = True, turn.silence
    else:
        reason = controller.identify(wanted)
    is_silent = controller.silent and not is_routed(controller.address)
    if turn.search or not (is_silent or turn.target.may_be_router):
        return reason
    turn.search = controller.search()
    if not is_silent or all(it != controller.address for _, it in turn.search.heard()):
        return reason
    controller.again()
    return controller.identify(wanted)


def _others(controller: Controller, turn: _Turn) -> list[str]:
    """Returns anomalies of the answers to a Who-Is, if the address does not answer a read."""
    if turn.answered is not None:
        return [f"device {turn.answered} answers a Who-Is, and no read"] * controller.silent
    odd = []
    for instance, address in turn.search.heard() if turn.search and controller.silent else []:
        if address == controller.address:
            odd.append(f"device {instance} answers a Who-Is, and no read")
        elif turn.target.in_range or not is_routed(address):
            odd.append(f"device {instance} answers a Who-Is from {address}")
    return shortened(odd)
