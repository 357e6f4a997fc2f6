"""Compares the store of a site with its configuration and its recordings, and says what to do."""

from __future__ import annotations

import pathlib
from collections.abc import Sequence

from monitor_companion.check_findings import Findings
from monitor_companion.check_heads import Recording
from monitor_companion.refusals import Place
from monitor_companion.site import Gauge, Site, line_of
from monitor_companion.store_head import FILE_NAME, Store, StoreHead, read_store
from monitor_companion.wording import counted

STORE_STATUS = 3
NEW_STORE = f"begin a new store (rename {FILE_NAME}, then init and count)"


def load_store(
    folder: pathlib.Path, findings: Findings, *, with_bodies: bool = True
) -> Store | None:
    """Returns the store of a folder, or None where `init` would make one."""
    path = folder / FILE_NAME
    try:
        return read_store(path, with_bodies=with_bodies)
    except OSError as error:
        findings.fault(Place(str(path)), f"can't be read: {error.strerror}", 8, "station fault")
        return None


def note_fixed(store: Store, findings: Findings) -> None:
    """Notes what a change of classes or gains needs, where a warning asks for one."""
    if store.head is not None and any(finding.needs_store for finding in findings):
        text = "classes and gains are fixed in a store: to change them, "
        findings.note(Place(str(store.path)), text + NEW_STORE)


def order_of(store: StoreHead, site: Site, recordings: Sequence[Recording]) -> str:
    """Returns what to do where the recordings are the store's in another order, or nothing."""
    kept = [gauge.id for gauge in store.gauges]
    sound = {recording.id: recording for recording in recordings if recording.fault is None}
    ids = [recording.id for recording in recordings if recording.fault is None]
    if kept == ids or sorted(kept) != sorted(ids) or len(set(kept)) != len(kept):
        return ""
    gains = [(gauge.num, gauge.den, gauge.offset) for gauge in site.gauges]
    if gains == [(gauge.num, gauge.den, gauge.offset) for gauge in store.gauges]:
        files = ", ".join(sound[id_].gauge.file for id_ in kept)
        order = "put the gauges or their files in the order of the store again"
        return f"{order}, by their files: {files}"
    names = ", ".join(f'"{sound[id_].gauge.name}"' for id_ in kept)
    return f"put the gauges in the order of the store again: {names}"


def check_store(
    store: Store, site: Site, recordings: Sequence[Recording], findings: Findings
) -> None:
    """Tells in the order of the program what is wrong with the store, and what differs from it."""
    place = Place(str(store.path))
    if store.not_a_store:
        text = f"{store.not_a_store}; delete it where nothing was counted, or take its last copy"
        findings.fault(place, text, STORE_STATUS, "store: not a store")
        return
    if store.unknown_version is not None:
        text = (
            f"is of version {store.unknown_version}; allowed are 1 and 2; is it of a later monitor?"
        )
        findings.fault(place, text, STORE_STATUS, f"store: version {store.unknown_version}")
        return
    _check_gauge_count(store, site, recordings, findings)
    head = store.head
    if head is None:
        return
    _check_grid(head, site, findings)
    order = order_of(head, site, recordings)
    for gauge in site.gauges:
        if gauge.number < len(head.gauges):
            _check_gain(head, gauge, site, order, findings)
    if store.damage is not None:
        damage = store.damage
        text = f"body {damage.body} is damaged: {damage.why}"
        text += "; take the last copy of the store, and count on"
        findings.fault(place, text, STORE_STATUS, f"store: damaged at {damage.body}{damage.told}")


def _check_gauge_count(
    store: Store, site: Site, recordings: Sequence[Recording], findings: Findings
) -> None:
    if not site.gauge_tables or store.gauge_count == site.gauge_tables:
        return
    gauges = counted(site.gauge_tables, "gauge")
    text = f"{gauges}, but {FILE_NAME} was made for {store.gauge_count}"
    if store.head is not None:
        kept = {gauge.id for gauge in store.head.gauges}
        new = [each.gauge for each in recordings if each.fault is None and each.id not in kept]
        names = ", ".join(f'"{gauge.name}"' for gauge in new)
        if store.gauge_count < site.gauge_tables:
            text += f" (new: {names})" if names else ""
            text += f"; give new gauges a folder and a store of their own, or {NEW_STORE}"
        else:
            text += f"; put the missing [[gauge]] back in its place, or {NEW_STORE}"
    told = f"store: gauges was {store.gauge_count}, is {site.gauge_tables}"
    findings.fault(site.place(), text, STORE_STATUS, told)


def _check_grid(head: StoreHead, site: Site, findings: Findings) -> None:
    grid = site.grid
    if grid is None:
        return
    pairs = {
        "classes": (head.classes, grid.classes),
        "width": (head.width, grid.width),
        "low": (head.low, grid.low),
        "reference": (head.reference, grid.reference),
    }
    for key, (kept, now) in pairs.items():
        if kept != now:
            text = f"[grid]: {key} = {now}, but {FILE_NAME} was made with {kept}"
            text += f"; put {key} = {kept} back, or {NEW_STORE}"
            told = f"store: {key} was {kept}, is {now}"
            findings.fault(site.place(grid.lines.get(key)), text, STORE_STATUS, told)


def _check_gain(head: StoreHead, gauge: Gauge, site: Site, order: str, findings: Findings) -> None:
    stored = head.gauges[gauge.number]
    pairs = {
        "num": (stored.num, gauge.num),
        "den": (stored.den, gauge.den),
        "offset": (stored.offset, gauge.offset),
    }
    for key, (kept, now) in pairs.items():
        if kept == now:
            continue
        text = f"{gauge.title}: {key} = {now}, but {FILE_NAME} was made with {kept}"
        text += f" for its gauge {gauge.number}"
        if order:
            text += f"; {order}"
        else:
            text += f"; put {key} = {kept} back, or {NEW_STORE}"
        line = line_of(gauge.lines, key)
        told = f"store: {key} {gauge.number} was {kept}, is {now}"
        findings.fault(site.place(line), text, STORE_STATUS, told)
