"""Settings of gateways and devices for `airbook run`: random ones, with a fault or without, as TOML, and read from that."""
from __future__ import annotations

from random import Random

from lib.plain_server import COUNTERS, Table

# A table of the settings: its kind, and its keys.
Row = tuple[str, Table]
# Where devices listen in RX2.
RX2 = [(869_525_000, 0)] * 4 + [(868_100_000, 5), (869_850_000, 3), (869_525_000, 6)]
# Channels on which three frames of 12 bytes at data rate 0 fill the hour.
NARROW = [863_500_000, 868_850_000]
# What holds where a table doesn't say it.
UNSAID: Table = {
    "cap": 4_096, "gap": 0, "delay": 1, "offset": 0, "rx2_freq": 869_525_000, "rx2_dr": 0, "down": 0, "up": None,
}


def settings_of(chance: Random) -> tuple[list[Table], list[Table]]:
    """Gateways and devices."""
    ids = chance.sample([1, 2, 3, 9, 255, 256, 65_535, chance.randrange(1, 65_536)], chance.randrange(1, 7))
    gateways = []
    for one in dict.fromkeys(ids):
        cap, gap = chance.choice([4_096, 4_096, 4_096, 1, 2, 5, 65_536]), chance.choice([0, 0, 0, 1, 20_000, 100_000])
        gateways.append({"id": one, "cap": cap, "gap": gap})
    devices, second = [], RX2 if chance.random() < 0.8 else [(frequency, 0) for frequency in NARROW]
    for _ in range(chance.randrange(1, 7)):
        rx2_freq, rx2_dr = chance.choice(second)
        one = {"addr": chance.choice([chance.randrange(1 << 32), 0x26010000 + len(devices)])}
        one |= {"keys": (chance.randbytes(16), chance.randbytes(16)), "rx2_freq": rx2_freq, "rx2_dr": rx2_dr}
        one |= {"delay": chance.choice([1, 1, 1, 2, 5, 15]), "offset": chance.choice([0, 0, 1, 2, 5])}
        one |= {"up": chance.choice([None] * 4 + [0, 65_530, 0x1FFFF, chance.choice([COUNTERS - 3, COUNTERS - 1])])}
        one |= {"down": chance.choice([0] * 6 + [65_535, 7, COUNTERS - 2, COUNTERS])}
        devices.append(one)
    return gateways, list({one["addr"]: one for one in devices}.values())


def device_keys(one: Table) -> Table:
    """What a device's table says, as TOML writes it."""
    said = dict(one)
    nwk, app = said.pop("keys")
    return said | {"addr": f'"{one["addr"]:08x}"', "nwkskey": f'"{nwk.hex()}"', "appskey": f'"{app.hex().upper()}"'}


def partly_said(chance: Random, said: Table) -> Table:
    """The same, of which a key may be left out where it says what holds without it."""
    said = dict(said)
    for key, value in UNSAID.items():
        if key in said and said[key] == value and (value is None or chance.random() < 0.5):
            del said[key]
    return said


def rows_of(chance: Random, gateways: list[Table], devices: list[Table]) -> list[Row]:
    """The settings as tables, each a kind and its keys."""
    rows = [("gateway", one) for one in gateways] + [("device", device_keys(one)) for one in devices]
    return [(kind, partly_said(chance, said)) for kind, said in rows]


def spoiled(chance: Random, rows: list[Row]) -> str:
    """The settings with one fault, and its name."""
    gateway, device = (next(said for kind, said in rows if kind == one) for one in ("gateway", "device"))
    table, key, value, name = chance.choice([
        (gateway, "id", None, "Missing"), (device, "addr", None, "Missing"), (device, "appskey", None, "Missing"),
        (device, "nwkskey", None, "Missing"), (device, "addr", 26_011_000, "Kind"), (gateway, "id", '"1"', "Kind"),
        (gateway, "cap", 1 << 32, "Kind"), (gateway, "gap", -1, "Kind"), (device, "addr", '"2601"', "Kind"),
        (device, "rx2_dr", 7, "Kind"), (device, "up", COUNTERS, "Kind"), (device, "delay", 256, "Kind"),
        (gateway, "id", 0, "Range"), (gateway, "cap", 0, "Range"), (gateway, "gap", 100_001, "Range"),
        (device, "delay", 16, "Range"), (device, "offset", 6, "Range"), (device, "down", COUNTERS + 1, "Range"),
        (device, "rx2_freq", 865_000_000, "NoBand"), (gateway, "id", "twice", "DoubleGateway"),
        (device, "addr", "twice", "DoubleDevice"), (gateway, "id", "[", "NotToml"),
    ])
    if value == "twice":
        rows.append(("gateway" if table is gateway else "device", dict(table)))
    elif value is None:
        del table[key]
    else:
        table[key] = value
    return name


def table_text(rows: list[Row]) -> str:
    return "".join(f"[[{kind}]]\n" + "".join(f"{key} = {value}\n" for key, value in said.items()) for kind, said in rows)


def said_in(text: str) -> tuple[list[Table], list[Table]]:
    """The gateways and devices of such a text without a fault, in which a line may be empty."""
    tables: dict[str, list[Table]] = {"gateway": [], "device": []}
    for line in filter(None, text.splitlines()):
        key, _, value = line.partition(" = ")
        if not value:
            table: Table = dict(UNSAID)
            tables[line.strip("[]")].append(table)
        else:
            table[key] = value.strip('"') if value.startswith('"') else int(value)
    for one in tables["device"]:
        one["keys"] = bytes.fromhex(one["nwkskey"]), bytes.fromhex(one["appskey"])
        one["addr"] = int(one["addr"], 16)
    return tables["gateway"], tables["device"]
