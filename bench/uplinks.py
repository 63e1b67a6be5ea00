"""Prints an input of `airbook run`: settings, and confirmed uplinks of devices that gateways hear.

Usage: uplinks.py UPLINKS DEVICES GATEWAYS [EACH]   (devices up to 1,024, gateways up to 64)

Uplink i is of device i modulo DEVICES, 400 ms after the one before, on one of three channels at DR5; two
neighbouring gateways hear it. After every EACH uplinks, 10 where it isn't given, time passes, so that gatherings are
closed. Every hundredth device has a payload queued once.
"""
from __future__ import annotations

import sys
from typing import Iterator

GAP_US = 400_000
CHANNELS_HZ = (868_100_000, 868_300_000, 868_500_000)


def settings_of(devices: int, gateways: int) -> Iterator[str]:
    """The settings: the gateways, and the devices with keys of their own."""
    yield from (f"[[gateway]]\nid = {gateway}" for gateway in range(1, gateways + 1))
    for device in range(devices):
        yield (
            f'[[device]]\naddr = "{0x26000000 + device:08x}"\n'
            f'nwkskey = "{device:032x}"\nappskey = "{device + 2**64:032x}"'
        )
    yield "---"


def heard(i: int, devices: int, gateways: int) -> Iterator[str]:
    """Uplink i as two neighbouring gateways hear it, or the only one."""
    moment = 1_000_000 + i * GAP_US
    word = f"@c:{0x26000000 + i % devices:08x}:{i // devices}"
    first = 1 + 7 * i % gateways
    for place, gateway in enumerate((first, 1 + first % gateways)[:gateways]):
        yield (
            f"hear {gateway} {moment} {CHANNELS_HZ[i % 3]} 5 {55 - 10 * place} -90 "
            f"{moment + 50_000 * (place + 1)} {word}"
        )


def main(uplinks: int, devices: int, gateways: int, each: int = 10) -> None:
    lines = list(settings_of(devices, gateways))
    lines += [f"queue {0x26000000 + device:08x} 9 00112233445566778899" for device in range(0, devices, 100)]
    for i in range(uplinks):
        lines += heard(i, devices, gateways)
        if i % each == each - 1:
            lines.append(f"pass {1_000_000 + (i + 1) * GAP_US}")
    lines.append(f"pass {1_000_000 + uplinks * GAP_US}")
    print("\n".join(lines))


if __name__ == "__main__":
    main(*map(int, sys.argv[1:5]))
