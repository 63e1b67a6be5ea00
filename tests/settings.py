#!/usr/bin/env python3
"""Runs `airbook check` and `airbook run` on settings of the kind that hurt, and compares what they say.

Usage: tests/settings.py [PROGRAM]       (the program that the gate leaves)

Each row has settings, the findings that are wanted of them, written by hand, and the name of the fault for which a run refuses
them, if it does. Wanted are: just these lines, with the counts behind them; the status 2 where the run refuses, else 1 where there
is a finding, else 0; an empty standard error; of the run the same verdict with just this name; and the name in one of the errors.
Then come large settings, for their time: 100,000 unknown keys, as many unknown tables, a value as deep as the parser takes it, and
10 MB in one key. A failing row has a line, and under it what differs. The last line is 'N passed, M failed'. The status is 0 where
none failed, 1 where one did, 2 where there is no program.
"""
from __future__ import annotations

import difflib
import functools
import pathlib
import subprocess
import sys
from typing import Optional, Union

sys.dont_write_bytecode = True
from lib.places import PROGRAM
from lib.trials import tell

# A name, the settings, the lines of the findings, and the name of the fault for which a run refuses them, if it does.
Row = tuple[str, bytes, list[str], Optional[str]]
SECONDS = 60

GATEWAY = "[[gateway]]\nid = 1\ngap = 45000\n"
KEYS = 'nwkskey = "2b7e151628aed2a6abf7158809cf4f3c"\nappskey = "000102030405060708090a0b0c0d0e0f"\n'
DEVICE = '[[device]]\naddr = "26011bda"\n' + KEYS
BOTH = GATEWAY + DEVICE
# The first line behind BOTH.
NEXT = 8

ROWS: list[Row] = []


def row(name: str, settings: Union[str, bytes], *findings: str, refused: Optional[str] = None) -> None:
    """One row: its settings, the lines of its findings, and the name that a run prints."""
    ROWS.append((name, settings if isinstance(settings, bytes) else settings.encode(), list(findings), refused))


def device(name: str, line: str, *findings: str, refused: Optional[str] = None) -> None:
    """A row of a device with one more line, where a finding begins with its severity and the place is that line's."""
    placed = []
    for finding in findings:
        severity, words = finding.split(" | ")
        placed.append(f"{severity} {NEXT}:1 device 1 (26011bda) {words}")
    row(name, BOTH + line + "\n", *placed, refused=refused)


PASSED_OVER = "unknown key, which is passed over"
LOW = "us, below the 45000 us that packet forwarders need"
TWICE = "0 beside up, so counters come twice if downlinks were sent before"

# Nothing is found.
row("as they should be", BOTH)
row("a gateway alone", GATEWAY)
row("Windows line ends", BOTH.replace("\n", "\r\n"))
row("a byte order mark", "\ufeff" + BOTH)
row("tabs", BOTH.replace(" = ", "\t=\t"))
row("devices before gateways", DEVICE + GATEWAY)
row("inline tables", 'gateway = [{id = 1, gap = 45000}, {id = 2, gap = 45000}]\n' + DEVICE)
row("inline tables over lines", 'gateway = [\n  {id = 1, gap = 45000}, # one\n  {id = 2, gap = 50000},\n]\n' + DEVICE)
row("quoted keys", '[["gateway"]]\n"id" = 1\n\'gap\' = 45000\n')
row("every key", BOTH + "delay = 15\noffset = 5\nrx2_freq = 868525000\nrx2_dr = 3\nup = 7\ndown = 3\n")
row("keys for packet forwarders", BOTH.replace("gap = 45000\n", 'gap = 45000\neui = "aa555a0000000001"\nfrom = 5\npower = 99\nlead = "long"\n', 1))
row("digits of either case", GATEWAY + DEVICE.replace("26011bda", "26011BDA"))
row("events behind the line", BOTH + "---\nhear 1\nthis is = no TOML = at all\n")
row("the line with a carriage return", BOTH + "---\r\nhear 1\n")
row("an empty list of devices", "device = []\n" + GATEWAY)
row("spent counters", BOTH + "up = 4294967295\ndown = 4294967296\n")
row("the greatest of each", "[[gateway]]\nid = 65535\ncap = 65536\ngap = 100000\n")
row("numbers in other bases", "[[gateway]]\nid = 0x10\ncap = 0o17\ngap = 45_000\n")

# Keys one letter off.
for wrong, near in [
    ("dealy", "delay"), ("delays", "delay"), ("dely", "delay"), ("Delay", "delay"), ("ofset", "offset"), ("offst", "offset"),
    ("rx2freq", "rx2_freq"), ("rx2_frq", "rx2_freq"), ("rx2_frequency", "rx2_freq"), ("rx2dr", "rx2_dr"), ("rx2_rd", "rx2_dr"),
    ("u", "up"), ("Down", "down"), ("dwon", "down"), ("downn", "down"),
]:
    device(f"key {wrong}", f"{wrong} = 5", f"warning | {wrong}: unknown key, did you mean {near}?")
row("key gpa", "[[gateway]]\nid = 1\ngpa = 7\n", f"warning 1:1 gateway 1 (1) gap: 0 {LOW}",
    "warning 3:1 gateway 1 (1) gpa: unknown key, did you mean gap?")
row("key caps", GATEWAY + "caps = 7\n", "warning 4:1 gateway 1 (1) caps: unknown key, did you mean cap?")
row("key i", "[[gateway]]\ni = 1\ngap = 45000\n", "error Missing 1:1 gateway 1 id: missing, allowed: a whole number 1 to 65535",
    "warning 2:1 gateway 1 i: unknown key, did you mean id?", refused="Missing")
for place, (wrong, near) in enumerate([("adr", "addr"), ("nwkkey", "nwkskey"), ("app_skey", "appskey")], 5):
    lines = BOTH.splitlines()
    lines[place - 1] = lines[place - 1].replace(near, wrong)
    digits = 8 if near == "addr" else 32
    named = "device 1" if near == "addr" else "device 1 (26011bda)"
    row(f"key {wrong}", "\n".join(lines),
        f"error Missing 4:1 {named} {near}: missing, allowed: a text of {digits} hexadecimal digits",
        f"warning {place}:1 {named} {wrong}: unknown key, did you mean {near}?", refused="Missing")
device("a key like none", "colour = 5", f"warning | colour: {PASSED_OVER}")
device("a key of a gateway", "gap = 45000", "warning | gap: unknown key here, it belongs below [[gateway]]")
device("a key for packet forwarders", "eui = 5", "warning | eui: unknown key here, it belongs below [[gateway]]")
row("key powr", GATEWAY + "powr = 7\n", "warning 4:1 gateway 1 (1) powr: unknown key, did you mean power?")
device("a long key", "a" * 50 + " = 1", f"warning | {'a' * 40}..: {PASSED_OVER}")
device("a key with a line feed in it", '"a\\nb" = 1', f"warning | a?b: {PASSED_OVER}")
device("a key with parts", "delay.a = 1", "error Kind | delay: a table, allowed: a whole number 1 to 15",
       refused="Kind")
device("an unknown key with parts", "radio.delay = 1", f"warning | radio: {PASSED_OVER}")
row("a table below a device", BOTH + "[device.radio]\ndelay = 77\n", f"warning 8:1 device 1 (26011bda) radio: {PASSED_OVER}")
row("a key above all tables", "delay = 5\n" + BOTH, "warning 1:1 delay: unknown key here, it belongs below [[device]]")
row("an unknown key above all tables", "title = 'mine'\n" + BOTH, f"warning 1:1 title: {PASSED_OVER}")
row("two unknown keys", BOTH + "dealy = 5\nofset = 1\n", "warning 8:1 device 1 (26011bda) dealy: unknown key, did you mean delay?",
    "warning 9:1 device 1 (26011bda) ofset: unknown key, did you mean offset?")
row("an unknown key behind a text of lines", BOTH + 'note = """\ndelay = 77\n[[devices]]\n"""\nofset = 1\n',
    f"warning 8:1 device 1 (26011bda) note: {PASSED_OVER}", "warning 12:1 device 1 (26011bda) ofset: unknown key, did you mean offset?")
row("an unknown key in an inline table", "gateway = [{id = 1, gap = 45000, caps = 3}]\n",
    "warning 1:34 gateway 1 (1) caps: unknown key, did you mean cap?")
row("a column counts characters", "gateway = [{id = 1, gap = 45000, 'é' = 3, caps = 3}]\n",
    f"warning 1:34 gateway 1 (1) é: {PASSED_OVER}", "warning 1:43 gateway 1 (1) caps: unknown key, did you mean cap?")

# Tables.
row("tables devices", GATEWAY + DEVICE.replace("device", "devices"), "warning 4:1 devices: unknown table, did you mean [[device]]?")
row("tables gateways", DEVICE + GATEWAY.replace("gateway", "gateways"),
    "error Count 1:1 gateway: at least 1 has to be there", "warning 5:1 gateways: unknown table, did you mean [[gateway]]?",
    refused="Count")
row("a table device", GATEWAY + DEVICE.replace("[[device]]", "[device]"),
    "error Kind 4:1 device: no array of tables, which begin by [[device]]", refused="Kind")
row("a table gateway", DEVICE + GATEWAY.replace("[[gateway]]", "[gateway]"),
    "error Kind 5:1 gateway: no array of tables, which begin by [[gateway]]", refused="Kind")
row("a table below a device that isn't there", GATEWAY + "[device.radio]\ndelay = 1\n",
    "error Kind 4:1 device: no array of tables, which begin by [[device]]", refused="Kind")
row("an unknown table", BOTH + "[server]\nport = 1700\n", "warning 8:1 server: unknown table, which is passed over")
row("unknown tables below one another", BOTH + "[a.b]\nc.d = {e = [1, {f = 2}]}\n", "warning 8:1 a: unknown table, which is passed over")
row("a gateway that is a number", "gateway = 5\n", "error Kind 1:1 gateway: no array of tables, which begin by [[gateway]]",
    refused="Kind")
row("gateways that are numbers", "gateway = [5, 6]\n", "error Kind 1:12 gateway 1: 5, allowed: a table",
    "error Kind 1:15 gateway 2: 6, allowed: a table", refused="Kind")
row("gateways that are arrays", "gateway = [[{id = 1}]]\n", "error Kind 1:12 gateway 1: an array, allowed: a table", refused="Kind")
row("no gateway", DEVICE, "error Count 1:1 gateway: at least 1 has to be there", refused="Count")
row("nothing", "", "error Count 1:1 gateway: at least 1 has to be there", refused="Count")
row("an empty list of gateways", "gateway = []\n", "error Count 1:1 gateway: at least 1 has to be there", refused="Count")
row("65 gateways", "".join(f"[[gateway]]\nid = {n}\ngap = 45000\n" for n in range(1, 66)),
    "error Count 193:1 gateway: at most 64 may be there", refused="Count")
row("1,025 devices", GATEWAY + "".join(f'[[device]]\naddr = "{n:08x}"\n{KEYS}' for n in range(1025)),
    "error Count 4100:1 device: at most 1024 may be there", refused="Count")
row("a table that lacks all", GATEWAY + "[[device]]\n",
    "error Missing 4:1 device 1 addr: missing, allowed: a text of 8 hexadecimal digits",
    "error Missing 4:1 device 1 nwkskey: missing, allowed: a text of 32 hexadecimal digits",
    "error Missing 4:1 device 1 appskey: missing, allowed: a text of 32 hexadecimal digits", refused="Missing")

# Values one beyond their range, and of another kind.
WHOLE = ", allowed: a whole number"
value: Union[int, str]
for name, value, low, high, fault in [
    ("delay", 0, 1, 15, "Range"), ("delay", 16, 1, 15, "Range"), ("delay", 255, 1, 15, "Range"), ("delay", 256, 1, 15, "Kind"),
    ("delay", -1, 1, 15, "Kind"), ("offset", 6, 0, 5, "Range"), ("offset", -1, 0, 5, "Kind"), ("rx2_dr", 7, 0, 6, "Kind"),
    ("rx2_freq", 4294967296, 0, 4294967295, "Kind"), ("up", 4294967296, 0, 4294967295, "Kind"), ("up", -1, 0, 4294967295, "Kind"),
    ("down", 4294967297, 0, 4294967296, "Range"), ("down", -1, 0, 4294967296, "Kind"),
]:
    device(f"{name} {value}", f"{name} = {value}", f"error {fault} | {name}: {value}{WHOLE} {low} to {high}", refused=fault)
for name, value, low, high, fault in [
    ("cap", 0, 1, 65536, "Range"), ("cap", 65537, 1, 65536, "Range"), ("cap", 4294967296, 1, 65536, "Kind"),
    ("gap", 100001, 0, 100000, "Range"), ("gap", -5, 0, 100000, "Kind"),
]:
    text = f"[[gateway]]\nid = 1\n{name} = {value}\n" + ("gap = 45000\n" if name == "cap" else "")
    row(f"{name} {value}", text, f"error {fault} 3:1 gateway 1 (1) {name}: {value}{WHOLE} {low} to {high}", refused=fault)
for value, fault in [(0, "Range"), (65536, "Kind"), (-1, "Kind")]:
    row(f"id {value}", f"[[gateway]]\nid = {value}\ngap = 45000\n",
        f"error {fault} 2:1 gateway 1 ({value}) id: {value}{WHOLE} 1 to 65535", refused=fault)
for value, shown in [('"5"', 'the text "5"'), ("5.0", "a number with a point"), ("true", "true"), ("false", "false"),
                     ("[5]", "an array"), ("{a = 5}", "a table"), ("2026-11-30", "a date or a time"), ('"""5\n"""', 'the text "5?"')]:
    device(f"delay {value}", f"delay = {value}", f"error Kind | delay: {shown}{WHOLE} 1 to 15", refused="Kind")
DIGITS = ", allowed: a text of"
for value, shown in [('"2601bda"', 'the text "2601bda"'), ('"26011bda0"', 'the text "26011bda0"'), ('"26011bdg"', 'the text "26011bdg"'),
                     ('"0x26011b"', 'the text "0x26011b"')]:
    inner = value.strip('"')
    row(f"addr {value}", BOTH.replace('"26011bda"', value), f"error Kind 5:1 device 1 ({inner}) addr: {shown}{DIGITS} 8 hexadecimal digits",
        refused="Kind")
row("addr 26011", BOTH.replace('"26011bda"', "26011"), f"error Kind 5:1 device 1 addr: 26011{DIGITS} 8 hexadecimal digits", refused="Kind")
row("31 digits of a key", BOTH.replace("4f3c", "4f3"),
    f"error Kind 6:1 device 1 (26011bda) nwkskey: a text of 31 characters{DIGITS} 32 hexadecimal digits", refused="Kind")
row("a key that is a number", BOTH.replace('"2b7e151628aed2a6abf7158809cf4f3c"', "0x2b7e15"),
    f"error Kind 6:1 device 1 (26011bda) nwkskey: a whole number{DIGITS} 32 hexadecimal digits", refused="Kind")
row("33 digits of a key", BOTH.replace("0e0f", "0e0f0"),
    f"error Kind 7:1 device 1 (26011bda) appskey: a text of 33 characters{DIGITS} 32 hexadecimal digits", refused="Kind")
row("a letter in a key", BOTH.replace("2b7e15", "2b7o15"),
    f"error Kind 6:1 device 1 (26011bda) nwkskey: a text whose character 4 is no hexadecimal digit{DIGITS} 32 hexadecimal digits",
    refused="Kind")
row("blanks in a key", BOTH.replace("2b7e15", "2b 7e 15"),
    f"error Kind 6:1 device 1 (26011bda) nwkskey: a text of 34 characters{DIGITS} 32 hexadecimal digits", refused="Kind")

# Values beside others.
for freq, rate in [(868650000, 0), (869401000, 6), (0, 0), (4294967295, 5)]:
    row(f"RX2 at {freq} and DR{rate}", BOTH + f"rx2_dr = {rate}\nrx2_freq = {freq}\n",
        f"error NoBand 9:1 device 1 (26011bda) rx2_freq: {freq} Hz at DR{rate} lies in no sub-band of EU868", refused="NoBand")
row("two gateways of one id", GATEWAY + DEVICE + GATEWAY, "error DoubleGateway 9:1 gateway 2 (1) id: the same as that of gateway 1 at line 2",
    refused="DoubleGateway")
row("two devices of one address", BOTH + DEVICE.replace("1bda", "1BDA"),
    "error DoubleDevice 9:1 device 2 (26011BDA) addr: the same as that of device 1 at line 5", refused="DoubleDevice")
row("three devices of one address", GATEWAY + 3 * DEVICE,
    "error DoubleDevice 9:1 device 2 (26011bda) addr: the same as that of device 1 at line 5",
    "error DoubleDevice 13:1 device 3 (26011bda) addr: the same as that of device 1 at line 5", refused="DoubleDevice")
row("gap 0", GATEWAY.replace("45000", "0"), f"warning 3:1 gateway 1 (1) gap: 0 {LOW}")
row("gap 44999", GATEWAY.replace("45000", "44999"), f"warning 3:1 gateway 1 (1) gap: 44999 {LOW}")
row("no gap", "[[gateway]]\nid = 1\n", f"warning 1:1 gateway 1 (1) gap: 0 {LOW}")
row("up without down", BOTH + "up = 7\n", f"warning 8:1 device 1 (26011bda) down: {TWICE}")
row("up with down 0", BOTH + "down = 0\nup = 7\n", f"warning 8:1 device 1 (26011bda) down: {TWICE}")
row("a fault and a warning", BOTH + "dealy = 5\ndelay = 16\n", "warning 8:1 device 1 (26011bda) dealy: unknown key, did you mean delay?",
    f"error Range 9:1 device 1 (26011bda) delay: 16{WHOLE} 1 to 15", refused="Range")
row("faults of each kind", "[[gateway]]\nid = 0\ngap = 45000\n[[gateway]]\ngap = 45000\n[[device]]\naddr = 5\n" + KEYS + "delay = 99\n",
    f"error Range 2:1 gateway 1 (0) id: 0{WHOLE} 1 to 65535",
    "error Missing 4:1 gateway 2 id: missing, allowed: a whole number 1 to 65535",
    f"error Kind 7:1 device 1 addr: 5{DIGITS} 8 hexadecimal digits",
    f"error Range 10:1 device 1 delay: 99{WHOLE} 1 to 15", refused="Missing")

# What is no TOML. The words and places are the parser's, as docs/FORMATS.md says.


def no_toml(name: str, settings: Union[str, bytes], place: str, words: str) -> None:
    row(name, settings, f"error NotToml {place} {words}", refused="NotToml")


EQUALS = "key with no value, expected `=`"
BEFORE = "; before the lines of a run a line --- has to stand"
no_toml("YAML", "gateway:\n  - id: 1\n", "1:8", EQUALS)
no_toml("JSON", '{"gateway": [{"id": 1}]}\n', "1:1", "invalid key, expected letters, numbers, `-`, `_` or a quoted key")
no_toml("no line ---", BOTH + "hear 1 5000000 868100000 5 55 -90 1000 @c:26011bda:7\n", "8:6", EQUALS + BEFORE)
no_toml("no line --- before a pass", BOTH + "pass 5\n", "8:6", EQUALS + BEFORE)
no_toml("a line ---- of four", BOTH + "----\npass 5\n", "8:5", EQUALS)
no_toml("a key twice", BOTH + "delay = 1\ndelay = 2\n", "9:1", "duplicate key")
no_toml("a table closed by one bracket", BOTH + "[[device]\n", "8:10", "unclosed array table, expected `]]`")
no_toml("a text that isn't closed", BOTH + 'note = "abc\n', "8:12", "invalid string")
no_toml("two values in a line", BOTH + "delay = 1 offset = 2\n", "8:11", "unexpected key or value, expected newline, `#`")
no_toml("no value", BOTH + "delay =\n", "8:8",
        "invalid value, expected a string, number, boolean, date-time, array or inline table")
no_toml("a word as a value", BOTH + "delay = one\n", "8:9", "invalid value, expected a string, number, boolean, date-time, array or inline table")
no_toml("a number above 63 bits", BOTH + "down = 9223372036854775808\n", "8:8", "number out of range")
no_toml("a leading zero", BOTH + "delay = 01\n", "8:9", "invalid value, expected a string, number, boolean, date-time, array or inline table")
no_toml("a text of bytes that are no UTF-8", BOTH.encode() + b'note = "\xff"\n', "8:9", "bytes that are no UTF-8")
no_toml("bytes that are no text", bytes(range(128, 256)), "1:1", "bytes that are no UTF-8")
no_toml("a zero byte", BOTH.encode() + b"\0", "8:1", "invalid key, expected letters, numbers, `-`, `_` or a quoted key")


def ran(program: str, command: str, settings: bytes) -> tuple[int, str, str]:
    """Status, standard output and standard error."""
    made = subprocess.run([program, command], input=settings, capture_output=True, timeout=SECONDS)
    return made.returncode, made.stdout.decode(), made.stderr.decode()


def wanted(findings: list[str], refused: Optional[str]) -> tuple[int, list[str]]:
    status = 2 if refused else 1 if findings else 0
    errors = sum(finding.startswith("error ") for finding in findings)
    return status, findings + [f"found errors {errors} warnings {len(findings) - errors}"]


def faults_of(program: str, settings: bytes, findings: list[str], refused: Optional[str]) -> list[str]:
    """What a row gets wrong."""
    want, lines = wanted(findings, refused)
    status, output, errors = ran(program, "check", settings)
    written = output.splitlines()[: len(lines)]
    told = list(difflib.unified_diff(lines, written, "wanted", "written", lineterm="")) if written != lines else []
    told += [f"status {status}, wanted {want}"] if status != want else []
    told += [f"standard error: {errors!r}"] if errors else []
    run_status, _, run_errors = ran(program, "run", settings)
    named = f"airbook: {refused}\n" if refused else ""
    if (run_status == 2, run_errors) != (bool(refused), named):
        told.append(f"run: status {run_status}, {run_errors!r}, wanted {named!r}")
    if refused and not any(line.startswith(f"error {refused} ") for line in output.splitlines()):
        told.append(f"{refused} stands in no error")
    return told


def large() -> list[tuple[str, str, int, int]]:
    """Settings that are large: the status and how many findings are wanted."""
    count = 100_000
    return [
        ("100,000 unknown keys", BOTH + "".join(f"key{n} = {n}\n" for n in range(count)), 1, count),
        ("100,000 unknown tables", BOTH + "[[devices]]\n" * count, 1, count),
        ("100,000 devices of one address", GATEWAY + DEVICE * count, 2, count),
        ("a deep value", BOTH + "deep = " + "[" * 79 + "]" * 79 + "\n", 1, 1),
        ("a value that is too deep", BOTH + "deep = " + "[" * 5_000_000 + "\n", 2, 1),
        ("a key of 10 MB", BOTH + "k" * 10_000_000 + " = 1\n", 1, 1),
        ("10 MB of comments", BOTH + "# nothing\n" * 1_000_000, 0, 0),
    ]


def fault_of_large(program: str, settings: str, want: int, found: int) -> Optional[str]:
    """What a row of those gets wrong."""
    status, output, errors = ran(program, "check", settings.encode())
    lines = [line for line in output.splitlines() if line.startswith(("error ", "warning "))]
    good = (status, len(lines), errors) == (want, found, "")
    return None if good else f"status {status}, {len(lines)} findings, {errors!r}; wanted {want}, {found}"


def main() -> int:
    program = sys.argv[1] if sys.argv[1:] else str(PROGRAM)
    if len(sys.argv) > 2 or not pathlib.Path(program).is_file():
        print(__doc__.strip(), file=sys.stderr)
        return 2
    trials = [(name, functools.partial(faults_of, program, *rest)) for name, *rest in ROWS]
    return tell(trials + [(name, functools.partial(fault_of_large, program, *rest)) for name, *rest in large()])


if __name__ == "__main__":
    sys.exit(main())
