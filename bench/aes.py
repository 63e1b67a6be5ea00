#!/usr/bin/env python3
"""What one block of AES-128 and one CMAC of 64 bytes cost here, against OpenSSL on the same machine and in the same run.

Usage: bench/aes.py

OpenSSL runs once without AES instructions, and once also without its vector form (SSSE3), which leaves its tables. Printed are
nanoseconds and ratios; above 1 the proved code is slower. It takes some minutes where the proofs of aes_cmac are not in its out/
yet. It needs the toolchain's command rt, and openssl.
"""
from __future__ import annotations

import argparse
import os
import pathlib
import re
import shutil
import subprocess
import sys
import tempfile

TOP = pathlib.Path(__file__).resolve().parent.parent
RUN = re.compile(r"block (\d+) (\d+) code (\d+) (\d+)")
# What OpenSSL may not use of the processor.
WITHOUT = {"without AES instructions": "~0x200000200000000", "and without SSSE3": "~0x200020200000000"}


def said_by_proved(folder: pathlib.Path) -> str:
    """What the timing of the proved code prints, which is proved and built in this folder."""
    own = folder / "crates/bench_aes"
    shutil.copytree(TOP / "crates/aes_cmac", folder / "crates/aes_cmac", symlinks=True)
    (own / "src").mkdir(parents=True)
    shutil.copyfile(TOP / "bench/aes.rt.txt", own / "src/main.rt")
    (folder / "crates.txt").write_text("aes_cmac:\nbench_aes: aes_cmac\n")
    ran = subprocess.run(["rt", "run"], cwd=own, capture_output=True, text=True)
    if ran.returncode:
        print("\n".join(ran.stderr.splitlines()[-20:]), file=sys.stderr)
        raise SystemExit(1)
    return ran.stdout


def of_proved() -> tuple[float, float]:
    """The least nanoseconds of a block, and of a CMAC."""
    with tempfile.TemporaryDirectory() as folder:
        said = said_by_proved(pathlib.Path(folder))
    runs = [tuple(map(int, run.groups())) for run in RUN.finditer(said)]
    return min(run[0] / run[1] for run in runs), min(run[2] / run[3] for run in runs)


def of_openssl(without: str, size: int, words: list[str]) -> float:
    """The nanoseconds that OpenSSL takes for so many bytes."""
    speed = ["openssl", "speed", "-elapsed", "-mr", "-seconds", "2", "-bytes", str(size), *words]
    environment = {**os.environ, "OPENSSL_ia32cap": without}
    ran = subprocess.run(speed, env=environment, stdout=subprocess.PIPE, stderr=subprocess.DEVNULL, text=True)
    # The last field of the last line that begins with +F is bytes a second.
    rows = [line for line in ran.stdout.splitlines() if line.startswith("+F")]
    if ran.returncode or not rows:
        raise SystemExit(f"{' '.join(speed)} printed no +F line")
    return size / float(rows[-1].split(":")[-1]) * 1e9


def main() -> int:
    argparse.ArgumentParser(description=__doc__, formatter_class=argparse.RawDescriptionHelpFormatter).parse_args()
    lacking = [name for name in ("rt", "openssl") if shutil.which(name) is None]
    if lacking:
        print(f"aes.py: there is no command {' and no '.join(lacking)} on the PATH", file=sys.stderr)
        return 2
    block, code = of_proved()
    print(f"proved: block {block:.1f} ns, 64-byte MIC {code:.1f} ns")
    for name, without in WITHOUT.items():
        its_block, its_code = of_openssl(without, 16, ["-evp", "aes-128-ecb"]), of_openssl(without, 64, ["-cmac", "aes-128-cbc"])
        ratios = f"ratios {block / its_block:.2f} and {code / its_code:.2f}"
        print(f"OpenSSL {name}: block {its_block:.1f} ns, 64-byte MIC {its_code:.1f} ns; {ratios}")
    return 0


if __name__ == "__main__":
    sys.exit(main())
