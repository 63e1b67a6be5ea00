#!/bin/sh
# Compares frames of lora_frame, and those of `airbook run` in the cases, with other implementations, outside the gate:
# python3-cryptography for all of them, and wireshark's LoRaWAN dissector (tshark) for those that it can read. Installs
# what it needs by apt-get where it may, and says what it skips. Needs rt and python3; takes about a minute. The frames
# of lora_frame are written with no proof (`rt try`): the gate proves the crates.
set -eu
top=$(cd "$(dirname "$0")/../.." && pwd)
work=$(mktemp -d)
trap 'rm -rf "$work"' EXIT
install() {
    command -v apt-get > /dev/null && DEBIAN_FRONTEND=noninteractive apt-get install -y -qq "$1" > /dev/null 2>&1 || true
}
command -v tshark > /dev/null || install tshark
python3 -c 'import cryptography' 2> /dev/null || install python3-cryptography
python3 -c 'import cryptography' 2> /dev/null || { echo 'skipped: python3-cryptography is not installed'; exit 2; }
mkdir -p "$work/crates/frames/src"
cp -r "$top/crates/aes_cmac" "$top/crates/lora_frame" "$work/crates/"
cp "$top/tests/interop/frames.rt.txt" "$work/crates/frames/src/main.rt"
printf 'aes_cmac:\nlora_frame: aes_cmac thiserror\nframes: aes_cmac lora_frame\n' > "$work/crates.txt"
cd "$work/crates/frames"
rt try > "$work/frames.txt" 2> "$work/log" || { tail -20 "$work/log"; exit 1; }
python3 "$top/tests/interop/check.py" "$work/frames.txt"

# the frames that the cases of `airbook run` hold, by their settings
python3 "$top/tests/interop/run_frames.py" $(grep -lx run "$top"/cases/*/args | xargs -n1 dirname)
