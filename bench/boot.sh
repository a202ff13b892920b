#!/usr/bin/env bash
# What `boot` costs the built program (its path is the first argument): a volume of 16 MiB with 32 drivers, each the one that
# tests/sample-volume.sh writes, under a name of its own, and a pad file after them. It prints the best of 7 times of `boot`, of
# `check` and of `cksum` on this file, which take turns, the ratio of `boot` to `cksum`, and the peak memory of `boot`; and the same times
# of a volume with the same drivers and no pad file, which tell what the starts cost. The last volume has a policy of 1,024 rules about
# ports before these drivers: what `boot` takes longer tells what its lines of images cost. Wanted for the large one: within 20 times
# `cksum`, and memory within 32 MiB, twice the file and 60 MB; for the lines of images at most a second.
set -eu
top=$(cd "$(dirname "$0")/.." && pwd)
program=$(realpath "${1:-$top/crates/mm_main/out/mm_main}")
folder=$(mktemp -d)
trap 'rm -rf "$folder"' EXIT
cd "$folder"
drivers=32
"$top/tests/sample-volume.sh" sample.fd

# volume LENGTH FILE [RULES]: writes a volume of as many bytes with the drivers, and with a pad file in what is left; or where the length is 0, of
# the drivers alone. A policy with as many rules comes before them: each allows one image to read and write 5 ports.
volume() {
    python3 - "$drivers" "$@" << 'END'
import random
import struct
import sys

drivers, length, name = int(sys.argv[1]), int(sys.argv[2]), sys.argv[3]
rules = int(sys.argv[4]) if len(sys.argv) > 4 else 0
sample = open("sample.fd", "rb").read()
PLACE, SIZE = 72, 372  # where the sample has its driver file, and how long that is

def file(name, kind, body):
    """A file of this type without a sum over its body, up to the next multiple of 8."""
    blank = name + bytes([0, 0, kind, 0]) + (len(body) + 24).to_bytes(3, "little") + b"\0"
    made = blank[:16] + bytes([-sum(blank) & 0xff, 0xaa]) + blank[18:23] + b"\xf8" + body
    return made + b"\xff" * (-len(made) % 8)

def header(length, checksum):
    """The sample's header for a volume of as many bytes."""
    whole = struct.pack("<Q", length)
    return sample[:32] + whole + sample[40:50] + struct.pack("<H", checksum) + sample[52:60] + whole[:4] + sample[64:72]

def policy():
    """The policy file: one raw section with the rules."""
    blob = b"MMSP" + struct.pack("<III", 1, rules, 65536) + b"".join(
        struct.pack("<HHIQQQQ", 2, 1, 3, 1, k % drivers, 64 * k, 5) for k in range(rules))
    section = (len(blob) + 4).to_bytes(3, "little") + b"\x19" + blob
    return file(bytes.fromhex("50534d4d020000408000000000000002"), 0x02, section)

body = sample[PLACE + 24:PLACE + SIZE]
files = (policy() if rules else b"") + b"".join(file(struct.pack("<QQ", 1, k), 0x0e, body) for k in range(drivers))
if length:
    files += file(b"\xff" * 16, 0xf0, random.Random(1).randbytes(length - 72 - len(files) - 24))
else:
    length = 72 + len(files)
total = sum(struct.unpack("<36H", header(length, 0)))
with open(name, "wb") as out:
    out.write(header(length, -total & 0xffff) + files)
END
}

# best TIME COMMAND..: runs the command, and sets the variable `TIME` to its microseconds where these are fewer.
best() {
    local name=$1 from took
    shift
    from=${EPOCHREALTIME/[.,]/}
    "$@" > report
    took=$((${EPOCHREALTIME/[.,]/} - from))
    if [ -z "${!name}" ] || [ "$took" -lt "${!name}" ]; then printf -v "$name" '%s' "$took"; fi
}

# times FILE: sets `boot`, `check` and `cksum` to the best times on this file.
times() {
    boot='' check='' cksum=''
    for _ in 1 2 3 4 5 6 7; do
        best boot "$program" boot "$1"
        best check "$program" check "$1"
        best cksum cksum "$1"
    done
}

# booted FILE: fails where not all drivers start. All have handlers for one GUID, so no image is closed by itself.
booted() {
    "$program" boot "$1" > report
    if [ "$(grep -c '^start .* round 1 returned 0000000000000000$' report)" != "$drivers" ] ||
        ! grep -qx "locked images $drivers handlers $drivers protocols 0" report ||
        [ "$(grep -c '^image .* open$' report)" != "$drivers" ]; then
        echo "$1: not all $drivers drivers started" >&2
        exit 1
    fi
}

# quotient A B DIGITS: A / B with as many digits after the point.
quotient() { awk -v a="$1" -v b="$2" -v d="$3" 'BEGIN { printf "%.*f", d, a / b }'; }

volume 0 small.fd
volume 16777216 large.fd
for file in small.fd large.fd; do
    booted "$file"
    size=$(stat -c %s "$file")
    times "$file"
    echo "$drivers drivers, $size bytes: boot $boot us, check $check us, cksum $cksum us"
done
memory=$(/usr/bin/time -f %M "$program" boot large.fd 2>&1 > report)
echo "boot beside cksum: ratio $(quotient "$boot" "$cksum" 1), wanted at most 20"
echo "peak memory of boot: $memory KiB, wanted at most $(((33554432 + 2 * size + 60000000) / 1024)) KiB"
volume 0 ruled.fd 1024
booted ruled.fd
ruled='' small=''
for _ in 1 2 3 4 5 6 7; do
    best ruled "$program" boot ruled.fd
    best small "$program" boot small.fd
done
echo "lines of $drivers images under 1,024 rules: $((ruled - small)) us, wanted at most 1000000"
