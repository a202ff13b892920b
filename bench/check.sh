#!/usr/bin/env bash
# What `check` costs the built program (its path is the first argument), over volumes of 10 to 16 MB and of a quarter of that: "bodies"
# has files of 16 KB whose bytes are all summed, "empty" has files of 24 bytes, "sections" has one driver file of sections of 4 bytes,
# "fixups" has driver files with images of 1,000 fixups each, and "tables" ones with images of 1,000 sections each. "reversed" has one
# image whose table has the last section first; its smaller volume has a quarter of the sections, and so its ratio would show a square.
# So it is of "rising", "falling", "shuffled" (always in the same way) and "swapped" (rising, but for the last two), which have one image
# of sections of a byte each within a MiB, over which its relocations go; the sections of "spread" are shuffled over 16 MiB.
# For each it prints the best of 5 times, MB (1,000,000 bytes) a second, peak memory, and beside them what `cat` and `cksum` take for
# the same file; and then the ratio of a byte of the larger volume to one of the smaller, without the time of a run on no bytes, which
# is printed first.
set -eu
program=$(realpath "${1:-$(dirname "$0")/../crates/mm_main/out/mm_main}")
folder=$(mktemp -d)
trap 'rm -rf "$folder"' EXIT
cd "$folder"

# volume KIND COUNT FILE: writes a volume with so many files, or with one file of so many sections.
volume() {
    python3 - "$@" << 'END'
import random
import struct
import sys

kind, count, name = sys.argv[1], int(sys.argv[2]), sys.argv[3]
FFS2 = bytes.fromhex("78e58c8c3d8a1c4f9935896185c32dd3")
FFS3 = bytes.fromhex("7ac07354cb3dca4dbd6f1e9689e7349a")

def file(number, kind, attributes, body, large=False):
    """A file whose header sums up to 0, and with attribute 40 its body too."""
    size = len(body) + (32 if large else 24)
    short = b"\xff\xff\xff" if large else size.to_bytes(3, "little")
    long = size.to_bytes(8, "little") if large else b""
    guid = struct.pack("<QQ", number, number)
    checksum = -sum(body) & 0xff if attributes & 0x40 else 0xaa
    blank = guid + bytes([0, 0, kind, attributes]) + short + b"\0" + long
    made = guid + bytes([-sum(blank) & 0xff, checksum, kind, attributes]) + short + b"\xf8" + long + body
    return made + b"\xff" * (-len(made) % 8)

def header(ffs3, length, checksum):
    """The header of a volume of so many bytes."""
    return bytes(16) + (FFS3 if ffs3 else FFS2) + struct.pack("<QIIHHHBB", length, 0x4856465f, 0x800, 72, checksum, 0, 0, 2) + bytes(16)

def image(parts, relocations, machine=0x0ebc):
    """An image of EFI byte code of parts, (address, bytes) in the table's order, with relocations at an address."""
    table = 0x40 + 24 + 160
    headers = table + 40 * len(parts)
    size = max(at + len(held) for at, held in parts)
    entry = next(at for at, _ in parts if at % 2 == 0)
    optional = struct.pack("<H14xI36xII", 0x20b, entry, size, headers)
    optional += struct.pack("<4xH38xI40xII", 11, 6, *relocations)
    made = [b"MZ" + bytes(58) + struct.pack("<I", 0x40)]
    made.append(b"PE\0\0" + struct.pack("<HH12xHH", machine, len(parts), 160, 0) + optional)
    raw = headers
    for at, held in parts:
        made.append(struct.pack("<8xIIII12xI", len(held), at, len(held), raw, 0x60000020))
        raw += len(held)
    return b"".join(made) + b"".join(held for _, held in parts)

def driver(number, image):
    """A driver file with this image, with the expression TRUE in front."""
    body = b"\x06\0\0\x1c\x06\x08\0\0"
    return file(number, 0x0e, 1, body + b"\xff\xff\xff\x10" + struct.pack("<I", len(image) + 8) + image, large=True)

def block(page, count):
    """A block of relocations with so many fixups of kind 10, one behind the other."""
    return struct.pack("<II", page, 8 + 2 * count) + b"".join(struct.pack("<H", 0xa000 + 8 * k) for k in range(count))

def fixed():
    """An image with 1,000 fixups in two pages."""
    blocks = block(0x1000, 512) + block(0x2000, 488)
    return image([(0x1000, bytes(8_000)), (0x2f40, blocks)], (0x2f40, len(blocks)))

def parted(count, order):
    """An image of so many sections of 16 bytes, without relocations."""
    return image([(0x1000000 - 16 * count + 16 * k, bytes(16)) for k in range(count)][::order], (0, 0))

def tiny(count, order, room):
    """An image of x64 of so many sections of a byte, which end within so many bytes, where the headers don't count, or in the image's
    16 MiB. The first eight hold the head of one block of relocations over all of them; the others are entries that do nothing."""
    begin = 0x40 + 24 + 160 + 40 * count
    step = (min(room, 0x1000000 - begin) - 8) // (count - 8) & ~1
    places = [begin + (k if k < 8 else 8 + step * (k - 8)) for k in range(count)]
    length = places[-1] + 1 - begin & ~1
    head = struct.pack("<II", 0, length)
    parts = [(at, head[k:k + 1] if k < 8 else b"\x05") for k, at in enumerate(places)]
    if order == "falling":
        parts.reverse()
    elif order == "swapped":
        parts[-2:] = [parts[-1], parts[-2]]
    elif order == "shuffled":
        random.Random(1).shuffle(parts)
    return image(parts, (begin, length), 0x8664)

if kind == "bodies":
    body = bytes((k * k + 7 * k) & 0xff for k in range(16_000))
    files = b"".join(file(k, 0x0e, 0x40, body) for k in range(count))
elif kind == "empty":
    files = b"".join(file(k, 0x07, 0, b"") for k in range(count))
elif kind == "fixups":
    files = b"".join(driver(k, fixed()) for k in range(count))
elif kind == "tables":
    files = b"".join(driver(k, parted(1000, 1)) for k in range(count))
elif kind == "reversed":
    files = driver(1, parted(count, -1))
elif kind in ["rising", "falling", "shuffled", "swapped"]:
    files = driver(1, tiny(count, kind, 0x100000))
elif kind == "spread":
    files = driver(1, tiny(count, "shuffled", 0x1000000))
else:
    files = file(1, 0x0e, 1, b"\x04\0\0\x19" * count, large=True)
ffs3 = kind not in ["bodies", "empty"]
length = 72 + len(files)
total = sum(struct.unpack("<36H", header(ffs3, length, 0)))
with open(name, "wb") as out:
    out.write(header(ffs3, length, -total & 0xffff) + files)
END
}

# best COMMAND..: sets `time` to the best of 5 times in microseconds.
best() {
    local from took
    time=
    for _ in 1 2 3 4 5; do
        from=${EPOCHREALTIME/[.,]/}
        "$@" > report
        took=$((${EPOCHREALTIME/[.,]/} - from))
        if [ -z "$time" ] || [ "$took" -lt "$time" ]; then time=$took; fi
    done
}

# quotient A B DIGITS: A / B with so many digits behind the point.
quotient() { awk -v a="$1" -v b="$2" -v d="$3" 'BEGIN { printf "%.*f", d, a / b }'; }

# rate NAME COMMAND..: times the command on the volume, and says what it takes.
rate() {
    local name=$1
    shift
    best "$@" sample.fd
    echo "  $name: $time us, $(quotient "$size" "$time" 0) MB/s"
}

head -c 0 /dev/zero > none.fd
start=
for _ in 1 2 3 4 5; do
    from=${EPOCHREALTIME/[.,]/}
    "$program" check none.fd 2> said || true
    took=$((${EPOCHREALTIME/[.,]/} - from))
    if [ -z "$start" ] || [ "$took" -lt "$start" ]; then start=$took; fi
done
echo "no bytes: $start us"

for kind in bodies empty sections fixups tables reversed rising falling shuffled swapped spread; do
    case $kind in
    bodies) counts='250 1000' ;;
    empty) counts='125000 500000' ;;
    sections) counts='1000000 4000000' ;;
    fixups) counts='250 1000' ;;
    tables) counts='70 280' ;;
    reversed) counts='1000 4000' ;;
    *) counts='16384 65535' ;;
    esac
    word=driver
    case $kind in rising | falling | shuffled | swapped | spread) word=native ;; esac
    short=
    for count in $counts; do
        volume "$kind" "$count" sample.fd
        size=$(stat -c %s sample.fd)
        memory=$(/usr/bin/time -f %M "$program" check sample.fd 2>&1 > report)
        lines=$(wc -l < report)
        case $kind in bodies | empty | fixups | tables) wanted=$((count + 1)) ;; *) wanted=2 ;; esac
        if [ "$lines" != "$wanted" ]; then
            echo "$kind: not $wanted lines" >&2
            exit 1
        fi
        case $kind in
        bodies | empty | sections) ;;
        *)
            if [ "$(grep -c " $word\$" report)" != $((wanted - 1)) ]; then
                echo "$kind: not all drivers are sound" >&2
                exit 1
            fi
            ;;
        esac
        written=$(stat -c %s report)
        echo "$kind, $count: $size bytes, report $written bytes, peak memory $memory KiB, most wanted $(((2 * (size + written) + 40000000) / 1024)) KiB"
        rate check "$program" check
        byte=$(quotient $((time - start)) "$size" 9)
        if [ -z "$short" ]; then
            short=$byte
        else
            echo "  check, ratio a byte: $(quotient "$byte" "$short" 2)"
        fi
        rate cat cat
        rate cksum cksum
    done
done
