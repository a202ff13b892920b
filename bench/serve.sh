#!/usr/bin/env bash
# What entries to a driver cost the built program (its path is the first argument). A driver in EFI Byte Code, written here byte by byte, has a
# handler that reads and writes the 4,072 bytes of its message, 8 at a time, in 6 units a turn; another one has a handler that returns at
# once; and `script` has a stub for the same GUID. Each serves the same script: one lane of 512 words and so many entries with a full request.
# It prints the best of 3 times of each, which take turns, for 8,192 and 4,096 entries; what a unit costs, beside a byte of `xxd -p`; what an
# entry costs beside the units, as a ratio to `script`'s; and the peak memory. Wanted: a unit at most 7.5 times a byte of `xxd -p`, the
# ratio of entries at most 1.5, and twice the entries in at most 2.2 times the time.
set -eu
top=$(cd "$(dirname "$0")/.." && pwd)
program=$(realpath "${1:-$top/crates/mm_main/out/mm_main}")
folder=$(mktemp -d)
trap 'rm -rf "$folder"' EXIT
cd "$folder"
"$top/tests/sample-volume.sh" sample.fd
python3 - << 'END'
# The sample driver's code is an entry of 34 bytes, its handler of 30, and the GUID.
sample = bytearray(open("sample.fd", "rb").read())
GUID = bytes.fromhex("11111111222233334444555555555555")
place = sample.index(GUID) - 30
returns = bytes.fromhex("0400")
loop = bytes.fromhex(
    "60822000"  # R2 = @R0(+32), the buffer
    "7734fd01"  # R4 = 509
    "77350100"  # R5 = 1
    "77360800"  # R6 = 8
    "20a1"      # R1 = @R2
    "201a"      # @R2 = R1
    "4c62"      # R2 = R2 + R6
    "4d54"      # R4 = R4 - R5
    "4574"      # is R4 what R7 is, 0?
    "82fa"      # if not, again from R1 = @R2
    "0400"      # RET
)
for name, code in (("loop.fd", loop), ("blank.fd", returns)):
    made = sample[:]
    made[place:place + len(code)] = code
    open(name, "wb").write(made)
request = GUID + (4072).to_bytes(8, "little") + bytes(k % 251 for k in range(4072))
for name, count, stub in (("full.events", 8192, ""), ("half.events", 4096, ""), ("full.script", 8192, "handler 11111111-2222-3333-4444-555555555555 0\n")):
    with open(name, "w") as out:
        out.write("lanes 1 512\n" + stub + "fill 0 " + request.hex() + "\n" + "ring 0\nrun 0\n" * count)
END

# best TIME COMMAND..: runs the command, and sets the variable `TIME` to its microseconds where these are fewer.
best() {
    local name=$1 from took
    shift
    from=${EPOCHREALTIME/[.,]/}
    "$@" > report
    took=$((${EPOCHREALTIME/[.,]/} - from))
    if [ -z "${!name}" ] || [ "$took" -lt "${!name}" ]; then printf -v "$name" '%s' "$took"; fi
}

head -c 33554432 /dev/urandom > noise
full='' half='' blank='' script='' xxd=''
for _ in 1 2 3; do
    best full "$program" serve loop.fd full.events
    best half "$program" serve loop.fd half.events
    best blank "$program" serve blank.fd full.events
    best script "$program" script full.script
    best xxd xxd -p noise
done
"$program" serve loop.fd half.events > report
[ "$(grep -c '^  handler 0 returned 0000000000000000$' report)" = 4096 ] || { echo "not all entries returned 0" >&2; exit 1; }
/usr/bin/env time -f '%M KiB at most' "$program" serve loop.fd full.events 2> memory > report || true
python3 - "$full" "$half" "$blank" "$script" "$xxd" << 'END'
import sys

full, half, blank, script, xxd = (int(word) for word in sys.argv[1:])
units = 8192 * (509 * 6 + 5)
unit = (full - blank) * 1000 / units
byte = xxd * 1000 / 33554432
print(f"8,192 entries with the loop {full / 1000:.0f} ms, 4,096 {half / 1000:.0f} ms: {full / half:.2f} times")
print(f"a unit {unit:.1f} ns, a byte of xxd -p {byte:.1f} ns: ratio {unit / byte:.2f} (wanted at most 7.5)")
print(f"an entry without units {blank / 8192:.1f} us, of script {script / 8192:.1f} us: ratio {blank / script:.2f} (wanted at most 1.5)")
END
cat memory
