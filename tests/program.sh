#!/usr/bin/env bash
# The built program from a shell: each exit status that can be had there, what it writes, and the one line that it says on
# standard error. Its path is the first argument; without one it is that which `rt ci` leaves.
set -u
top=$(cd "$(dirname "$0")/.." && pwd)
program=${1:-$top/crates/mm_main/out/mm_main}
if [ ! -x "$program" ]; then
    echo "program.sh: $program is not there: run rt ci first" >&2
    exit 1
fi
program=$(realpath "$program")
folder=$(mktemp -d)
trap 'rm -rf "$folder"' EXIT
cd "$folder" || exit 1
passed=0
failed=0

# ends STATUS OUT ERR COMMAND..: the command ends with this status, writes what the file OUT has (`-`: nothing) to standard output,
# and says just the line ERR (empty: nothing) on standard error.
ends() {
    local status=$1 out=$2 err=$3 got
    shift 3
    "$@" > said.out 2> said.err
    got=$?
    [ "$out" = - ] && out=/dev/null
    if [ $got = "$status" ] && cmp -s said.out "$out" && [ "$(cat said.err)" = "$err" ] && [ "$(wc -l < said.err)" = "$([ -n "$err" ] && echo 1 || echo 0)" ]; then
        passed=$((passed + 1))
    else
        failed=$((failed + 1))
        echo "program.sh: wanted $status and '$err' of: $*" >&2
        echo "program.sh: got $got and '$(cat said.err)'; standard output has $(wc -c < said.out) bytes" >&2
    fi
}

# full COMMAND..: the command with a full device as its standard output.
full() { "$@" > /dev/full; }

printf '%s\n' 'lanes 1 4' '# a request for the version' '' '  fill 0  31564d4d01000040800000000000000108000000000000000000000000000000' 'ring 0' 'run 0' > version.script
printf '%s\n' \
    'entry 0 lane 0 loads 5 status 0000000000000000' \
    '  request 0000000000000020 31564d4d01000040800000000000000108000000000000000000000000000000' \
    '  dispatched 4d4d5631-0001-4000-8000-000000000001' \
    '  handler 0 returned 0000000000000000' \
    '  reply 31564d4d01000040800000000000000108000000000000000800010000000000' \
    'lane 0 length 0000000000000020 status 0000000000000000 data 31564d4d01000040800000000000000108000000000000000800010000000000' > version.report
ends 0 version.report '' "$program" script version.script

"$top/tests/sample-volume.sh" sample.fd
printf '%s\n' \
    'volume 000001c0 ffs2 files 1' \
    'file 00000048 aaaaaaaa-0000-0000-0000-000000000001 type 0e size 00000174 driver' > sample.report
ends 0 sample.report '' "$program" check sample.fd

# changed FILE EDIT..: writes the bytes of each edit, PLACE=HEX, over the file's.
changed() {
    local file=$1 edit
    shift
    for edit in "$@"; do
        printf "$(printf '%s' "${edit#*=}" | sed 's/../\\x&/g')" | dd of="$file" bs=1 seek="${edit%%=*}" conv=notrunc status=none
    done
}

# A volume of 72 bytes without files: the sample's header with another length, checksum and block map.
head -c 72 sample.fd > empty.fd
changed empty.fd 32=4800 50=41ed 60=4800
echo 'volume 00000048 ffs2 files 0' > empty.report
ends 0 empty.report '' "$program" check empty.fd

# listed WORDS EDIT..: the sample volume with these edits is listed, and its file is taken for this.
listed() {
    local words=$1
    shift
    cp sample.fd changed.fd
    changed changed.fd "$@"
    sed "s/driver\$/$words/" sample.report > changed.report
    ends 0 changed.report '' "$program" check changed.fd
}
listed native 176=6486
listed 'refused pe machine at 00000044' 176=0000
listed 'refused pe subsystem at 0000009c' 264=0a
listed 'refused depex empty' 100=08
listed 'refused depex noend' 101=06

# booted FILE LINE..: the volume is booted, and the report is these lines.
booted() {
    local file=$1
    shift
    printf '%s\n' "$@" > boot.report
    ends 0 boot.report '' "$program" boot "$file"
}
volume='volume 000001c0 ffs2 files 1'
file='file 00000048 aaaaaaaa-0000-0000-0000-000000000001 type 0e size 00000174'
first='start aaaaaaaa-0000-0000-0000-000000000001 round 1'
none='policy none fuel 65536'
nothing='locked images 0 handlers 0 protocols 0'
stayed='locked images 1 handlers 1 protocols 0'
closed='image 0 aaaaaaaa-0000-0000-0000-000000000001 closed'
booted sample.fd "$volume" "$file driver" "$none" "$first returned 0000000000000000" "$stayed" "$closed"

# The second driver is denied its port, and fails: its image is gone at lock.
"$top/tests/sample-volume.sh" two.fd two
booted two.fd 'volume 00000308 ffs2 files 2' "$file driver" \
    'file 000001c0 bbbbbbbb-0000-0000-0000-000000000002 type 0e size 00000146 driver' "$none" \
    "$first returned 0000000000000000" \
    'start bbbbbbbb-0000-0000-0000-000000000002 round 1 returned 800000000000000f' \
    '  deny io read 0000000000000072 1 norule' "$stayed" "$closed"
booted empty.fd 'volume 00000048 ffs2 files 0' "$none" "$nothing"

# booted_as WORDS EDIT LINE..: the sample volume with this edit is booted, its file is taken for this, and these are the last lines.
booted_as() {
    local words=$1
    cp sample.fd changed.fd
    changed changed.fd "$2"
    shift 2
    booted changed.fd "$volume" "$file $words" "$none" "$@"
}
booted_as native 176=6486 "$nothing"
booted_as 'refused depex empty' 100=08 "$nothing"
# An expression that is false; an entry that begins with an opcode that there isn't, and one that is denied what it reads first, at 70.
booted_as driver 100=07 'waiting aaaaaaaa-0000-0000-0000-000000000001' "$nothing"
booted_as driver 364=2700 "$first fault encoding at 0000000080000100" "$nothing"
booted_as driver 364=773170002091 "$first denied range at 0000000000000070" '  deny mem read 0000000000000070 8 range' "$nothing"

# served FILE SCRIPT LINE..: the volume is booted, the script is served, and the report is these lines.
served() {
    local file=$1 script=$2
    shift 2
    printf '%s\n' "$@" > serve.report
    ends 0 serve.report '' "$program" serve "$file" "$script"
}

# A booted core has no handler for the version.
message='31564d4d01000040800000000000000108000000000000000000000000000000'
served empty.fd version.script 'volume 00000048 ffs2 files 0' "$none" "$nothing" \
    'entry 0 lane 0 loads 5 status 800000000000000e' \
    "  request 0000000000000020 $message" '  nohandler 4d4d5631-0001-4000-8000-000000000001' '  reply -' \
    "lane 0 length 0000000000000020 status 800000000000000e data $message"
printf '%s\n' 'lanes 1 3' 'cell io 70 5a' > quiet.script
served sample.fd quiet.script "$volume" "$file driver" "$none" "$first returned 0000000000000000" "$stayed" "$closed" \
    'lane 0 length 0000000000000000 status 0000000000000000 data 000000000000000000000000000000000000000000000000'

usage='mm_main: usage: mm_main script FILE, mm_main check FILE, mm_main boot FILE, or mm_main serve FILE SCRIPT'
ends 1 - "$usage" "$program"
ends 1 - "$usage" "$program" script
ends 1 - "$usage" "$program" script version.script more
ends 1 - "$usage" "$program" Script version.script
ends 1 - "$usage" "$program" check
ends 1 - "$usage" "$program" check sample.fd more
ends 1 - "$usage" "$program" Check sample.fd
ends 1 - "$usage" "$program" boot
ends 1 - "$usage" "$program" boot sample.fd more
ends 1 - "$usage" "$program" Boot sample.fd
ends 1 - "$usage" "$program" --help
for form in serve 'serve V' 'serve V S more' 'Serve V S' 'live V W' 'gen 0' 'gen 10' 'convert V' 'audit V' 'verify V T'; do
    # shellcheck disable=SC2086
    ends 1 - "$usage" "$program" $form
done
ends 1 - "mm_main: word 2 of the command line isn't UTF-8" "$program" script "$(printf '\377')"
ends 1 - "mm_main: word 1 of the command line isn't UTF-8" "$program" "$(printf 's\300')" version.script
ends 1 - "mm_main: word 3 of the command line isn't UTF-8" "$program" script "$(head -c 5000 /dev/zero | tr '\0' x)" "$(printf '\355\240\200')"

# A pipe that nobody writes to: its opening would not return, and no form that isn't served opens what its words name.
mkfifo pipe
ends 1 - "$usage" timeout 5 "$program" Script pipe
ends 1 - "$usage" timeout 5 "$program" script pipe more
ends 1 - "$usage" timeout 5 "$program" script version.script pipe
ends 1 - "$usage" timeout 5 "$program" check pipe pipe
ends 1 - "$usage" timeout 5 "$program" boot pipe pipe
ends 1 - "$usage" timeout 5 "$program" serve pipe
ends 1 - "$usage" timeout 5 "$program" serve pipe pipe pipe
ends 1 - "$usage" timeout 5 "$program" pipe

# damaged BYTES PLACE WHY EDIT..: the first bytes of the sample volume, as many as are asked for, with these edits, are refused at this
# place by the commands that read a volume.
damaged() {
    local bytes=$1 place=$2 why=$3 command
    shift 3
    head -c "$bytes" sample.fd > damaged.fd
    changed damaged.fd "$@"
    for command in check boot; do
        ends 2 - "mm_main: \"damaged.fd\", byte $place: $why" "$program" "$command" damaged.fd
    done
    # The script isn't opened.
    ends 2 - "mm_main: \"damaged.fd\", byte $place: $why" timeout 5 "$program" serve damaged.fd pipe
}
short='a volume header has at least 64 bytes, and there are fewer'
damaged 0 0x0 "$short"
damaged 63 0x0 "$short"
header_length="the volume header's length is below 64, odd, or over the length of the file"
damaged 71 0x30 "$header_length"
damaged 448 0x30 "$header_length" 48=3e
damaged 448 0x30 "$header_length" 48=49
length="the volume's length is below its header's, or over the length of the file, which may have been cut"
damaged 72 0x20 "$length"
damaged 447 0x20 "$length"
damaged 448 0x28 "a volume has its signature here, _FVH, and this isn't it" 40=00
damaged 448 0x32 "the volume header's 16-bit words don't sum up to 0" 50=00
damaged 448 0x37 "the volume header's revision isn't 2" 51=eb 55=01
damaged 448 0x10 "the volume's file system is neither FFS2 nor FFS3" 16=00000000000000000000000000000000 50=8263
damaged 448 0x34 "the extended header that this points to has fewer than 20 bytes, or leads past the volume's end" 50=91e8c001
damaged 448 0x48 "the bytes of the file header that stands here don't sum up to 0" 88=00
damaged 448 0x48 "the size of the file that stands here is below its header's or leads past the volume's end, or it is a large file where none may be" 88=32 92=1700

# refused TEXT LINE WHY: a script of this text is refused at this line.
refused() {
    printf "$1" > refused.script
    ends 3 - "mm_main: \"refused.script\", line $2: $3" "$program" script refused.script
}
refused 'lanes 1 4\nwait 0\n' 2 'its first word begins no line: a line is lanes, cell, handler, poke, fill, ring, step or run'
refused 'ring 0\n' 1 'it may not stand here: lanes stands first and once, cell and handler before all that happens'
refused 'lanes 1 4\n\nring\n' 3 "it has too many or too few words, or one that such a line doesn't know"
refused 'lanes 1 4\r\n' 1 "one of its words can't be read as the number, bytes or GUID that stand there"
range="a number is out of its range or names what isn't there, there are more bytes than the lane holds, a register is named twice, or it is a handler line past the 64th or a ring line past the 8192nd"
refused 'lanes 1 4\npoke 0 6 1' 2 "$range"
refused 'lanes 1 3\nfill 0 00112233445566778899aabbccddeeff001122334455667788' 2 "$range"
refused 'lanes 1 4\nring 0 3=1 3=1' 2 "$range"
refused "lanes 1 4\n$(printf 'handler root 0\\n%.0s' $(seq 65))" 66 "$range"
refused '' 1 'the script has no line that says anything'

# Beside a volume a script has no handler lines.
printf '%s\n' 'lanes 1 4' 'handler root 0' > handlers.script
ends 3 - "mm_main: \"handlers.script\", line 2: its first word begins no line: a line is lanes, cell, poke, fill, ring, step or run" "$program" serve sample.fd handlers.script
: > refused.script
ends 3 - 'mm_main: "refused.script", line 1: the script has no line that says anything' "$program" serve sample.fd refused.script

not_read='could not be opened or read'
not_there='No such file or directory (os error 2)'
ends 4 - "mm_main: \"nowhere.script\" $not_read: $not_there" "$program" script nowhere.script
ends 4 - "mm_main: \"\" $not_read: $not_there" "$program" script ''
mkdir folder.script
ends 4 - "mm_main: \"folder.script\" $not_read: Is a directory (os error 21)" "$program" script folder.script

mkdir folder.fd
for command in check boot; do
    ends 4 - "mm_main: \"nowhere.fd\" $not_read: $not_there" "$program" "$command" nowhere.fd
    ends 4 - "mm_main: \"\" $not_read: $not_there" "$program" "$command" ''
    ends 4 - "mm_main: \"folder.fd\" $not_read: Is a directory (os error 21)" "$program" "$command" folder.fd
done

ends 4 - "mm_main: \"nowhere.fd\" $not_read: $not_there" "$program" serve nowhere.fd nowhere.script
ends 4 - "mm_main: \"nowhere.script\" $not_read: $not_there" "$program" serve sample.fd nowhere.script

# A file that may not be read; root may read each.
if [ "$(id -u)" != 0 ]; then
    cp version.script closed.script
    chmod 000 closed.script
    ends 4 - "mm_main: \"closed.script\" $not_read: Permission denied (os error 13)" "$program" script closed.script
    ends 4 - "mm_main: \"closed.script\" $not_read: Permission denied (os error 13)" "$program" check closed.script
    ends 4 - "mm_main: \"closed.script\" $not_read: Permission denied (os error 13)" "$program" boot closed.script
fi

if [ -e /dev/full ]; then
    ends 5 - 'mm_main: standard output could not be written: No space left on device (os error 28)' full "$program" script version.script
    ends 5 - 'mm_main: standard output could not be written: No space left on device (os error 28)' full "$program" check sample.fd
    ends 5 - 'mm_main: standard output could not be written: No space left on device (os error 28)' full "$program" boot sample.fd
    ends 5 - 'mm_main: standard output could not be written: No space left on device (os error 28)' full "$program" serve sample.fd version.script
fi

head -c 4194305 /dev/zero | tr '\0' '\n' > long.script
ends 6 - 'mm_main: "long.script" has more than 4194304 bytes' "$program" script long.script
ends 6 - 'mm_main: "long.script" has more than 4194304 bytes' "$program" serve sample.fd long.script
head -c $((4194304 - $(wc -c < version.script))) /dev/zero | tr '\0' '\n' | cat version.script - > whole.script
ends 0 version.report '' "$program" script whole.script

head -c 16777217 /dev/zero > long.fd
ends 6 - 'mm_main: "long.fd" has more than 16777216 bytes' "$program" check long.fd
ends 6 - 'mm_main: "long.fd" has more than 16777216 bytes' "$program" boot long.fd
head -c 16777216 /dev/zero > zeros.fd
ends 2 - "mm_main: \"zeros.fd\", byte 0x28: a volume has its signature here, _FVH, and this isn't it" "$program" check zeros.fd
head -c $((16777216 - 448)) /dev/zero | cat sample.fd - > whole.fd
ends 0 sample.report '' "$program" check whole.fd
booted whole.fd "$volume" "$file driver" "$none" "$first returned 0000000000000000" "$stayed" "$closed"

echo "program.sh: $passed passed, $failed failed"
[ "$failed" = 0 ]
