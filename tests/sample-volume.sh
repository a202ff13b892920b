#!/usr/bin/env bash
# Writes a sample volume of 448 bytes to the file that it is given: one Standalone MM driver, an image of EFI byte code that
# registers a handler. With the word `two` behind the file's name the volume has 776 bytes and a second driver, whose entry asks for
# a port without a rule, and fails since that is denied. All numbers are stored with their lowest byte first. `mm_main check FILE`
# lists its files, and `mm_main boot FILE` starts them.
set -eu
if [ $# = 1 ]; then
    drivers=one
elif [ $# = 2 ] && [ "$2" = two ]; then
    drivers=two
else
    echo "usage: $0 FILE [two]" >&2
    exit 1
fi

# bytes HEX..: these bytes.
bytes() {
    local digits
    digits=$(printf '%s' "$@")
    # shellcheck disable=SC2059
    printf "$(printf '%s' "$digits" | sed 's/../\\x&/g')"
}

# zeros COUNT: so many bytes of 0.
zeros() { head -c "$1" /dev/zero; }

# volume_header LENGTH CHECKSUM: the volume's header, 72 bytes, with the volume's length in 4 bytes and the header's checksum in 2.
# The sum over its 16-bit words is 0.
volume_header() {
    zeros 16                                # ZeroVector, which nobody reads
    bytes 78e58c8c3d8a1c4f9935896185c32dd3  # the file system: FFS2, 8c8ce578-8a3d-4f1c-9935-896185c32dd3
    bytes "$1" 00000000                     # the volume's length
    bytes 5f465648                          # the signature: _FVH
    bytes 00080000                          # attributes: what is erased reads as ones
    bytes 4800                              # the header's length: 72
    bytes "$2"                              # the header's checksum
    bytes 0000                              # the extended header: none
    bytes 00 02                             # a reserved byte; revision 2
    bytes 01000000 "$1"                     # the block map: 1 block with all bytes of the volume
    bytes 00000000 00000000                 # its end
}

# The header of the first file, 24 bytes, at 72. Its bytes sum up to 0, with the file's checksum and its state as 0.
file_header() {
    bytes aaaaaaaa000000000000000000000001  # the name: aaaaaaaa-0000-0000-0000-000000000001
    bytes d4                                # the header's checksum
    bytes aa                                # the body's checksum: none is asked for
    bytes 0e                                # the type: a Standalone MM driver
    bytes 00                                # attributes: the body has no checksum
    bytes 740100                            # the size with this header: 372
    bytes f8                                # the state: the data is valid; erased bits are ones, so it is inverted
}

# The section of the dependency expression, at 96 (and of the second file at 472), and 2 bytes up to the next multiple of 4.
expression_section() {
    bytes 060000 1c                         # 6 bytes with this header; the type: MM dependency expression
    bytes 06 08                             # TRUE, END
    bytes 0000
}

# The section of the first image, 340 bytes, at 104.
image_section() {
    bytes 540100 10                         # 340 bytes with this header; the type: PE32
    image_headers 60010000 50000000         # the image has 160 bytes, 50 of them in its section (both hexadecimal)
    image_code
}

# image_headers IMAGE SECTION: an image's headers, 256 bytes, with how many bytes the image and its one section have, in 4 bytes each.
image_headers() {
    bytes 4d5a; zeros 58; bytes 40000000    # MZ; the PE header stands at 40 (hexadecimal, as all places in this image)
    bytes 50450000                          # PE
    bytes bc0e 0100                         # the machine: EFI byte code; one section
    zeros 12; bytes 7000 0000               # the optional header has 112 bytes
    bytes 0b02; zeros 14                    # PE32+
    bytes 00010000; zeros 12                # the entry: 100; ImageBase 0
    bytes 20000000; zeros 20                # sections stand at multiples of 20
    bytes "$1" 00010000                     # how many bytes the image has; its headers have 100
    zeros 4; bytes 0b00; zeros 42           # the subsystem: an EFI boot service driver; no directories
    zeros 8                                 # the section, without a name:
    bytes "$2" 00010000                     # its bytes at 100
    bytes "$2" 00010000                     # from as many bytes at 100 of the file
    zeros 12; bytes 20000060                # code that may be read and executed
    zeros 16
}

# The first image's code, 80 bytes: the entry registers the handler for the GUID behind it; the handler reads a byte from port 70.
image_code() {
    bytes 60811800 6b05 2004 6b04           # R1 = @R0(+24); PUSH64 R5; R4 = R0; PUSH64 R4
    bytes 79023200 6b02                     # MOVREL R2, the GUID; PUSH64 R2
    bytes 79020e00 6b02                     # MOVREL R2, the handler; PUSH64 R2
    bytes 60139001 0323                     # R3 = R1(+400), service 9, which registers a handler; a native call
    bytes 60002000 0400                     # R0 = R0(+32); RET
    bytes 60812000 6b01                     # the handler: R1 = @R0(+32); PUSH64 R1
    bytes 77327000 6b02 77320100 6b02       # R2 = 70; PUSH64 R2; R2 = 1; PUSH64 R2
    bytes 60133752 0323                     # R3 = R1(+4536), service 12, which reads a port; a native call
    bytes 60001800 0400                     # R0 = R0(+24); RET
    bytes 11111111222233334444555555555555  # the GUID 11111111-2222-3333-4444-555555555555
}

# The header of the second file, 24 bytes, at 448.
second_file_header() {
    bytes bbbbbbbb000000000000000000000002  # the name: bbbbbbbb-0000-0000-0000-000000000002
    bytes bd                                # the header's checksum
    bytes aa 0e 00                          # the body's checksum, the type and attributes: as in the first file
    bytes 460100                            # the size with this header: 326
    bytes f8                                # the state: the data is valid
}

# The section of the second image, 294 bytes, at 480.
second_image_section() {
    bytes 260100 10                         # 294 bytes with this header; the type: PE32
    image_headers 40010000 22000000         # the image has 140 bytes, 22 of them in its section (both hexadecimal)
    second_image_code
}

# The second image's code, 34 bytes: the entry asks to read a byte of port 72, and returns the status that it is answered.
second_image_code() {
    bytes 60811800                          # R1 = @R0(+24), the address of the service page
    bytes 6b05 2004                         # PUSH64 R5, room for the number that is read; R4 = R0, its address
    bytes 6b04                              # PUSH64 R4, the third argument: where the number goes
    bytes 77327200 6b02                     # R2 = 72; PUSH64 R2, the second argument: the port
    bytes 77320100 6b02                     # R2 = 1; PUSH64 R2, the first argument: the width
    bytes 6013c001 0323                     # R3 = R1(+448), service 12, which reads a port; a native call
    bytes 60002000 0400                     # R0 = R0(+32), past the room and the arguments; RET with the service's status
}

{
    case $drivers in
    one) volume_header c0010000 51ea ;;     # 448 bytes
    two) volume_header 08030000 c1e7 ;;     # 776 bytes
    esac
    file_header
    expression_section
    image_section
    bytes ffffffff                          # what is erased behind the file, up to the next multiple of 8
    if [ "$drivers" = two ]; then
        second_file_header
        expression_section
        second_image_section
        bytes ffff                          # what is erased behind the file
    fi
} > "$1"
