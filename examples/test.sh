#!/bin/sh
# Runs the examples end to end: test.sh FOLDER, the folder of the built examples.
set -eu
bin=$(cd "$1" && pwd)
dir=$(mktemp -d)
trap 'rm -rf "$dir"' EXIT
cd "$dir"

# expect STATUS COMMAND...: the command ends with that status.
expect() {
    want=$1
    shift
    got=0
    "$@" || got=$?
    if [ "$got" -ne "$want" ]; then
        echo "failed: $* ended with $got and not $want" >&2
        exit 1
    fi
}

# refused MESSAGE COMMAND...: the command ends with status 2 and says just that.
refused() {
    want=$1
    shift
    got=0
    said=$("$@" 2>&1) || got=$?
    echo "$said"
    if [ "$got" -ne 2 ] || [ "$said" != "$want" ]; then
        echo "failed: $* ended with $got and not 2, or did not say: $want" >&2
        exit 1
    fi
}

# damage PLACE: writes the clip with that byte altered.
damage() {
    { head -c "$1" clip; printf 'x'; tail -c +$(($1 + 2)) clip; } > damaged
}

# bytes FILE COUNT: the file has that many bytes.
bytes() {
    if [ "$(wc -c < "$1")" -ne "$2" ]; then
        echo "failed: $1 has not $2 bytes" >&2
        exit 1
    fi
}

# plays_part IMAGE RAW FIRST COUNT: that part of an image is that part of what all of it plays.
plays_part() {
    "$bin/part" "$1" "$3" "$4" 2> said > part.raw
    tail -c +$((2 * $3 + 1)) "$2" | head -c $((2 * $4)) | cmp - part.raw
}

for samples in 1 14 15 1000 48000; do
    expect 0 "$bin/encode" clip $samples 4096
    expect 0 "$bin/encode" fine $samples 15
    expect 0 "$bin/play" clip clip.raw
    expect 0 "$bin/play" fine fine.raw
    bytes clip.raw $((2 * samples))
    cmp clip.raw fine.raw
    # In other blocks: another image of the same sound. Encoded once more: the same.
    expect 1 "$bin/compare" clip fine
    expect 0 "$bin/encode" again $samples 4096
    expect 0 "$bin/compare" clip again
    # At another rate.
    damage 11
    expect 1 "$bin/compare" clip damaged
    # As studios exchange it: one file, in whichever blocks it was.
    expect 0 "$bin/dsp_file" clip clip.dsp
    expect 0 "$bin/dsp_file" fine fine.dsp
    cmp clip.dsp fine.dsp
    # As a trim screen and as a player do: from the middle, and all in pieces.
    plays_part fine fine.raw $((samples / 2)) 200
    plays_part fine fine.raw 0 $samples
    plays_part fine fine.raw $((samples - 1)) 200
done
# Across the edge of two blocks: they have 7168 samples each.
plays_part clip clip.raw 7068 200
if [ "$(cat said)" != "from 7068: samples 200, blocks 2" ]; then
    echo "failed: not 200 samples and 2 blocks: $(cat said)" >&2
    exit 1
fi
# No number, and one of more than 32 bits.
expect 2 "$bin/part" clip x 200
expect 2 "$bin/part" clip -1 200
expect 2 "$bin/part" clip 4294967297 200
expect 2 "$bin/part" clip 0 ''
# Many blocks: one call tests the table once.
expect 0 "$bin/encode" long 1000000 8
expect 0 "$bin/play" long long.raw
bytes long.raw 2000000

expect 0 "$bin/encode" other 48000 4096 555
expect 3 "$bin/compare" clip other

# Refused, each with its message: no clip, bad block sizes, a cut and a damaged image.
expect 2 "$bin/encode" none 0
expect 2 "$bin/encode" none 100 7
expect 2 "$bin/encode" none 100 65537
refused "play from: the first sample is not in the clip (refusal 19)" "$bin/part" clip 48000 0
head -c 1000 clip > cut
expect 2 "$bin/play" cut cut.raw
expect 2 "$bin/compare" clip cut
# The offset of block 0, the zero bytes of block 3, the header of block 6 and the first byte of body 1, of 7 blocks.
damage 56
refused "open: block 0: the entry's offset is not where the block's body begins (refusal 20)" "$bin/play" damaged damaged.raw
damage 119
refused "same: block 3: the entry's length or its zero bytes are wrong (refusal 21)" "$bin/compare" clip damaged
damage 161
refused "same: block 6: the entry's predictor-and-scale is not the body's first byte (refusal 22)" "$bin/compare" damaged clip
damage $((56 + 16 * 7 + 4096))
refused "open: block 1: the entry's predictor-and-scale is not the body's first byte (refusal 22)" "$bin/play" damaged damaged.raw
# The history of block 2, which block 1 does not leave.
damage $((56 + 16 * 2 + 10))
refused "export: block 2: it does not begin from what the block before it leaves, which a .dsp file cannot hold (refusal 35)" "$bin/dsp_file" damaged damaged.dsp
for file in none cut.raw damaged.raw damaged.dsp; do
    if [ -e $file ]; then
        echo "failed: $file was written" >&2
        exit 1
    fi
done

expect 0 "$bin/refusals"
# The image that docs/FORMAT.md explains byte by byte.
expect 0 "$bin/encode" shown 20 15
shown=445350430000001400007d00000000080890fd83072cffc9$(printf '%048d' 0)0000000000000002
shown=${shown}0000005800000010001b00000000000000000060000000080016fd08fc480000
shown=${shown}1b8000000000001016c63120
if [ "$(od -An -v -tx1 shown | tr -d ' \n')" != "$shown" ]; then
    echo "failed: the image is not the one in docs/FORMAT.md" >&2
    exit 1
fi

expect 0 "$bin/loop"
expect 0 "$bin/undo"
expect 0 "$bin/floating"
expect 0 "$bin/round_trip"
echo "examples: all as expected"
