#!/bin/sh
# Lists every change made to the six published files, file by file: first
# in the crate `published`, then in the crate `ruled`.
#
#   sh changes.sh FOLDER > CHANGES.patch
#
# FOLDER is the one that holds the published crates/wavetable/src.
set -eu
from=${1:?the folder that holds the published crates/wavetable/src}
here=$(dirname "$0")
for file in curve halfband lanes mod phase wave; do
    path=src/shaper/$file.rs
    for crate in published ruled; do
        # diff answers 1 when the two differ.
        LC_ALL=C diff -u --label "wavetable/$path" --label "$crate/$path" \
            "$from/crates/wavetable/$path" "$here/$crate/$path" || [ $? -eq 1 ]
    done
done
