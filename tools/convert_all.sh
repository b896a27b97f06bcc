#!/bin/bash
# convert_all.sh CRATE..: gets the crate's names.json (libraries below passed as source, no proof checked) and turns its Proof.antt files.
# NAMES=DIR is where names.json is kept (default target/old-names); other arguments in CONVERT_FLAGS, as --remove.
here=$(cd "$(dirname "$0")" && pwd)
root=$(dirname "$here")
names=${NAMES:-$root/target/old-names}
mkdir -p "$names"
for c in "$@"; do
    rm -rf "$names/$c"
    if ! python3 "$here/old_names.py" "$root/crates/$c" "$names/$c" > "$names/$c.log" 2>&1 || [ ! -f "$names/$c/names.json" ]; then
        echo "$c: no names.json:"; grep error "$names/$c.log" | head -5; continue
    fi
    python3 "$here/convert_proofs.py" "$root/crates/$c" "$names/$c/names.json" $CONVERT_FLAGS
done
