#!/usr/bin/env bash
# Two misuses must not build. Each is one program over a copy of the crates: as it should be written it builds and runs,
# and with nothing but the misuse in its place it is refused for the type. Nothing is proved here, so it takes seconds.
set -euo pipefail
cd "$(dirname "$0")/.."
copy=$(mktemp -d)
trap 'rm -rf "$copy"' EXIT
tar -c --exclude=out crates crates.txt | tar -x -C "$copy"
mkdir -p "$copy/crates/misuse/src"
echo "misuse: refusal message radio outlets station orders" >> "$copy/crates.txt"

# builds CODE: whether the program with CODE in its place builds and runs.
builds() {
    sed "s|CODE|$1|" > "$copy/crates/misuse/src/main.rt" <<'PROGRAM'
#![tactic(auto)]

use message::draft::Draft;
use message::header::Header;
use orders::send::send;
use outlets::octet_outlet::OctetOutlet;
use radio::outlet::Outlet;

fn main(rt: HostRuntime) {
    let Ok(header) = Header::new(0, None, 1) else {
        return;
    };
    let mut draft = Draft::new(header);
    let _ = draft.add(b"a");
    let mut outlet = OctetOutlet::new(Vec::new(rt.alloc()));
    CODE
}
PROGRAM
    (cd "$copy/crates/misuse" && rt try) > "$copy/log" 2>&1
}

# misuse NAME RIGHT WRONG WORD: the program builds with RIGHT, and with WRONG it is refused by the error WORD.
misuse() {
    local name=$1 right=$2 wrong=$3 word=$4
    if ! builds "$right"; then
        echo "misuse $name: the program that should build does not:"
        cat "$copy/log"
        exit 1
    fi
    if builds "$wrong"; then
        echo "misuse $name: it builds, and must not"
        exit 1
    fi
    if ! grep -q "main.rt.*error\[$word\]" "$copy/log"; then
        echo "misuse $name: refused, but not for the type:"
        cat "$copy/log"
        exit 1
    fi
    echo "misuse $name: does not build, as it must not"
}

misuse "adding to a sealed message" \
    'let _ = draft.add(b"b"); let sealed = draft.seal(); let _ = send(\&mut outlet, \&sealed, 3);' \
    'let mut sealed = draft.seal(); let _ = sealed.add(b"b"); let _ = send(\&mut outlet, \&sealed, 3);' \
    unknown-method

misuse "sending a draft" \
    'let _ = send(\&mut outlet, \&draft.seal(), 3);' \
    'let _ = send(\&mut outlet, \&draft, 3);' \
    mismatched-types
