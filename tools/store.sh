#!/usr/bin/env bash
# Builds what the programs are run on and what they must answer. crates/wln_commands/stdin has the commands of
# tools/story.txt and the generated cases, and crates/wln_commands/stdout the other coder's answers. crates/figures/stdin is the long transcript, in
# which the other coder's answers stand behind the commands, and crates/figures/stdout how many answers of each kind there
# are. With --check nothing is written, and a difference from what is stored is an error.
set -euo pipefail
cd "$(dirname "$0")/.."
made=$(mktemp -d)
trap 'rm -rf "$made"' EXIT
mkdir "$made/wln_commands" "$made/figures"

{
    cat tools/story.txt
    echo "# Every rule of a payload, its ends, and random octets."
    python3 tools/bodies_cases.py
    echo "# The two lines: signs, ends and cuts at every place, static, and the 65,536-byte edge."
    python3 tools/lines_cases.py stored
    echo "# The same recordings under the standard pile."
    python3 tools/lines_cases.py short | sed 's/ plain / standard /'
    echo "# Coded messages: whole, spoiled, wrong, torn, cut and dry."
    python3 tools/standard_cases.py
    echo "# Three Block layers one over the other: whole, spoiled, torn in each of them, cut and dry."
    python3 tools/blocks_cases.py
    echo "# Writing and sending: preambles, counts, space to the octet, several messages, and the 65,536 limit."
    python3 tools/writing_cases.py
    echo "# Stations: every rule of a read and its ends, the filters, and several receptions in turn."
    python3 tools/station_cases.py
} | python3 tools/present.py > "$made/wln_commands/stdin"
python3 tools/wln.py < "$made/wln_commands/stdin" > "$made/wln_commands/stdout"

python3 tools/figures_cases.py | python3 tools/present.py > "$made/commands"
python3 tools/transcript.py < "$made/commands" > "$made/figures/stdin"
python3 tools/transcript.py --summary < "$made/commands" > "$made/figures/stdout"

differs=0

# wln has fewer piles; its stored answers are else those of the other coder.
python3 tools/wln.py < crates/wln/stdin | sed 's/PILE is plain, standard or blocks, or over octets a unit/PILE is plain or standard/' > "$made/answers"
if cmp -s "$made/answers" crates/wln/stdout; then
    echo "crates/wln/stdout: as the other coder answers"
else
    echo "crates/wln/stdout: differs from what the other coder answers"
    differs=1
fi

for file in wln_commands/stdin wln_commands/stdout figures/stdin figures/stdout; do
    if cmp -s "$made/$file" "crates/$file"; then
        echo "crates/$file: as stored"
    elif [ "${1:-}" = --check ]; then
        echo "crates/$file: differs from what the tools make; run tools/store.sh"
        differs=1
    else
        mkdir -p "crates/${file%/*}"
        cp "$made/$file" "crates/$file"
        echo "crates/$file: stored"
    fi
done
exit "$differs"
