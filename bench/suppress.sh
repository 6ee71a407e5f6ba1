#!/usr/bin/env bash
# Times the program `suppress` on full-size inputs, outside the gate. It takes the programs that `rt run` left in crates/*/out.
set -eu
cd "$(dirname "$0")/.."
for program in compose suppress; do
    [ -x "crates/$program/out/$program" ] || { echo "first: (cd crates/$program && rt run < /dev/null)"; exit 1; }
done
input=$(mktemp) page=$(mktemp) took=$(mktemp)
trap 'rm -f "$input" "$page" "$took"' EXIT
echo 'input seed: withheld cells, seconds, kilobytes'
for kind in 'small 1' 'small 2' 'small 3' 'large 1' 'lone 1' 'equal 1' 'one 1' 'narrow 1' 'list 1'; do
    # A settings line and contributions, each of a company of its own.
    python3 - $kind <<'PROGRAM' | crates/compose/out/compose > "$input"
import random
import sys

kind, seed = sys.argv[1], int(sys.argv[2])
draw = random.Random(seed)
inner = [row * 32 + column for row in range(15) for column in range(31)]
settings = {"large": "grid 15 31 p 100", "lone": "grid 15 31 p 100", "equal": "grid 15 31 nk 1 50", "narrow": "grid 1 31 p 100", "list": "list 511 p 20"}
leaves = {"lone": inner, "narrow": range(31)}.get(kind) or [draw.randrange(511) if kind == "list" else draw.choice(inner) for _ in range(2048)]
amount = {
    "small": lambda i: draw.randint(1, 1000),
    "large": lambda i: draw.randint(1, 10**9),
    "lone": lambda i: draw.randint(1, 10**9),
    "equal": lambda i: 10**9,
    "one": lambda i: 10**9 if i == 0 else 1,
    "narrow": lambda i: draw.randint(10**8, 10**9),
    "list": lambda i: draw.randint(1, 1000),
}[kind]
print(settings.get(kind, "grid 15 31 p 20"))
for i, leaf in enumerate(leaves):
    print(leaf, i + 1, amount(i))
PROGRAM
    /usr/bin/time -f '%e, %M' -o "$took" crates/suppress/out/suppress < "$input" > "$page"
    echo "$kind: $(grep -c D "$page") of $(wc -l < "$page"), $(cat "$took")"
done
