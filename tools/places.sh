#!/bin/sh
# Lists the lines among which the places of each point lie, one command for each point.
# tools/places.sh [POINT]
cd "$(dirname "$0")/.." || exit 1
src=$(find crates/*/src -name '*.rt' | sort)
p1() { grep -nE ': bool,|-> bool|\b(kind|class|source|letter): u(8|16)\b|\(u16, usize\)|\(bool, |^ +number: u16,$|-> anyhow::Result<u16>' $src; }
p2() { d=$(mktemp -d); for f in $src; do mkdir -p "$d/$(dirname "$f")"; cp "$f" "$d/${f%.rt}.rs"; done; duplicates --repo "$d" --min-lines 5 --most 200 | grep '^D'; rm -r "$d"; }
p3() { grep -nE '^ *(for|while|loop)\b' $src; }
p4() { grep -nE 'fn ([a-z]+_of|of_[a-z]+|same_[a-z]+|put_[a-z]+|number|fields|mark)\b|as u8 == | as u(8|16|32|64|size)\b' $src; }
p5() { cat $src | grep -oE 'requires [a-z_]* *\{.*\}' | sed 's/^requires [a-z_]* *//; s/\.old/.now/g' | sort | uniq -c | awk '$1 > 2'; grep -cE 'shortfalls: &' $src | grep -v ':0$'; }
p6() { grep -nE '(let mut |let |^ +(pub )?)[a-z_]+(: [^=;]*)?(=| )[^=]*\[[^];]*; [A-Za-z0-9_]+\]|: Vec<' $src; }
p7() { grep -nE 'match (letter|line\.letter|phase|kind|call|spot|shape|field|place % 3)\b' $src; }
p8() { for c in crates/*/proofs; do echo "$c $(find $c -name Answers.antt -exec cat {} + | grep -cE '^pub [^ ]+ : goal\.') answers, $(find $c -name '*.antt' -exec cat {} + | wc -l) lines"; done; }
for p in ${1:-1 2 3 4 5 6 7 8}; do echo "point $p"; p$p | sed 's/^/  /'; done
