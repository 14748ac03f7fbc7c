#!/usr/bin/env bash
# A draft takes no symbol once its symbols were ended. Such a program does not compile, so no must-fail edit can show it; here
# the compiler turns down two programs that try, and takes the same program with a rule line in that place.
set -euo pipefail
cd "$(dirname "$0")/.."
work=$(mktemp -d)
trap 'rm -rf "$work"' EXIT

mkdir -p "$work/crates/late/src"
for crate in rewriting card reading draft; do
    mkdir "$work/crates/$crate"
    cp -R "crates/$crate/src" "crates/$crate/specs" "crates/$crate/proofs" "$work/crates/$crate/"
    grep "^$crate:" crates.txt >>"$work/crates.txt"
done
echo 'late: draft reading card anyhow' >>"$work/crates.txt"

# Tells whether the program with this line compiles and runs.
runs_with() {
    LINE=$1 awk '$1 == "LINE" { print ENVIRON["LINE"]; next } { print }' tests/late_symbol.txt >"$work/crates/late/src/main.rt"
    (cd "$work/crates/late" && rt try >"$work/log" 2>&1)
}

# The program with this line is turned down for this reason.
refused() {
    if runs_with "$2"; then
        echo "late_symbol: taken, and should not be: $2"
        exit 1
    fi
    grep -qF "error[$1]" "$work/log"
    echo "late_symbol: refused by the compiler, as it must be: $2"
}

if ! runs_with 'let _ = ended.take(&symbols, &mut rules, &mut Line::new(b"mix(A,A)=A"));'; then
    echo 'late_symbol: the program with a rule line does not run'
    cat "$work/log"
    exit 1
fi
echo 'late_symbol: a rule line is taken there'
refused mismatched-types 'let _ = SymbolDraft::take(&mut ended, &mut symbols, &rules, &mut Line::new(b"assam/0"));'
refused borrow-e0382 'let _ = draft.take(&mut symbols, &rules, &mut Line::new(b"assam/0"));'
