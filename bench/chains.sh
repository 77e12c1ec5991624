#!/bin/sh
# Times moves of nodes between the lists of index_chains: see README.md beside this file.
set -eu

top=$(cd "$(dirname "$0")/.." && pwd)
folder=$(mktemp -d)
trap 'rm -rf "$folder"' EXIT
program=$folder/crates/chains_bench

mkdir -p "$program/src" "$program/proofs/fill" "$program/proofs/scramble"
(cd "$top" && tar cf - --exclude=out crates/cc_base crates/index_chains) | (cd "$folder" && tar xf -)
grep -E '^(cc_base|index_chains):' "$top/crates.txt" > "$folder/crates.txt"
echo 'chains_bench: index_chains anyhow' >> "$folder/crates.txt"

cat > "$program/src/main.rt" <<'EOF'
// Moves nodes between lists, and prints how long a move takes.
#![tactic(auto)]

ghost use Rattle.std.specs.Prelude.{◌≡◌, ◌<◌, length};

use anyhow::Result;
use index_chains::Chains;
use std::time::Instant;

const HEADS: u32 = 1024;
const MOVES: u64 = 4_000_000;
// A prime step, so that a walk in such steps comes to every node, and to far cells.
const STEP: u64 = 7919;

// Puts each node in a list.
fn fill(chains: &mut Chains, nodes: u32)
    requires heads { length chains.old.lists ≡ HEADS }
    requires nodes { chains.old.nodes ≡ nodes }
    ensures heads { length chains.new.lists ≡ HEADS }
    ensures nodes { chains.new.nodes ≡ nodes }
{
    for node in 0..nodes {
        if !chains.is_linked(node) {
            chains.push_front(node % HEADS, node);
        }
    }
}

// Takes nodes out of their lists and puts them first in others.
fn scramble(chains: &mut Chains, nodes: u32)
    requires heads { length chains.old.lists ≡ HEADS }
    requires nodes { chains.old.nodes ≡ nodes }
    requires some { 0 < nodes }
{
    for turn in 0..MOVES {
        let node = (turn * STEP % u64::from(nodes)) as u32;
        if chains.is_linked(node) {
            chains.unlink(node);
            chains.push_front((turn % u64::from(HEADS)) as u32, node);
        }
    }
}

fn main(rt: HostRuntime) -> Result<()> {
    for nodes in [1_000, 10_000, 100_000, 1_000_000] {
        let mut chains = Chains::new(rt.alloc(), HEADS, nodes)?;
        fill(&mut chains, nodes);
        if nodes > 0 {
            let start = Instant::now(&rt)?;
            scramble(&mut chains, nodes);
            let time = start.elapsed(&rt)?;
            let nanos = time.as_secs().saturating_mul(1_000_000_000).saturating_add(u64::from(time.subsec_nanos()));
            let each = nanos / MOVES;
            println!(rt; "{nodes:>9} nodes: {each:>4} ns a move")?;
        }
    }
    Ok(())
}
EOF

for loop in fill:node scramble:turn; do
    name=${loop%:*}
    variable=${loop#*:}
    cat > "$program/proofs/$name/Invariants.antt" <<EOF
use Rattle.std.proofs.Common.{◌≡◌, length}
use Rattle.chains_bench.proofs.$name.Given as goal

abbrev pub invariant-loop-$variable : goal.invariant-loop-$variable
invariant-loop-$variable l = (length l.chains.lists ≡ 1024) × (l.chains.nodes ≡ l.nodes)
EOF
done
echo > "$program/proofs/Lib.antt"

cd "$program"
rt run 2> "$folder/log" || { cat "$folder/log" >&2; exit 1; }
