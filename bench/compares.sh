#!/bin/sh
# Counts the compares of calls on an ordered bag, for orders of links and searches: the most of one link and of one search,
# their sum over all calls, and the bound on that sum. bench/compares.sh [COUNT..], the numbers of objects, by default
# 1,000 to 1,000,000, counts them in a simulation of the tree (bench/compares.c), which needs cc. bench/compares.sh heads
# [COUNT..] counts so the heads that a best region reads, for orders of frees and of pairs of an alloc that fills a gap and
# a free of that block; COUNT is the number of gaps, of which each has a span of its own.
# bench/compares.sh check makes programs of the crates as they stand, in a copy of the tree in which steps are counted at
# run time, counts compares and heads for 1,000 objects and gaps, and ends with status 1 where a count isn't that of the
# simulation. It proves nothing of these programs, whose checked builds are slow.
set -eu
cd "$(dirname "$0")/.."
dir=$(mktemp -d)
trap 'rm -rf "$dir"' EXIT
cc -O2 -o "$dir/compares" bench/compares.c
if [ "${1:-}" = heads ]; then
    shift
    echo "| order of frees and pairs | gaps | pairs | most in a free | most in an alloc | in all calls | bound on these |"
    echo "|---|---|---|---|---|---|---|"
    "$dir/compares" heads ${*:-1000 10000 100000 1000000}
    exit
fi
if [ "${1:-}" != check ]; then
    echo "| order | objects | searches | most in a link | most in a search | in all calls | bound on these |"
    echo "|---|---|---|---|---|---|---|"
    "$dir/compares" ${*:-1000 10000 100000 1000000}
    exit
fi
"$dir/compares" 1000 > "$dir/simulated"
"$dir/compares" heads 1000 >> "$dir/simulated"
tar --exclude=out -cf - crates crates.txt HANDLES | tar -xf - -C "$dir"
cd "$dir"
mkdir -p crates/compares/src
# the holders of a test, and the kind of another that counts its compares
cp crates/vc_cost/src/tests/many.rt crates/vc_store_tests/src/counted.rt crates/compares/src
echo "compares: vc_model vc_base vc_seg vc_dtdisc vc_splay vc_dtlist vc_dtord vc_extent vc_best vc_cost anyhow" >> crates.txt
# a counter of steps, which is none at run time, counts there too
sed -i -e 's/^    marker: PhantomData<L>,/&\n    pub made: u64,/' -e 's/^            marker: PhantomData,/&\n            made: 0,/' \
    -e 's/^    {}$/    {\n        self.made = self.made.wrapping_add(1);\n    }/' -e 's/{ marker: _ }/{ marker: _, made: _ }/' crates/vc_base/src/steps.rt
cat > crates/compares/src/orders.rt <<'END'
use std::alloc::{AllocError, Global};

// The numbers below that in mixed order, by a seed.
pub fn mixed(alloc: Global, count: u32, seed: u64) -> Result<Vec<u32>, AllocError> {
    let mut numbers = Vec::new(alloc);
    for number in 0..count {
        numbers.push(number)?;
    }
    let mut state = seed;
    for last in 0..count as usize {
        state = state.wrapping_mul(6364136223846793005).wrapping_add(1442695040888963407);
        let other = (state >> 33) as usize % (last + 1);
        let number = numbers[last];
        numbers[last] = numbers[other];
        numbers[other] = number;
    }
    Ok(numbers)
}

// The number that is linked or sought in turn j.
pub fn number(order: &str, mixed: &[u32], count: u32, j: u32) -> u32 {
    match order {
        "descending" => count - 1 - j,
        "random" => mixed[j as usize],
        _ => j,
    }
}
END
cat > crates/compares/src/heads.rt <<'END'
use crate::orders::{mixed, number};
use std::alloc::{AllocError, Global};
use vc_base::{Addr, Steps};
use vc_best::Best;
use vc_cost::bound;
use vc_seg::{HeapDisc, SegDisc};

struct Heads;

// A best region, the blocks of each span between others, and what its calls took so far.
#[derive(Drop)]
struct Region {
    best: Best,
    steps: Steps<Heads>,
    blocks: Vec<Addr>,
    calls: u64,
    frees: u64,
    allocs: u64,
    sum: u64,
}

impl Region {
    // In one segment without a gap, blocks of a unit of 32 bytes more each, and one of one unit behind each of them.
    fn new(alloc: Global, mut best: Best, count: u32) -> Result<Region, AllocError> {
        let mut steps: Steps<Heads> = Steps::new(alloc);
        let mut blocks = Vec::new(alloc);
        if let Ok(whole) = best.alloc(32 * (count * (count + 1) / 2 + count) - 16, 32, 0, &mut steps) {
            best.free(whole, &mut steps);
        }
        for number in 1..count + 1 {
            if let Ok(at) = best.alloc(32 * number - 16, 32, 0, &mut steps) {
                blocks.push(at)?;
            }
            let _behind = best.alloc(16, 32, 0, &mut steps);
        }
        Ok(Region {
            best,
            steps,
            blocks,
            calls: 0,
            frees: 0,
            allocs: 0,
            sum: 0,
        })
    }

    fn free(&mut self, number: u32) {
        let before = self.steps.made;
        self.best.free(self.blocks[number as usize], &mut self.steps);
        let made = self.steps.made - before;
        self.calls += 1;
        self.frees = self.frees.max(made);
        self.sum += made;
    }

    fn alloc(&mut self, number: u32) {
        let before = self.steps.made;
        if let Ok(at) = self.best.alloc(32 * number + 16, 32, 0, &mut self.steps) {
            self.blocks[number as usize] = at;
        }
        let made = self.steps.made - before;
        self.calls += 1;
        self.allocs = self.allocs.max(made);
        self.sum += made;
    }

    // The number of the deepest gap.
    fn deepest(&self, alloc: Global) -> Result<u32, AllocError> {
        let mut best = (self.best.root, 0u32);
        let mut left = Vec::new(alloc);
        left.push(best)?;
        while let Some((at, depth)) = left.pop() {
            if depth > best.1 {
                best = (at, depth);
            }
            for k in 0..2u32 {
                let kid = self.best.extents.link(at, k);
                if kid.0 != 0 {
                    left.push((kid, depth + 1))?;
                }
            }
        }
        let mut other: Steps<Heads> = Steps::new(alloc);
        Ok(self.best.extents.span_at(best.0, &mut other) / 32 - 1)
    }
}

// Frees so many blocks in an order, then makes pairs of an alloc that fills a gap and a free of that block, in that order,
// or of the deepest again and again.
pub fn row(rt: &HostRuntime, order: &str, count: u32) -> anyhow::Result<()> {
    let alloc = rt.alloc();
    let frees = mixed(alloc, count, 1)?;
    let pairs = mixed(alloc, count, 2)?;
    let disc = Box::new(alloc, HeapDisc::new(32))?;
    let Ok(best) = Best::open(alloc, disc) else {
        return Ok(());
    };
    let mut region = Region::new(alloc, best, count)?;
    for j in 0..count {
        region.free(number(order, frees.as_slice(), count, j));
    }
    for j in 0..count {
        let filled = if order == "deepest" { region.deepest(alloc)? } else { number(order, pairs.as_slice(), count, j) };
        region.alloc(filled);
        region.free(filled);
    }
    let (free, all, sum) = (region.frees, region.allocs, region.sum);
    let most = bound(region.calls, u64::from(count), 240, 260).unwrap_or(0);
    println!(rt; "| {order} | {count} | {count} | {free} | {all} | {sum} | {most} |")?;
    Ok(())
}
END
cat > crates/compares/src/main.rt <<'END'
//! Counts the compares of calls on an ordered bag, and the heads that calls on a best region read.
#![tactic(auto)]

mod counted;
mod heads;
mod many;
mod orders;

use counted::{Counted, no_compares};
use many::ManyCells;
use orders::{mixed, number};
use std::alloc::{AllocError, Global};
use std::cell::Cell;
use std::env;
use std::rc::Rc;
use vc_base::{Addr, Cells, Steps};
use vc_cost::bound;
use vc_dtord::DtOrd;

struct Compares;

// An ordered bag, and what its calls took so far.
#[derive(Drop)]
struct Bag {
    cells: ManyCells,
    kind: Counted,
    compares: Rc<Cell<u32>>,
    ord: DtOrd,
    steps: Steps<Compares>,
    calls: u64,
    greatest: u32,
    sum: u64,
}

impl Bag {
    // No objects; there are holders of the numbers from 0 on, at the addresses from 1 on.
    fn new(alloc: Global, count: u32) -> Result<Bag, AllocError> {
        let mut held = Vec::new(alloc);
        held.push([0u8; 36])?;
        for number in 0..count {
            let mut bytes = [0u8; 36];
            bytes[32..36].copy_from_slice(&number.to_be_bytes());
            held.push(bytes)?;
        }
        let compares = no_compares(alloc)?;
        Ok(Bag {
            cells: ManyCells { held },
            kind: Counted::new(&compares)?,
            compares,
            ord: DtOrd::new(),
            steps: Steps::new(alloc),
            calls: 0,
            greatest: 0,
            sum: 0,
        })
    }

    // Counts one call more, made since the compares were so many.
    fn note(&mut self, before: u32) {
        let made = self.compares.get().wrapping_sub(before);
        self.calls += 1;
        self.greatest = self.greatest.max(made);
        self.sum += u64::from(made);
    }

    fn link(&mut self, number: u32) {
        let before = self.compares.get();
        self.ord.link(&mut self.cells, &self.kind, Addr(number + 1), &mut self.steps);
        self.note(before);
    }

    fn find(&mut self, number: u32) {
        let before = self.compares.get();
        let key = number.to_be_bytes();
        let _at = self.ord.find(&mut self.cells, &self.kind, &key, false, &mut self.steps);
        self.note(before);
    }

    // The number of the deepest holder.
    fn deepest(&self, alloc: Global) -> Result<u32, AllocError> {
        let mut best = (self.ord.root.0, 0u32);
        let mut left = Vec::new(alloc);
        left.push(best)?;
        while let Some((at, depth)) = left.pop() {
            if depth > best.1 {
                best = (at, depth);
            }
            for k in 0..2u32 {
                let kid = self.cells.load(Addr(at), k) as u32;
                if kid != 0 {
                    left.push((kid, depth + 1))?;
                }
            }
        }
        Ok(best.0 - 1)
    }
}

// Links so many objects in an order, then searches each in that order, or the deepest again and again. That one is looked
// for through the whole tree, so that of many it is sought less often.
fn row(rt: &HostRuntime, order: &str, count: u32) -> anyhow::Result<()> {
    let alloc = rt.alloc();
    let links = mixed(alloc, count, 1)?;
    let finds = mixed(alloc, count, 2)?;
    let searches = if order == "deepest" { count.min(1_000_000_000 / count) } else { count };
    let mut bag = Bag::new(alloc, count)?;
    for j in 0..count {
        bag.link(number(order, links.as_slice(), count, j));
    }
    let linked = bag.greatest;
    bag.greatest = 0;
    for j in 0..searches {
        let sought = if order == "deepest" { bag.deepest(alloc)? } else { number(order, finds.as_slice(), count, j) };
        bag.find(sought);
    }
    let found = bag.greatest;
    let sum = bag.sum;
    let most = bound(bag.calls, u64::from(count), 30, 30).unwrap_or(0);
    println!(rt; "| {order} | {count} | {searches} | {linked} | {found} | {sum} | {most} |")?;
    Ok(())
}

fn main(rt: HostRuntime) -> anyhow::Result<()> {
    let mut words = env::args(&rt)?;
    let _program = words.next();
    for word in words {
        let count: u32 = word.as_str().parse()?;
        for order in ["ascending", "descending", "random", "deepest"] {
            row(&rt, order, count)?;
        }
        for order in ["ascending", "descending", "random", "deepest"] {
            heads::row(&rt, order, count)?;
        }
    }
    Ok(())
}
END
cd crates/compares
rt try --seconds 900 -- 1000 < /dev/null | grep '^|' > "$dir/counted" || true
cat "$dir/counted"
cmp "$dir/counted" "$dir/simulated"
