#!/bin/sh
# Measures ranges and operations of ordered paths:
#   bench/ranges.sh range        the instructions that the program 'ranges' takes for a range of 100 in 25,000 and in 100,000
#                                objects of one set, by 'valgrind --tool=callgrind': those of a run with that range without
#                                those of a run with an empty one
#   bench/ranges.sh operations   the compares of a range of 100, of a union, a meet and a difference of two paths of three
#                                ordered sets each, of 1,000 objects a set and of 4,000, or of so many as are named
# The program is crates/ranges/out/ranges, or what RANGES names; where it isn't there it is made and proved. The compares are
# counted by a program of the crates as they stand, in a copy of the tree, which is run without a proof. Run by hand at the
# top of the repository. It needs awk, and valgrind for 'range'.
set -eu
cd "$(dirname "$0")/.."

# Sets $count to the instructions of a run of 'ranges' between two bounds; its input is $dir/words.
count() {
    valgrind --tool=callgrind --callgrind-out-file=/dev/null "$ranges" "$1" "$2" < "$dir/words" 2> "$dir/log" > "$dir/out"
    count=$(awk '/Collected/ { print $4 }' "$dir/log")
}

range() {
    ranges=${RANGES-crates/ranges/out/ranges}
    test -x "$ranges" || (cd crates/ranges && rt run -- a b < stdin > "$dir/log")
    for n in 25000 100000; do
        awk -v n="$n" 'BEGIN { for (i = 0; i < n; i++) printf "w%d ", 1000000 + (i * 7919) % n; print "" }' > "$dir/words"
        count x y
        without=$count
        count "w$((1000000 + n / 2))" "w$((1000000 + n / 2 + 99))"
        test "$(grep -c . "$dir/out")" = 100
        echo "a range of 100 in $n objects: $(((count - without) / 100)) instructions an object"
    done
}

operations() {
    tar --exclude=out -cf - crates crates.txt HANDLES | tar -xf - -C "$dir"
    cd "$dir"
    mkdir -p crates/operations/src
    # the kind of a test that counts its compares
    cp crates/vc_store_tests/src/counted.rt crates/operations/src
    echo "operations: vc_model vc_base vc_seg vc_dtdisc vc_paths vc_dict vc_best vc_region vc_objects vc_algebra" >> crates.txt
    cat > crates/operations/src/main.rt <<'END'
//! Counts the compares of a range and of three operations on two paths of three ordered sets each.
#![tactic(auto)]

mod counted;

use counted::{Counted, no_compares};
use std::alloc::Global;
use std::cell::Cell;
use std::env;
use std::process::ExitCode;
use std::rc::Rc;
use vc_algebra::{Merge, Op, RegionLayers, range_first, range_next};
use vc_base::{DictMethod, OutOfMemory, Steps};
use vc_best::Best;
use vc_dict::{Dicts, Paths};
use vc_region::Region;
use vc_seg::HeapDisc;

struct Compares;

// Puts the first multiples of a number into a set, in an order that jumps.
fn fill(sets: &mut RegionLayers<Counted>, d: u32, count: u32, of: u32, steps: &mut Steps<Compares>) {
    let mut i: u32 = 0;
    for _put in 0..count {
        let number = i.wrapping_mul(of);
        let _fate = sets.insert(d, &number.to_be_bytes(), steps);
        i = i.wrapping_add(89);
        if i >= count {
            i = i.wrapping_sub(count);
        }
    }
}

// So many objects of a range, from one that is there on.
fn range(rt: &HostRuntime, paths: &Paths, sets: &mut RegionLayers<Counted>, n: u32, compares: &Rc<Cell<u32>>, steps: &mut Steps<Compares>) {
    let low = (n / 2).to_be_bytes();
    let high = (n / 2).wrapping_add(99).to_be_bytes();
    compares.set(0);
    let mut shown = 0u32;
    let mut next = match range_first(paths, sets, 0, Some(&low), Some(&high), steps) {
        Ok(first) => first,
        Err(_) => None,
    };
    while let Some(place) = next {
        shown = shown.wrapping_add(1);
        next = range_next(paths, sets, 0, place, Some(&high), steps);
    }
    let made = compares.get();
    let _ = println!(rt; "| range | {n} | {shown} | {made} |");
}

fn operation(rt: &HostRuntime, name: &str, op: Op, paths: &Paths, sets: &mut RegionLayers<Counted>, n: u32, compares: &Rc<Cell<u32>>, steps: &mut Steps<Compares>) {
    compares.set(0);
    let mut shown = 0u32;
    if let Ok(mut merge) = Merge::start(paths, sets, 0, 3, op, steps) {
        while let Some(_place) = merge.next(paths, sets, steps) {
            shown = shown.wrapping_add(1);
        }
    }
    let made = compares.get();
    let _ = println!(rt; "| {name} | {n} | {shown} | {made} |");
}

// The rows of six sets, of which three are seen through the first and three through the fourth: the second views the third,
// and so on.
fn rows(rt: &HostRuntime, alloc: Global, best: Best, n: u32) -> Result<(), OutOfMemory> {
    let compares = no_compares(alloc)?;
    let mut kinds = Vec::new(alloc);
    kinds.push(Counted::new(&compares)?)?;
    let mut sets = RegionLayers { region: Region::Best(best), dicts: Dicts::new(alloc), kinds };
    let mut steps: Steps<Compares> = Steps::new(alloc);
    let mut paths = Paths::new(alloc)?;
    // every number is in the first, so that a range of 100 has 100 objects
    for of in [1u32, 2, 3, 2, 5, 7] {
        let d = sets.open(DictMethod::DtOset, 1)?;
        fill(&mut sets, d, n, of, &mut steps);
    }
    for (d, e) in [(0u32, 1u32), (1, 2), (3, 4), (4, 5)] {
        let _view = paths.view(&sets, d, e);
    }
    range(rt, &paths, &mut sets, n, &compares, &mut steps);
    operation(rt, "union", Op::Union, &paths, &mut sets, n, &compares, &mut steps);
    operation(rt, "meet", Op::Meet, &paths, &mut sets, n, &compares, &mut steps);
    operation(rt, "minus", Op::Minus, &paths, &mut sets, n, &compares, &mut steps);
    Ok(())
}

// The rows for a word, a number of objects.
fn rows_for(rt: &HostRuntime, word: &str) -> Result<(), OutOfMemory> {
    let Ok(n) = word.parse() else {
        return Ok(());
    };
    let alloc = rt.alloc();
    match Best::open(alloc, Box::new(alloc, HeapDisc::new(65_536))?) {
        Ok(best) => rows(rt, alloc, best, n),
        Err(_) => Ok(()),
    }
}

fn main(rt: HostRuntime) -> ExitCode {
    let Ok(mut words) = env::args(&rt) else {
        return ExitCode::FAILURE;
    };
    let _program = words.next();
    for word in words {
        let Ok(()) = rows_for(&rt, word.as_str()) else {
            return ExitCode::FAILURE;
        };
    }
    ExitCode::SUCCESS
}
END
    echo '| call | objects a set | shown | compares |'
    echo '|---|---|---|---|'
    cd crates/operations
    rt try --seconds 900 --steps 2000000000 -- "$@" < /dev/null > "$dir/told" 2> "$dir/fault" || { cat "$dir/fault" >&2; exit 1; }
    grep '^|' "$dir/told"
}

dir=$(mktemp -d)
trap 'rm -rf "$dir"' EXIT
case "${1-}" in
    range) range ;;
    operations) shift; [ $# -gt 0 ] || set -- 1000 4000; operations "$@" ;;
    *) echo "usage: bench/ranges.sh range|operations [COUNT].." >&2; exit 2 ;;
esac
