#!/usr/bin/env bash
# Times the search for the least round beside two other solvers, on the same charts, and prints a table: see README.md.
#     bench/run.sh [FOLDER]
# FOLDER has to be missing or empty, and keeps the programs and the charts; without it a folder is made and removed.
set -eu
root=$(cd "$(dirname "$0")/.." && pwd -P)
if [ $# -gt 0 ]; then
    mkdir -p "$1"
    folder=$(cd "$1" && pwd -P)
else
    folder=$(mktemp -d)
    trap 'rm -rf "$folder"' EXIT
fi
case $folder/ in "$root"/*)
    echo "bench: $folder stands within the repository, where the bench program may not" >&2
    exit 2
    ;;
esac
if [ -n "$(ls -A "$folder")" ]; then
    echo "bench: $folder is not empty" >&2
    exit 2
fi

if ! printf '#include <boost/graph/%s.hpp>\n' adjacency_list howard_cycle_ratio | g++ -fsyntax-only -x c++ - 2>/dev/null; then
    echo "bench: g++ and Boost's graph headers are needed (on Debian: apt-get install g++ libboost-dev)" >&2
    exit 2
fi
g++ -std=c++17 -O3 -march=native -Wall -o "$folder/peers" "$root/bench/peers.cpp"

# A repository of the crates that the search stands on, and of the bench program, which stands outside the tree.
tree=$folder/bench_tree
bash "$root/tools/copy_crates.sh" search "$tree" find_bench anyhow

# It is proved over the proved crates, and compiled as a program of the tree is.
cat >"$tree/crates/find_bench/src/main.rt" <<'END'
// Charts, the least round of each, and how long finding it takes. The charts and what was found are printed, one number
// after another, so that another program can read them; without an argument nothing is done.
#![tactic(auto)]

ghost use Rattle.std.specs.Prelude.{◌<◌};

use charts::{Leg, WrittenChart};
use costs::Money;
use search::find_least;
use std::alloc::{AllocError, Global};
use std::time::Instant;
use std::{env, io};

// The lent work area of a search.
#[derive(Drop)]
struct Area {
    costs: [Money; 768],
    numbers: Vec<u32>,
    round: [u16; 256],
}

fn new_area(alloc: Global) -> Result<Area, AllocError> {
    Ok(Area {
        costs: [Money { dollars: 0 }; 768],
        numbers: vec![in alloc; 0u32; 65_792]?,
        round: [0; 256],
    })
}

fn next_state(state: u64) -> u64 {
    state
        .wrapping_mul(6_364_136_223_846_793_005)
        .wrapping_add(1_442_695_040_888_963_407)
}

// A number below `bound`, from the high bits of a state.
fn pick(state: u64, bound: u32) -> u32
    requires { 0 < bound }
    ensures { result < bound }
{
    (state >> 33) as u32 % bound
}

// From each port so many legs, each to a port at random, of 1 to 999 hours and -1,000 to 1,000 dollars.
fn random_chart(
    alloc: Global,
    ports: u16,
    degree: u16,
    seed: u64,
) -> Result<Vec<Option<Leg<Money>>>, AllocError>
    requires { 0 < ports }
{
    let mut table = Vec::new(alloc);
    let mut state = next_state(seed);
    for from in 0..ports {
        for _ in 0..degree {
            state = next_state(state);
            let to = pick(state, ports as u32) as u16;
            state = next_state(state);
            let hours = pick(state, 999) + 1;
            state = next_state(state);
            let dollars = pick(state, 2_001) as i64 - 1_000;
            table.push(Some(Leg {
                from,
                to,
                hours,
                cost: Money { dollars },
            }))?;
        }
    }
    Ok(table)
}

// One ring through 256 ports, every leg at its limits.
fn ring(alloc: Global) -> Result<Vec<Option<Leg<Money>>>, AllocError> {
    let mut table = Vec::new(alloc);
    for from in 0u16..256 {
        table.push(Some(Leg {
            from,
            to: (from + 1) % 256,
            hours: 9_999,
            cost: Money {
                dollars: 999_999_999,
            },
        }))?;
    }
    Ok(table)
}

// From each port a leg on to the next one and a leg back to port 0: the longer a round, the cheaper.
fn nested(alloc: Global) -> Result<Vec<Option<Leg<Money>>>, AllocError> {
    let mut table = Vec::new(alloc);
    for from in 0u16..255 {
        table.push(Some(Leg {
            from,
            to: from + 1,
            hours: 1,
            cost: Money { dollars: -1 },
        }))?;
        table.push(Some(Leg {
            from: from + 1,
            to: 0,
            hours: 1,
            cost: Money { dollars: 0 },
        }))?;
    }
    Ok(table)
}

// So many searches, one after another; the sum of the hours found, so that none is left out.
fn search_often(chart: &WrittenChart<Money>, area: &mut Area, calls: u32) -> u64 {
    let mut hours: u64 = 0;
    for _ in 0..calls {
        if let Ok(held) = find_least(chart, &mut area.costs, &mut area.numbers, &mut area.round) {
            hours = hours.wrapping_add(held.rate.hours);
        }
    }
    hours
}

// The nanoseconds of so many searches.
fn time_calls(
    rt: &HostRuntime,
    chart: &WrittenChart<Money>,
    area: &mut Area,
    calls: u32,
) -> io::Result<u128> {
    let start = Instant::now(rt)?;
    let hours = search_often(chart, area, calls);
    let span = start.elapsed(rt)?;
    eprintln!(rt; "{calls} calls, {hours} hours in all")?;
    Ok(span.as_nanos())
}

// As many calls as take 2 milliseconds, in doublings from 1.
fn enough_calls(rt: &HostRuntime, chart: &WrittenChart<Money>, area: &mut Area) -> io::Result<u32> {
    let mut calls: u32 = 1;
    for _ in 0..16 {
        if time_calls(rt, chart, area, calls)? >= 2_000_000 {
            return Ok(calls);
        }
        calls = calls.saturating_mul(2);
    }
    Ok(calls)
}

// The least time of 15 runs of as many calls.
fn least_time(
    rt: &HostRuntime,
    chart: &WrittenChart<Money>,
    area: &mut Area,
    calls: u32,
) -> io::Result<u128> {
    let mut least = time_calls(rt, chart, area, calls)?;
    for _ in 0..14 {
        let span = time_calls(rt, chart, area, calls)?;
        if span < least {
            least = span;
        }
    }
    Ok(least)
}

fn tell_legs(rt: &HostRuntime, table: &[Option<Leg<Money>>]) -> io::Result<()> {
    for place in table {
        if let Some(leg) = place {
            println!(rt;
                "{} {} {} {}",
                leg.from, leg.to, leg.hours, leg.cost.dollars
            )?;
        }
    }
    Ok(())
}

fn tell_round(rt: &HostRuntime, round: &[u16], legs: usize) -> io::Result<()> {
    print!(rt; "{legs}")?;
    for i in 0..legs {
        if i < round.len() {
            print!(rt; " {}", round[i])?;
        }
    }
    println!(rt; "")
}

fn tell_least(
    rt: &HostRuntime,
    chart: &WrittenChart<Money>,
    area: &mut Area,
) -> anyhow::Result<()> {
    match find_least(chart, &mut area.costs, &mut area.numbers, &mut area.round) {
        Ok(held) => {
            println!(rt; "{} {}", held.rate.cost.dollars, held.rate.hours)?;
            tell_round(rt, &area.round, held.legs)?;
        }
        Err(refusal) => println!(rt; "refused {}", refusal.number())?,
    }
    Ok(())
}

// A chart: its name, ports, legs, each leg; then what was found, and the calls and the nanoseconds that they took.
fn measure(
    rt: &HostRuntime,
    name: &str,
    ports: usize,
    table: &mut [Option<Leg<Money>>],
) -> anyhow::Result<()> {
    println!(rt; "{name} {ports} {}", table.len())?;
    tell_legs(rt, table)?;
    let mut area = new_area(rt.alloc())?;
    let chart = WrittenChart::open(ports, table);
    tell_least(rt, &chart, &mut area)?;
    let calls = enough_calls(rt, &chart, &mut area)?;
    let span = least_time(rt, &chart, &mut area, calls)?;
    println!(rt; "{calls} {span}")?;
    Ok(())
}

// Eight charts of one size.
fn measure_random(rt: &HostRuntime, name: &str, ports: u16, degree: u16) -> anyhow::Result<()>
    requires { 0 < ports }
{
    for seed in 1u64..9 {
        let mut table = random_chart(rt.alloc(), ports, degree, seed)?;
        measure(rt, name, ports as usize, &mut table)?;
    }
    Ok(())
}

fn run(rt: &HostRuntime) -> anyhow::Result<()> {
    measure_random(rt, "random", 16, 4)?;
    measure_random(rt, "random", 16, 16)?;
    measure_random(rt, "random", 64, 4)?;
    measure_random(rt, "random", 64, 16)?;
    measure_random(rt, "random", 256, 4)?;
    measure_random(rt, "random", 256, 16)?;
    measure(rt, "ring", 256, &mut ring(rt.alloc())?)?;
    measure(rt, "nested", 256, &mut nested(rt.alloc())?)
}

fn main(rt: HostRuntime) -> anyhow::Result<()> {
    if env::args(&rt)?.count() > 1 {
        run(&rt)?;
    }
    Ok(())
}
END
if ! (cd "$tree/crates/find_bench" && rt run) >"$folder/build.log" 2>&1; then
    tail -20 "$folder/build.log" >&2
    echo "bench: the bench program is not proved" >&2
    exit 1
fi

if ! "$tree/crates/find_bench/out/find_bench" run >"$folder/found" 2>"$folder/calls"; then
    tail -5 "$folder/calls" >&2
    echo "bench: the bench program failed" >&2
    exit 1
fi
"$folder/peers" <"$folder/found"
