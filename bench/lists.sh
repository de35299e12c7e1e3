#!/bin/sh
# What a change of one client's list of subscriptions costs where 64 clients subscribe to 30 pairs each: with the counts that
# `Subscriptions` keeps, and where the merge is put together anew of all lists. In a program of a few lines that is built in a
# copy of the crates that this needs. Best and mean of 1,999 changes of one pair each, behind which both merges are compared.
top=$(CDPATH= cd -- "$(dirname -- "$0")/.." && pwd) || exit 70
. "$top/bench/needs.sh"
. "$top/bench/copied.sh"
needs "the Rattle kit" rt
folder=$(mktemp -d) || exit 70
trap 'rm -rf "$folder"' EXIT
trap 'exit 130' INT TERM
program=$folder/crates/time_lists
mkdir -p "$program/src" "$program/proofs/join_all"
copied "$folder" kit_bytes subscriptions
echo 'time_lists: subscriptions uuid' >>"$folder/crates.txt"
cat >"$program/src/main.rt" <<'P'
#![tactic(auto)]
ghost use Rattle.std.specs.Prelude.{◌≡◌, []};

use std::alloc::{AllocError, Global};
use std::io;
use std::time::Instant;
use subscriptions::{ClientList, LONGEST_CLIENT_LIST, LONGEST_LIST, Pair, PairList, Subscriptions, normalize};
use uuid::Uuid;

const CHANGES: u32 = 2_000;

// Times of all changes together, and of the quickest, in nanoseconds.
#[derive(Clone, Copy)]
struct Times {
    all: u128,
    least: u128,
}

impl Times {
    fn none() -> Self {
        Times {
            all: 0,
            least: u128::MAX,
        }
    }

    fn add(&mut self, time: u128) {
        self.all = self.all.saturating_add(time);
        self.least = self.least.min(time);
    }

    fn mean(&self) -> u128 {
        self.all / u128::from(CHANGES - 1)
    }
}

// For clients that have no pair in common, and for clients that have all but one of their pairs in common.
fn main(rt: HostRuntime) -> io::Result<()> {
    measure(&rt, "apart", true)?;
    measure(&rt, "in common", false)?;
    Ok(())
}

fn measure(rt: &HostRuntime, name: &str, apart: bool) -> io::Result<()> {
    let mut list = PairList::open(rt.alloc())?;
    let lists = lists_of(rt.alloc(), &mut list, apart)?;
    let mut table = table_of(rt.alloc(), &mut list, apart)?;
    compare(rt, name, apart, &lists, &mut list, &mut table)?;
    Ok(())
}

fn compare(
    rt: &HostRuntime,
    name: &str,
    apart: bool,
    lists: &[ClientList],
    list: &mut PairList,
    table: &mut Subscriptions,
) -> io::Result<()> {
    let mut anew = Vec::with_capacity(rt.alloc(), LONGEST_LIST)?;
    time_both(rt, name, apart, lists, list, table, &mut anew)?;
    Ok(())
}

fn time_both(
    rt: &HostRuntime,
    name: &str,
    apart: bool,
    lists: &[ClientList],
    list: &mut PairList,
    table: &mut Subscriptions,
    anew: &mut Vec<Pair>,
) -> io::Result<()> {
    let mut counted = Times::none();
    let mut merged = Times::none();
    for change in 1..CHANGES {
        let client = (change % 64) as u8;
        write_list(list, client, change / 64, apart);
        let start = Instant::now(rt)?;
        let _ = table.set(u64::from(client) + 1, list);
        counted.add(start.elapsed(rt)?.as_nanos());
        let start = Instant::now(rt)?;
        put_together(lists, anew);
        merged.add(start.elapsed(rt)?.as_nanos());
    }
    set_all(table, list, apart);
    let same = table.merged_list().pairs() == anew.as_slice();
    let pairs = anew.len();
    println!(rt; "{name}: {pairs} pairs, counted {} ns at best and {} in the mean, anew {} and {}, the same: {same}", counted.least, counted.mean(), merged.least, merged.mean())?;
    Ok(())
}

fn lists_of(alloc: Global, list: &mut PairList, apart: bool) -> Result<Vec<ClientList>, AllocError> {
    let mut lists = Vec::new(alloc);
    for client in 0..64u8 {
        write_list(list, client, 0, apart);
        let mut own = ClientList::new();
        if list.len() <= LONGEST_CLIENT_LIST {
            own.set(list);
        }
        lists.push(own)?;
    }
    Ok(lists)
}

fn table_of(alloc: Global, list: &mut PairList, apart: bool) -> Result<Subscriptions, AllocError> {
    let mut table = Subscriptions::open(alloc)?;
    join_all(&mut table);
    set_all(&mut table, list, apart);
    Ok(table)
}

fn join_all(table: &mut Subscriptions)
    requires { table.old ≡ [] }
{
    for client in 0..64u64 {
        table.joined(client + 1);
    }
}

fn set_all(table: &mut Subscriptions, list: &mut PairList, apart: bool) {
    for client in 0..64u8 {
        write_list(list, client, 0, apart);
        let conn = u64::from(client) + 1;
        table.show(conn, true);
        let _ = table.set(conn, list);
    }
}

// The list of a client: CIDs of a service, of which one is its own and changes.
fn write_list(list: &mut PairList, client: u8, change: u32, apart: bool) {
    list.clear();
    // so that the lists don't stand in order
    let service = (u32::from(client) * 37 % 64) as u8;
    let owner = if apart { service } else { 0 };
    for cid in 1..30 {
        list.push(Uuid::from_bytes([owner; 16]), Some(cid));
    }
    list.push(Uuid::from_bytes([service; 16]), Some(1_000 + change % 2));
}

fn put_together(lists: &[ClientList], pairs: &mut Vec<Pair>) {
    pairs.clear();
    for list in lists {
        let _ = pairs.extend_from_slice(list.pairs());
    }
    normalize(pairs);
}
P
cat >"$program/proofs/join_all/Invariants.antt" <<'P'
use Rattle.std.proofs.Common.{◌≤◌, length}
use Rattle.time_lists.proofs.join_all.Given as goal

abbrev pub invariant-loop-client : goal.invariant-loop-client
invariant-loop-client l = length l.table ≤ l.client
P
cat >"$program/proofs/join_all/Answers.antt" <<'P'
use Rattle.std.proofs.Common.{◌≡◌, ℕ, ◌+◌, ◌∷◌, [], List, not, length, ap, arith, length-append}
use Rattle.subscriptions.specs.Clients.{Client, is_of, leaves, newcomer}
use Rattle.subscriptions.proofs.NormalForms.{filter_shorter}
use Rattle.time_lists.proofs.join_all.Goals as goal

pub loop-client-preserved : goal.loop-client-preserved
loop-client-preserved c =
    let conn : ℕ = c.loop-client.client + 1 in
    let was : List Client = c.loop-client.table in
    omega (arith, ap (λ (l : List Client). length l) c.joined.ensures, length-append (leaves conn was) (newcomer conn ∷ []), filter_shorter (λ client. not (is_of conn client)) was, c.loop-client.invariant)
P
cd "$program" || exit 70
echo "proving and building; this takes some minutes .." >&2
rt run >"$folder/out" 2>"$folder/log" || { tail -n 20 "$folder/log" "$folder/out" >&2; exit 70; }
grep "pairs, counted" "$folder/out"
