//! Smaller cases of traces and recordings.
use generator::trace::lists::{EVENT_LISTS, TraceLists};
use generator::trace::record::TransientRecord;

use super::case::TraceCase;
use super::list9::Lengths;
use super::recording::Recording;
use crate::shrink::{Shrink, changed, parts, rows, small_numbers};

impl Shrink for TraceCase {
    fn smaller(&self) -> impl Iterator<Item = Self> {
        let lists = smaller_lists(&self.lists);
        let left = lists.map(|lists| self.with(lists, self.held));
        left.chain(plainer_case(self))
    }
}

impl Shrink for Recording {
    fn smaller(&self) -> impl Iterator<Item = Self> {
        let fewer = parts(self.traces.len()).map(|(from, to)| {
            let mut left = self.clone();
            left.traces.drain(from..to);
            left
        });
        let smaller = self.traces.iter().enumerate().flat_map(move |(k, lists)| {
            smaller_lists(lists).map(move |lists| {
                let mut left = self.clone();
                left.traces[k] = lists;
                left
            })
        });
        fewer.chain(smaller)
    }
}

/// Events and contracts are left out, great parts first; then numbers are made plain.
fn smaller_lists(lists: &TraceLists) -> impl Iterator<Item = TraceLists> {
    let [events, contracts] = rows(&lists.lengths(), EVENT_LISTS);
    let fewer_events = parts(events).map(|(from, to)| without_events(lists, from, to));
    let fewer_contracts = parts(contracts).map(|(from, to)| without_contracts(lists, from, to));
    let fewer = fewer_events.chain(fewer_contracts);
    let plain = [small_components, small_ticks, first_unit, plain_widths];
    fewer.chain(changed(lists, plain))
}

fn without_events(lists: &TraceLists, from: usize, to: usize) -> TraceLists {
    let mut left = lists.clone();
    left.ticks.drain(from..to);
    left.components.drain(from..to);
    left.powered.drain(from..to);
    left
}

fn without_contracts(lists: &TraceLists, from: usize, to: usize) -> TraceLists {
    let contracts = lists.contracts().enumerate();
    let left = contracts.filter(|(i, _)| !(from..to).contains(i));
    lists.with_contracts(left.map(|(_, contract)| contract))
}

fn small_components(lists: &mut TraceLists) {
    small_numbers([&mut lists.components, &mut lists.contract_components]);
}

fn small_ticks(lists: &mut TraceLists) {
    small_numbers([&mut lists.ticks]);
}

fn first_unit(lists: &mut TraceLists) {
    lists.unit = 0;
    lists.contract_units.fill(0);
}

fn plain_widths(lists: &mut TraceLists) {
    lists.contract_smallest.fill(0);
    lists.contract_largest.fill(u64::MAX);
}

/// A fresh record, or no list longer than it needs to be, where that changes anything.
fn plainer_case(case: &TraceCase) -> impl Iterator<Item = TraceCase> {
    let fresh = case.with(case.lists.clone(), TransientRecord::default());
    let fresh = (case.held != fresh.held).then_some(fresh);
    let at_most = |lengths: Lengths, need: usize| lengths.map(|length| length.min(need));
    let mut exact = case.clone();
    exact.assess = at_most(case.assess, case.assess_need());
    exact.record = at_most(case.record, case.record_need());
    let shorter = exact.assess != case.assess || exact.record != case.record;
    fresh.into_iter().chain(shorter.then_some(exact))
}
