//! How often each function gave each status, and which of those that can be given were not.

use std::collections::BTreeMap;

use reference::calls::{Call, Op};

use crate::calls::{Reply, Request};

/// Each function with the statuses that it can give.
const REACHABLE: [(&str, &[u64]); 18] = [
    ("set_up", &[0, 1]),
    ("start", &[0, 1, 2, 3, 4]),
    ("start_helper", &[0, 1, 2, 3, 4, 5]),
    ("end", &[0, 1, 2, 11]),
    ("make", &[0, 1, 2, 6, 7, 8]),
    ("remove", &[0, 1, 2, 6, 20]),
    ("enter", &[0, 1, 2, 5, 6, 9, 10, 17]),
    ("exit", &[0, 1, 2, 11]),
    ("allocate", &[0, 1, 2, 5, 12]),
    ("store", &[0, 1, 2, 5, 13, 14, 15, 16]),
    ("load", &[0, 1, 2, 5, 13, 14, 15]),
    ("write", &[0, 1, 2, 5, 13, 14]),
    ("read", &[0, 1, 2, 5, 13, 14, 19]),
    ("view_status", &[0, 1, 2, 5, 13]),
    ("view_place", &[0, 1, 2, 5, 13]),
    ("load_rights", &[0, 23, 24]),
    ("stack_push", &[0, 6, 9]),
    ("stack_pop", &[0, 11]),
];

/// What the lists are meant to bring about beside the statuses.
const SITUATIONS: [&str; 56] = [
    "a part of the permanent store",
    "a part of the scratch store",
    "a part of length 0 that is not refused",
    "a list after a refused set-up",
    "a handle that no allocation gave is accepted",
    "a scope at the last generation",
    "32 entries on a stack record",
    "a start map one word short",
    "a start map one word long",
    "a written map one word short",
    "a written map one word long",
    "a call with a written map one word short",
    "a call with a written map one word long",
    "a 0 that is marked as written is read",
    "a view of words that are not marked as written",
    "stores of 16,384 words",
    "a permanent store of 16,385 words",
    "a scratch store of 16,385 words",
    "a load while objects are alive",
    "a load beside buffers of other lengths",
    "a text one digit short",
    "a text one digit long",
    "a text with a line feed behind it",
    "a text that breaks the rules while a thread is started",
    "a load refused for thread 15 alone",
    "an ordinary thread allocates in immortal memory",
    "an ordinary thread enters a scope",
    "a real-time thread lacks a right",
    "a helper receives 32 entries",
    "a full stack refuses a helper",
    "an entry below the top alone refuses a helper",
    "a helper that may not enter the heap, from an empty stack",
    "a helper's number above 15",
    "a helper that is its own starter",
    "an ordinary helper in a scope",
    "a helper starts a helper",
    "the last entry of a scope is one that a helper received",
    "a scope of whole blocks",
    "a scope of a word more than whole blocks",
    "a free run that is too short is passed over",
    "a scope in front of another",
    "a scope that has the last block",
    "a scope that has block 1,023",
    "used bits in several words",
    "a scope made again at another place",
    "a thread that may not enter a scope removes it",
    "a scope of no words",
    "enough free blocks, but not side by side",
    "a size that would fit with the shorter rest",
    "a size that wraps where it is rounded up",
    "a removed scope is removed again",
    "an open scope is removed by a thread outside it",
    "a removed scope is entered",
    "the last generation of a scope that was made again",
    "an old handle of a scope that was made again",
    "an old target of a scope that was made again",
];

/// Whether a situation came about.
pub type Note = (bool, &'static str);

#[derive(Default)]
pub struct Tally {
    statuses: BTreeMap<(&'static str, u64), u64>,
    situations: BTreeMap<&'static str, u64>,
}

impl Tally {
    pub fn add(&mut self, function: &'static str, status: u64) {
        *self.statuses.entry((function, status)).or_default() += 1;
    }

    pub fn add_reply(&mut self, request: Request, reply: Reply) {
        self.add(function_of(request), reply.status());
        if let Reply::View(view) = reply {
            let accepted = view.status == 0;
            self.note(accepted && view.store == 0, SITUATIONS[0]);
            self.note(accepted && view.store == 1, SITUATIONS[1]);
            self.note(accepted && view.len == 0, SITUATIONS[2]);
        }
    }

    pub fn note(&mut self, happened: bool, situation: &'static str) {
        debug_assert!(SITUATIONS.contains(&situation));
        if happened {
            *self.situations.entry(situation).or_default() += 1;
        }
    }

    /// Prints every count; yields how many of those that can come did not.
    pub fn report(&self) -> u64 {
        let mut missing = 0;
        for (function, statuses) in REACHABLE {
            let counts = statuses.iter().map(|&status| {
                let count = self.statuses.get(&(function, status));
                (format!("{status}"), count.copied().unwrap_or(0))
            });
            missing += print_counts(function, counts);
        }
        let situations = SITUATIONS.iter().map(|&situation| {
            let count = self.situations.get(situation);
            (format!("\n  {situation}"), count.copied().unwrap_or(0))
        });
        missing + print_counts("situations", situations)
    }
}

/// Prints a row of counts; yields how many are 0.
fn print_counts(name: &str, counts: impl Iterator<Item = (String, u64)>) -> u64 {
    let mut missing = 0;
    print!("{name:12}");
    for (label, count) in counts {
        print!(" {label}: {count}");
        missing += u64::from(count == 0);
    }
    println!();
    missing
}

fn function_of(request: Request) -> &'static str {
    let op = match request {
        Request::Call(Call { op, .. }) => op,
        Request::ViewStatus { .. } => return "view_status",
        Request::ViewPlace { .. } => return "view_place",
        Request::LoadRights { .. } => return "load_rights",
    };
    match op {
        Op::Start { .. } => "start",
        Op::End => "end",
        Op::Make { .. } => "make",
        Op::Enter { .. } => "enter",
        Op::Exit => "exit",
        Op::Allocate { .. } => "allocate",
        Op::Store { .. } => "store",
        Op::Load { .. } => "load",
        Op::Write { .. } => "write",
        Op::Read { .. } => "read",
        Op::StartHelper { .. } => "start_helper",
        Op::Remove { .. } => "remove",
    }
}
