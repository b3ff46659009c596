//! The wrapper and its raw layer held against the text of `include/scopes.h`, whose layouts a C
//! compiler checks.

use std::mem::{offset_of, size_of};

use scopes::sys::{Answer, Core, NewState, ScopeStack, View, STATE_BYTES, STATE_WORDS};
use scopes::{Kind, Refusal};

const HEADER: &str = include_str!("../../../include/scopes.h");

/// The size of a record here and the offsets of its fields, as the header writes them.
macro_rules! layout {
    ($record:ty, $name:literal, $($field:ident)*) => {
        [
            format!("SCOPES_SIZE_IS({}, {});", $name, size_of::<$record>()),
            $(format!("SCOPES_OFFSET_IS({}, {}, {});", $name, stringify!($field), offset_of!($record, $field)),)*
        ]
    };
}

#[test]
fn layouts_are_those_of_the_header() {
    let here = [
        &layout!(Answer, "scopes_answer", value)[..],
        &layout!(NewState, "scopes_new_state", words bytes),
        &layout!(View, "scopes_view", store from len),
        &layout!(ScopeStack, "scopes_stack", entries),
        &layout!(Core, "scopes_core", words bytes permanent permanent_len scratch scratch_len map map_len written written_len),
    ]
    .concat();
    let facts = ["SCOPES_SIZE_IS(", "SCOPES_OFFSET_IS("];
    let header = HEADER.lines();
    let there: Vec<_> = header
        .filter(|line| facts.iter().any(|fact| line.starts_with(fact)))
        .collect();
    assert_eq!(here, there);
    assert_eq!(size_of::<scopes::Core>(), size_of::<Core>());
}

#[test]
fn sizes_are_those_of_the_header() {
    assert!(HEADER.contains(&format!("#define SCOPES_STATE_WORDS {STATE_WORDS}u")));
    assert!(HEADER.contains(&format!("#define SCOPES_STATE_BYTES {STATE_BYTES}u")));
}

/// The names and numbers of an enum of the header, without what all names begin with.
fn enumerators(name: &str) -> Vec<(&'static str, u64)> {
    let (_, behind) = HEADER
        .split_once(&format!("typedef enum {name} {{"))
        .unwrap();
    let (body, _) = behind.split_once('}').unwrap();
    let lines = body.lines().filter_map(|line| line.split_once(" = "));
    let number = |text: &str| text.split([',', ' ']).next().unwrap().parse().unwrap();
    lines
        .map(|(name, text)| (name.trim().trim_start_matches("SCOPES_"), number(text)))
        .collect()
}

/// A name of Rust as the header writes it: `StackFull` as `STACK_FULL`.
fn upper(name: &str) -> String {
    let mut words = String::new();
    for letter in name.chars() {
        if letter.is_uppercase() && !words.is_empty() {
            words.push('_');
        }
        words.extend(letter.to_uppercase());
    }
    words
}

#[test]
fn refusals_are_those_of_the_header() {
    let there = enumerators("scopes_status");
    assert_eq!(there[0], ("OK", 0));
    for (name, number) in &there[1..] {
        let here = Refusal::from_number(*number).map(|refusal| upper(&format!("{refusal:?}")));
        let of_the_program = *name == "NO_FRAME";
        assert_eq!(here.as_deref(), (!of_the_program).then_some(*name));
    }
    for number in 0..1_000 {
        let known = there.iter().any(|&(_, status)| status == number);
        assert!(known || Refusal::from_number(number).is_none(), "{number}");
    }
}

#[test]
fn kinds_are_those_of_the_header() {
    let here = [Kind::Ordinary, Kind::RealTime, Kind::NoHeap];
    let here = here.map(|kind| (upper(&format!("{kind:?}")), kind as u64));
    let there = enumerators("scopes_kind");
    assert!(there
        .iter()
        .map(|&(name, number)| (name.to_string(), number))
        .eq(here));
}
