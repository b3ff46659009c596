//! The stack record, pushed and popped on both sides.

use reference::random::Random;
use reference::stack_record::StackRecord;

use crate::exports::{scopes_stack_empty, scopes_stack_pop, scopes_stack_push, Answer, ScopeStack};
use crate::tally::Tally;

/// Random pushes and pops, in waves that fill and empty the record.
pub fn run(random: &mut Random, steps: u64, tally: &mut Tally) -> Result<(), String> {
    // SAFETY: asks for nothing.
    let mut given = unsafe { scopes_stack_empty() };
    let mut expected = StackRecord::new();
    same_entries(&given, &expected)?;
    let mut pushes = 90;
    for _ in 0..steps {
        if random.percent(4) {
            pushes = random.between(10, 90);
        }
        if random.percent(pushes) {
            push(&mut given, &mut expected, any_area(random), tally)?;
        } else {
            pop(&mut given, &mut expected, tally)?;
        }
        same_entries(&given, &expected)?;
    }
    Ok(())
}

fn any_area(random: &mut Random) -> u64 {
    match random.below(20) {
        0 => 64,
        1 => random.word(),
        2 => 64 << random.below(58),
        _ => random.below(64),
    }
}

fn push(
    given: &mut ScopeStack,
    expected: &mut StackRecord,
    area: u64,
    tally: &mut Tally,
) -> Result<(), String> {
    // SAFETY: a record that is borrowed for writing.
    let answer = unsafe { scopes_stack_push(given, area) };
    tally.add("stack_push", answer.status);
    tally.note(given.len == 32, "32 entries on a stack record");
    same_answer(answer, expected.push(area), &format!("push of {area:x}"))
}

fn pop(
    given: &mut ScopeStack,
    expected: &mut StackRecord,
    tally: &mut Tally,
) -> Result<(), String> {
    // SAFETY: a record that is borrowed for writing.
    let answer = unsafe { scopes_stack_pop(given) };
    tally.add("stack_pop", answer.status);
    same_answer(answer, expected.pop(), "pop")
}

fn same_answer(
    given: Answer,
    expected: reference::answer::Answer,
    call: &str,
) -> Result<(), String> {
    if (given.status, given.value) == (expected.status, expected.value) {
        return Ok(());
    }
    Err(format!(
        "stack record, {call}: {given:?}, expected {expected:?}"
    ))
}

fn same_entries(given: &ScopeStack, expected: &StackRecord) -> Result<(), String> {
    let entries = given.entries.iter().map(|&area| u64::from(area));
    if entries
        .take(given.len as usize)
        .eq(expected.entries().iter().copied())
    {
        return Ok(());
    }
    Err(format!("stack record {given:?}, expected {expected:?}"))
}
