//! The timeline of a list, and the picture of it.

mod common;
#[path = "common/xml.rs"]
mod xml;

use std::collections::BTreeMap;

use common::{example, generated, List, EXAMPLES};
use reference::calls::{Call, Op};
use reference::rights::Kind;
use tools::picture::timeline::{follow, Span, Timeline};
use tools::{answers, picture, text};

fn list_of(calls: &str) -> List {
    List::new(text::assemble(calls.as_bytes()).expect("calls"))
}

fn timeline_of(list: &List) -> Timeline {
    follow(&list.exchanges()).expect("the answers agree")
}

/// Columns from 0, as the timeline has them, of calls counted from 1.
fn span(from: usize, to: usize) -> Span {
    let to = Some(to - 1);
    Span { from: from - 1, to }
}

fn span_to_end(from: usize) -> Span {
    let from = from - 1;
    Span { from, to: None }
}

const CALLS: &str = "\
    t0 start 2
    t1 start 3
    t0 make 2 8
    t0 make 3 4
    t0 enter 2
    t0 allocate 0 2
    t0 enter 1
    t0 enter 3
    t1 enter 3      # 9: refused, the parent is 2
    t0 exit
    t0 exit
    t0 allocate 1 0
    t1 enter 2
    t0 exit
    t0 end
    t0 start 1
    t1 exit
    t1 enter 3";

/// A thread's entries: their areas, their places, how long they last.
fn entries(timeline: &Timeline, thread: u64) -> Vec<(u64, usize, Span)> {
    let entries = timeline.threads[&thread].entries.iter();
    entries
        .map(|entry| (entry.area, entry.place, entry.span))
        .collect()
}

/// A thread's lives: its kinds, its starters, how long they last.
fn lives(timeline: &Timeline, thread: u64) -> Vec<(Kind, Option<u64>, Span)> {
    let lives = timeline.threads[&thread].lives.iter();
    lives
        .map(|life| (life.kind, life.starter, life.span))
        .collect()
}

#[test]
fn threads_and_their_stacks() {
    let timeline = timeline_of(&list_of(CALLS));
    let meter = [
        (2, 0, span(5, 14)),
        (1, 1, span(7, 11)),
        (3, 2, span(8, 10)),
    ];
    assert_eq!(entries(&timeline, 0), meter);
    let plotter = [(2, 0, span(13, 17)), (3, 0, span_to_end(18))];
    assert_eq!(entries(&timeline, 1), plotter);
    assert_eq!(
        lives(&timeline, 0),
        [
            (Kind::RealTime, None, span(1, 15)),
            (Kind::Ordinary, None, span_to_end(16))
        ]
    );
    assert_eq!(lives(&timeline, 1), [(Kind::NoHeap, None, span_to_end(2))]);
}

const HELPERS: &str = "\
    t1 start 2
    t1 make 2 8
    t1 enter 2
    t1 enter 1
    t1 start_helper 3 t0
    t1 start_helper 2 t0    # 6: refused, it is started
    t1 exit
    t1 exit
    t1 end
    t0 exit
    t0 start_helper 2 t3
    t0 exit
    t3 exit
    t3 end
    t3 start 2";

/// A helper's entries last from its start on, and a scope until its last helper leaves.
#[test]
fn helpers_and_their_stacks() {
    let timeline = timeline_of(&list_of(HELPERS));
    let first = [(2, 0, span(5, 12)), (1, 1, span(5, 10))];
    assert_eq!(entries(&timeline, 0), first);
    assert_eq!(entries(&timeline, 3), [(2, 0, span(11, 13))]);
    assert_eq!(
        lives(&timeline, 0),
        [(Kind::NoHeap, Some(1), span_to_end(5))]
    );
    assert_eq!(
        lives(&timeline, 3),
        [
            (Kind::RealTime, Some(0), span(11, 14)),
            (Kind::RealTime, None, span_to_end(15))
        ]
    );
    let openings = timeline.scopes[&2].openings();
    let spans: Vec<Span> = openings.map(|opening| opening.span).collect();
    assert_eq!(spans, [span(3, 13)]);
}

/// The areas on a thread's stack after a column, the lowest first.
fn stack_at(timeline: &Timeline, thread: u64, column: usize) -> Vec<u64> {
    let lasts = |span: Span| span.from <= column && span.to.is_none_or(|to| column < to);
    let entries = entries(timeline, thread).into_iter();
    let mut entries: Vec<_> = entries.filter(|&(_, _, span)| lasts(span)).collect();
    entries.sort_by_key(|&(_, place, _)| place);
    entries.into_iter().map(|(area, _, _)| area).collect()
}

/// Each accepted start of a helper: its column, the starter, the helper.
fn births(list: &List) -> Vec<(usize, u64, u64)> {
    let exchanges = list.exchanges().into_iter().enumerate();
    let accepted = exchanges.filter(|(_, exchange)| exchange.answer.is_accepted());
    let birth = |column: usize, Call { thread, op }: Call| match op {
        Op::StartHelper { helper, .. } => Some((column, thread, helper)),
        _ => None,
    };
    accepted
        .filter_map(|(column, exchange)| birth(column, exchange.call?))
        .collect()
}

#[test]
fn helpers_of_generated_lists_begin_with_their_starter_s_stack() {
    let (mut helpers, mut copied) = (0, 0);
    for list in generated(1..100, 300) {
        let timeline = timeline_of(&list);
        for (column, starter, helper) in births(&list) {
            let stack = stack_at(&timeline, starter, column);
            assert_eq!(stack_at(&timeline, helper, column), stack);
            let mut lives = lives(&timeline, helper).into_iter();
            assert!(lives.any(|(_, by, span)| by == Some(starter) && span.from == column));
            helpers += 1;
            copied += stack.len();
        }
    }
    assert!(helpers > 100, "{helpers} helpers");
    assert!(copied > 100, "{copied} entries");
}

/// An opening: its generation, its parent, its used words.
type Opened = (u64, Option<u64>, Vec<(Span, u64)>);

#[test]
fn scopes_with_used_words_and_parents() {
    let timeline = timeline_of(&list_of(CALLS));
    let openings = |scope: u64| -> Vec<Opened> {
        let openings = timeline.scopes[&scope].openings();
        openings
            .map(|opening| {
                (
                    opening.generation,
                    opening.parent,
                    opening.steps().collect(),
                )
            })
            .collect()
    };
    let used = vec![(span(5, 6), 0), (span(6, 12), 3), (span(12, 17), 5)];
    assert_eq!(openings(2), [(1, None, used)]);
    let first = (1, Some(2), vec![(span(8, 10), 0)]);
    let second = (2, None, vec![(span_to_end(18), 0)]);
    assert_eq!(openings(3), [first, second]);
    assert_eq!(makings(&timeline, 2), [(8, 0, span_to_end(3))]);
    assert_eq!(makings(&timeline, 3), [(4, 16, span_to_end(4))]);
}

const REMOVALS: &str = "\
    t0 start 2
    t0 make 2 40
    t0 make 3 16
    t0 enter 2
    t0 allocate 0 3
    t0 remove 2     # 6: refused, it is open
    t0 exit
    t0 remove 2
    t0 enter 2      # 9: refused, it is not made
    t0 make 4 8     # in the room of scope 2
    t0 make 2 33    # behind scope 3
    t0 enter 2
    t0 exit
    t0 remove 2
    t0 remove 3
    t0 make 2 100   # behind scope 4
    t0 remove 2";

/// A scope's makings: their sizes, their first words, how long they last.
fn makings(timeline: &Timeline, scope: u64) -> Vec<(u64, u64, Span)> {
    let makings = timeline.scopes[&scope].makings.iter();
    makings
        .map(|making| (making.size, making.start, making.span))
        .collect()
}

#[test]
fn scopes_made_removed_and_made_again() {
    let timeline = timeline_of(&list_of(REMOVALS));
    let changed = [
        (40, 0, span(2, 8)),
        (33, 64, span(11, 14)),
        (100, 16, span(16, 17)),
    ];
    assert_eq!(makings(&timeline, 2), changed);
    assert_eq!(makings(&timeline, 3), [(16, 48, span(3, 15))]);
    assert_eq!(makings(&timeline, 4), [(8, 0, span_to_end(10))]);
    let removals = |scope: u64| -> Vec<Span> { timeline.scopes[&scope].removals().collect() };
    assert_eq!(removals(2), [span(8, 11), span(14, 16), span_to_end(17)]);
    assert_eq!(removals(3), [span_to_end(15)]);
    assert_eq!(removals(4), []);
    let openings = timeline.scopes[&2].makings.iter();
    let openings = openings.map(|making| making.openings.iter());
    let generations: Vec<Vec<u64>> = openings
        .map(|openings| openings.map(|opening| opening.generation).collect())
        .collect();
    assert_eq!(generations, [vec![1], vec![2], vec![]]);
}

/// What the accepted calls of a list make and remove: the sizes of each scope and how long they last.
fn made_by_calls(list: &List) -> BTreeMap<u64, Vec<(u64, Span)>> {
    let mut scopes: BTreeMap<u64, Vec<(u64, Span)>> = BTreeMap::new();
    let exchanges = list.exchanges().into_iter().enumerate();
    for (from, exchange) in exchanges.filter(|(_, exchange)| exchange.answer.is_accepted()) {
        match exchange.call.map(|call| call.op) {
            Some(Op::Make { area, size }) => {
                let span = Span { from, to: None };
                scopes.entry(area).or_default().push((size, span));
            }
            Some(Op::Remove { area }) => {
                let made = scopes.get_mut(&area).and_then(|made| made.last_mut());
                made.expect("a made scope").1.to = Some(from);
            }
            _ => {}
        }
    }
    scopes
}

#[test]
fn makings_of_generated_lists_are_those_of_the_accepted_calls() {
    let (mut removed, mut again) = (0, 0);
    for list in generated(1..100, 300) {
        let timeline = timeline_of(&list);
        let expected = made_by_calls(&list);
        assert!(timeline.scopes.keys().eq(expected.keys()));
        for (&scope, expected) in &expected {
            let makings = makings(&timeline, scope).into_iter();
            let makings: Vec<_> = makings.map(|(size, _, span)| (size, span)).collect();
            assert_eq!(&makings, expected, "scope {scope}");
            removed += timeline.scopes[&scope].removals().count();
            again += makings.len() - 1;
        }
    }
    assert!(removed > 100, "{removed} removals");
    assert!(again > 100, "{again} scopes made again");
}

#[test]
fn refused_calls_are_marked_on_their_caller_s_lane() {
    let mut list = list_of("t0 start 2\nt0 exit\nt1 end\nt200 end").frames;
    list.extend(b"not a frame\n");
    let timeline = timeline_of(&List::new(list));
    let marks = |thread: u64| -> Vec<(usize, u64)> {
        let marks = timeline.threads[&thread].marks.iter();
        marks.map(|mark| (mark.column, mark.status)).collect()
    };
    assert_eq!(marks(0), [(0, 0), (1, 11)]);
    assert_eq!(marks(1), [(2, 2)]);
    assert_eq!(marks(200), [(3, 2)]);
    let no_frames: Vec<(usize, u64)> = timeline
        .no_frames
        .iter()
        .map(|mark| (mark.column, mark.status))
        .collect();
    assert_eq!(no_frames, [(4, 18)]);
}

/// Every lane is named, every refusal explained, every call told where a pointer rests on it.
#[test]
fn what_the_picture_says() {
    let picture = list_of(CALLS).picture();
    for words in [
        ">18 lines, 1 refused<",
        ">thread 0<",
        ">thread 1<",
        ">scope 2<",
        ">8 words from 0<",
        ">scope 3<",
        ">4 words from 16<",
        ">immortal<",
        ">no-heap<",
        ">generation 1, no parent<",
        ">parent 2<",
        ">scope open with another parent<",
        ">t1 enter 3<",
        "<title>9: t1 enter 3 → refused 10: scope open with another parent</title>",
        "<title>12: t0 allocate slots 1 data 0 → object 2.1:3</title>",
    ] {
        assert!(picture.contains(words), "{words} in {picture}");
    }
}

/// Each helper's life is joined with the mark of the call that began it, whichever lane lies above.
#[test]
fn links_from_starters_to_helpers() {
    let picture = list_of(HELPERS).picture();
    for (call, helper) in [(5, 0), (11, 3)] {
        let x = column(&picture, call);
        let mark = line_with(&picture, &format!("<circle cx=\"{x}\" "));
        let y = attribute(mark, "cy");
        let dot = format!("<circle cx=\"{x}\" cy=\"{y}\" r=\"3\"");
        assert!(picture.contains(&dot), "{dot} in {picture}");
        let name = attribute(line_with(&picture, &format!(">thread {helper}<")), "y");
        let near = if name < y { name + 2 } else { name - 10 };
        let link = line_with(&picture, &format!("x2=\"{x}\" y2=\"{y}\""));
        assert_eq!((attribute(link, "x1"), attribute(link, "y1")), (x, near));
    }
    let dots = picture.matches(" r=\"3\"").count();
    assert_eq!(dots, 3, "two and the legend's");
    let words = ">from the starter (dot) to the helper<";
    assert!(picture.contains(words));
    assert!(!list_of(CALLS).picture().contains(words));
}

/// Each making is a bar with its size, and each removal a cross at the end of one.
#[test]
fn bars_of_makings_and_crosses_of_removals() {
    let picture = list_of(REMOVALS).picture();
    let lane = |scope: u64| attribute(line_with(&picture, &format!(">scope {scope}<")), "y") - 10;
    let bars = [(2, 2, 8), (2, 11, 14), (2, 16, 17), (3, 3, 15)];
    for (scope, made, removed) in bars {
        let (x, end) = (column(&picture, made), column(&picture, removed));
        let (y, width) = (lane(scope), end - x);
        let bar = format!("<rect x=\"{x}\" y=\"{y}\" width=\"{width}\" height=\"12\"");
        assert!(picture.contains(&bar), "{bar} in {picture}");
        let (left, right, top, bottom) = (end - 4, end + 4, y + 2, y + 10);
        let cross = format!("M{left} {top}L{right} {bottom}M{left} {bottom}L{right} {top}");
        assert!(picture.contains(&cross), "{cross} in {picture}");
    }
    let counts = [
        ("<path ", bars.len() + 1),
        (">scope removed<", 1),
        (">not made<", 2),
        (">40 words from 0<", 1),
        (">33 words<", 1),
        (">100<", 1),
        (">16 words from 48<", 1),
        (">8 words from 0<", 1),
        ("<title>6: t0 remove 2 → refused 20: scope open</title>", 1),
        ("<title>8: t0 remove 2 → accepted</title>", 1),
    ];
    for (words, count) in counts {
        let found = picture.matches(words).count();
        assert_eq!(found, count, "{words} in {picture}");
    }
    let other = list_of(CALLS).picture();
    for words in ["<path ", ">scope removed<", ">not made<"] {
        assert!(!other.contains(words), "{words} in {other}");
    }
}

/// The middle of a call's column.
fn column(picture: &str, call: usize) -> usize {
    let hint = line_with(picture, &format!("<title>{call}: "));
    attribute(hint, "x") + attribute(hint, "width") / 2
}

/// The line of a picture that has these words.
fn line_with<'a>(picture: &'a str, words: &str) -> &'a str {
    let line = picture.lines().find(|line| line.contains(words));
    line.unwrap_or_else(|| panic!("no {words} in {picture}"))
}

/// A number among the attributes of an element.
fn attribute(element: &str, name: &str) -> usize {
    let text = element.split_once(&format!(" {name}=\""));
    let number = text.and_then(|(_, rest)| rest.split('"').next()?.parse().ok());
    number.unwrap_or_else(|| panic!("no {name} in {element}"))
}

#[test]
fn pictures_of_any_length_are_well_formed() {
    for count in [0, 1, 2, 30, 61, 151, 300] {
        for list in generated(1..8, count) {
            let picture = list.picture();
            xml::check(&picture).unwrap_or_else(|reason| panic!("{reason}: {picture}"));
            assert_eq!(picture.matches("<title>").count(), list.lines());
            assert_eq!(picture, list.picture());
        }
    }
}

#[test]
fn the_checker_of_pictures_refuses_others() {
    let wrong = [
        "",
        "<a>",
        "</a>",
        "<a></b>",
        "<a/><b/>",
        "<a><b></a></b>",
        "<a>&</a>",
        "<a>1 > 0</a>",
        "<a x=1/>",
        "<a x=\"1/>",
        "x<a/>",
        "<a/>x",
    ];
    for text in wrong {
        assert!(xml::check(text).is_err(), "{text}");
    }
    xml::check("<a x=\"1\" y=\"2\"><b/>&lt;</a>\n").expect("well-formed");
}

/// No text reaches the next one on its line: numbers of calls, marks of refused ones, labels.
#[test]
fn texts_of_a_line_stand_apart() {
    for count in [60, 150, 400] {
        for list in generated(20..24, count) {
            let mut texts = texts(&list.picture());
            texts.sort();
            for pair in texts.windows(2) {
                let [(y, _, end), (next_y, next_x, _)] = pair else {
                    unreachable!("windows of two")
                };
                assert!(y != next_y || end <= next_x, "{pair:?}");
            }
        }
    }
}

/// The base line, the left and the right end of each level text, by a width of 0.6 of its size a letter.
fn texts(picture: &str) -> Vec<(usize, usize, usize)> {
    let lines = picture.lines().filter(|line| line.starts_with("<text x="));
    let place = |line: &str| {
        let number = |name: &str| attribute(line, name);
        let letters = line
            .split(['>', '<'])
            .nth(2)
            .expect("a text")
            .chars()
            .count();
        let width = letters * number("font-size") * 6 / 10;
        let left = match () {
            () if line.contains("\"middle\"") => number("x") - width / 2,
            () if line.contains("\"end\"") => number("x").saturating_sub(width),
            () => number("x"),
        };
        (number("y"), left, left + width)
    };
    lines.map(place).collect()
}

#[test]
fn a_picture_of_other_answers_is_refused() {
    let mut list = list_of("t0 start 2\nt0 make 2 8\nt0 enter 2");
    list.answers = b"000000000000000000\n000000000000000000\n000000000000000002\n".to_vec();
    let exchanges = answers::pair(&list.frames, &list.answers).expect("answers");
    let reason = picture::draw(&exchanges).expect_err("refused");
    let expected =
        "line 3: t0 enter 2 → generation 2, but the second implementation answers: generation 1";
    assert_eq!(reason, expected);
}

#[test]
fn examples_have_their_pictures() {
    for name in EXAMPLES {
        let (frames, answers) = (example(name, "frames"), example(name, "answers"));
        let picture = List { frames, answers }.picture();
        assert!(
            picture.as_bytes() == example(name, "svg"),
            "examples/{name}.svg is another picture"
        );
    }
}
