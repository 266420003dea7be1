//! What cannot be derived, by attempts, and the ways out.

use crate::loops::{fewer, waiting};
use crate::world::*;
use generate::derivation::{Derivation, Step, Tables};
use generate::programs::{count_down, number, read, repeat, sequence, store, when};
use reference::language::Statement;
use reference::states::Relation;

pub fn claims() -> Vec<Claim> {
    let mut claims = toggles();
    claims.extend(read_twice());
    claims.extend(locks());
    claims.extend(flags());
    claims.extend(flags_waited_for());
    claims
}

/// A countdown beside a bit that others toggle.
fn toggles() -> Vec<Claim> {
    let w = world([("c", 2), ("bit", 2)]);
    let toggle = || w.relation(|[c, b, ..], [d, e, ..]| c == d && b != e);
    let lower = || w.relation(|[c, ..], [d, ..]| d < c);
    let tables = || Tables {
        p: w.all(),
        r: toggle(),
        g: w.relation(|[c, b, ..], [d, e, ..]| d < c && b == e),
        q: w.ending(|[c, ..]| c == 0),
    };
    let positive = w.set(|[c, ..]| c > 0);
    let with = |name, order: Relation| {
        let tables = Loop { tables: tables(), k: positive, w: order };
        w.claim(name, count_down(0), tables.node(assignment))
    };
    let still = w.relation(|[c, b, ..], [d, e, ..]| (c, b) == (d, e));
    let once = when(greater(read(0), number(0)), store(0, minus(read(0), number(1))));
    let c = world([("c", 2)]);
    let alone = Loop {
        tables: Tables {
            p: c.all(),
            r: none(),
            g: c.relation(|[c, ..], [d, ..]| d < c),
            q: c.ending(|[c, ..]| c == 0),
        },
        k: c.set(|[c, ..]| c > 0),
        w: c.relation(|[c, ..], [d, ..]| d < c),
    };
    vec![
        with("toggle-55", lower()),
        with("toggle-57", lower().join(&toggle())),
        with("toggle-closed-51", lower().join(&toggle()).join(&still)),
        w.claim("toggle-if", once, when_node(tables(), positive, assignment)),
        c.claim("toggle-left-out", count_down(0), alone.node(assignment)),
    ]
}

/// The tables of a bounded wait. The variables before `tries` are shared, and others change them
/// as `order` allows; the wait ends where `done` holds or no tries are left.
fn bounded(
    w: &World,
    tries: usize,
    order: impl Fn(&[i64], &[i64]) -> bool + Copy,
    done: impl Fn(&[i64]) -> bool,
) -> Loop {
    let shared = |values: &[i64]| values[..tries].to_vec();
    Loop {
        tables: Tables {
            p: w.all(),
            r: w.relation(|s, t| order(&s, &t) && shared(&s) != shared(&t) && s[tries] == t[tries]),
            g: w.relation(|s, t| shared(&s) == shared(&t) && t[tries] + 1 == s[tries]),
            q: w.ending(|t| done(&t) || t[tries] == 0),
        },
        k: w.set(|s| s[tries] > 0),
        w: w.relation(|s, t| order(&s, &t) && t[tries] <= s[tries] && s != t),
    }
}

/// A moved variable that a test reads twice, and two moved variables that it reads once each.
fn read_twice() -> Vec<Claim> {
    let w = world([("phase", 3), ("tries", 2)]);
    let rises = |s: &[i64], t: &[i64]| s[0] <= t[0];
    let tables = || bounded(&w, 1, rises, |t| t[0] == 2);
    let left = || greater(read(1), number(0));
    let twice = or(equal(read(0), number(0)), equal(read(0), number(1)));
    let once = less(read(0), number(2));
    let loops = |test| repeat(and(test, left()), fewer(1));
    vec![
        w.claim("twice-50", loops(twice), tables().node(assignment)),
        w.claim("once", loops(once), tables().node(assignment)),
    ]
    .into_iter()
    .chain(two_flags())
    .collect()
}

fn two_flags() -> Vec<Claim> {
    let w = world([("a", 2), ("b", 2), ("tries", 2)]);
    let rise = |s: &[i64], t: &[i64]| s[0] <= t[0] && s[1] <= t[1];
    let test =
        and(or(equal(read(0), number(0)), equal(read(1), number(0))), greater(read(2), number(0)));
    let together = bounded(&w, 2, rise, |t| t[0] == 1 && t[1] == 1);
    let left = bounded(&w, 2, rise, |t| t[0] == 1);
    let mut right = bounded(&w, 2, rise, |t| t[0] == 1 && t[1] == 1);
    right.tables.p = w.set(|[a, _, t, ..]| a == 1 || t == 0);
    let root = together.tables.clone();
    vec![
        w.claim("two-flags-50", repeat(test, fewer(2)), together.node(assignment)),
        w.claim(
            "two-flags",
            sequence(repeat(waiting(0, 2), fewer(2)), repeat(waiting(1, 2), fewer(2))),
            over(Step::Sequence, root, left.node(assignment), right.node(assignment)),
        ),
    ]
}

/// A wait for a lock that others retake, and waits for what others do not take back.
fn locks() -> Vec<Claim> {
    let w = world([("lock", 2), ("tries", 2)]);
    let test = and(equal(read(0), number(1)), greater(read(1), number(0)));
    let with = |name, r: Relation| {
        let tables = Loop {
            tables: Tables {
                p: w.all(),
                r,
                g: w.relation(|[l, t, ..], [m, u, ..]| l == m && u < t),
                q: w.every_pair(),
            },
            k: w.set(|[_, t, ..]| t > 0),
            w: w.relation(|[_, t, ..], [_, u, ..]| u < t),
        };
        w.claim(name, repeat(test.clone(), fewer(1)), tables.node(assignment))
    };
    let phases = world([("phase", 3), ("tries", 2)]);
    let phase = bounded(&phases, 1, |s, t| s[0] <= t[0], |t| t[0] > 0);
    vec![
        with("retake-54", w.relation(|[l, t, ..], [m, u, ..]| l != m && t == u)),
        with("retake-only-54", w.relation(|[l, t, ..], [m, u, ..]| l < m && t == u)),
        phases.claim("phase", repeat(waiting(0, 1), fewer(1)), phase.node(assignment)),
        grant(),
    ]
}

/// Others give the grant; only the handler takes it back.
fn grant() -> Claim {
    let w = world([("grant", 2), ("tries", 3)]);
    let mut left = bounded(&w, 1, |s, t| s[0] <= t[0], |t| t[0] == 1);
    left.tables.g = left.tables.g.join(&w.relation(|[g, t, ..], [h, u, ..]| h < g && t == u));
    let root = Tables { q: w.every_pair(), ..left.tables.clone() };
    let right = Tables { p: w.set(|[g, t, ..]| g == 1 || t == 0), ..root.clone() };
    let right = when_node(right, w.set(|[_, t, ..]| t > 0), assignment);
    let take = when(greater(read(1), number(0)), store(0, number(0)));
    w.claim(
        "grant",
        sequence(repeat(waiting(0, 1), fewer(1)), take),
        over(Step::Sequence, root, left.node(assignment), right),
    )
}

/// A shared flag in an assignment and in an if.
fn flags() -> Vec<Claim> {
    let w = world([("flag", 2), ("got", 2)]);
    let tables = |p, q| Tables {
        p,
        r: w.relation(|[f, h, ..], [g, i, ..]| f < g && h == i),
        g: w.relation(|[f, h, ..], [g, i, ..]| f == g && h < i),
        q,
    };
    let raised = w.set(|[f, ..]| f == 1);
    let copy = || store(1, read(0));
    let act = when(equal(read(0), number(1)), store(1, number(1)));
    vec![
        w.claim("flag-41", copy(), assignment(tables(w.all(), w.every_pair()))),
        w.claim(
            "flag-copied-41",
            copy(),
            assignment(tables(w.all(), w.ending(|[f, h, ..]| f == h))),
        ),
        w.claim("flag-45", act, when_node(tables(w.all(), w.every_pair()), raised, assignment)),
        w.claim(
            "flag-settled",
            copy(),
            assignment(tables(raised, w.ending(|[f, h, ..]| f == 1 && h == 1))),
        ),
    ]
}

/// A wait for the flag and then a test, or a read, of the private variable `tries`.
fn flags_waited_for() -> Vec<Claim> {
    let w = world([("flag", 2), ("tries", 2), ("got", 2)]);
    let r = w.relation(|[f, t, h, ..], [g, u, i, ..]| f < g && (t, h) == (u, i));
    let lower = w.relation(|[f, t, h, ..], [g, u, i, ..]| u < t && (f, h) == (g, i));
    let gain =
        w.relation(|[f, t, h, ..], [g, u, i, ..]| (f, t, h) == (1, 1, 0) && (g, u, i) == (1, 1, 1));
    let known = |f, t| f == 1 || t == 0;
    let root = Tables {
        p: w.set(|[_, _, h, ..]| h == 0),
        r,
        g: lower.join(&gain),
        q: w.ending(|[f, t, h, ..]| known(f, t) && h == t),
    };
    let wait = Loop {
        tables: Tables { q: w.ending(|[f, t, h, ..]| known(f, t) && h == 0), ..root.clone() },
        k: w.set(|[_, t, ..]| t > 0),
        w: w.relation(|[f, t, h, ..], [g, u, i, ..]| {
            f <= g && u <= t && h == i && (f, t) != (g, u)
        }),
    };
    let after = Tables { p: w.set(|[f, t, h, ..]| known(f, t) && h == 0), ..root.clone() };
    let with = |name, last: Statement, right: Derivation| {
        let left = wait.clone().node(assignment);
        let statement = sequence(repeat(waiting(0, 1), fewer(1)), last);
        w.claim(name, statement, over(Step::Sequence, root.clone(), left, right))
    };
    let act = when(greater(read(1), number(0)), store(2, number(1)));
    let tested = when_node(after.clone(), w.set(|[_, t, ..]| t > 0), assignment);
    vec![
        with("flag-then-if", act, tested),
        with("flag-then-copy", store(2, read(1)), assignment(after)),
    ]
}
