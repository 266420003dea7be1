//! The two worked loops, the mistakes beside them, and what a weaken node above a loop is for.

use crate::world::*;
use generate::derivation::{Derivation, Step, Tables};
use generate::programs::{count_down, number, read, repeat, sequence, store, when};
use reference::language::{Expression, Statement};

pub fn claims() -> Vec<Claim> {
    let mut claims = countdowns();
    claims.extend(starts());
    claims.extend(before_an_assignment());
    claims.extend(waits());
    claims.extend(wraps());
    claims.extend(ifs_in_a_body());
    claims.extend(idles());
    claims
}

fn counter() -> World {
    world([("c", 4)])
}

/// The tables of `while c > 0 do c ← c − 1`, with nobody else.
fn plain(c: &World) -> Loop {
    Loop {
        tables: Tables {
            p: c.all(),
            r: none(),
            g: c.relation(|[c, ..], [d, ..]| d + 1 == c),
            q: c.ending(|[c, ..]| c == 0),
        },
        k: c.set(|[c, ..]| c > 0),
        w: c.relation(|[c, ..], [d, ..]| d < c),
    }
}

fn countdowns() -> Vec<Claim> {
    let c = counter();
    let with = |name, change: &dyn Fn(&mut Loop)| {
        let mut tables = plain(&c);
        change(&mut tables);
        c.claim(name, count_down(0), tables.node(assignment))
    };
    vec![
        with("countdown", &|_| {}),
        with("countdown-52", &|tables| tables.k = c.set(|[c, ..]| c > 1)),
        with("countdown-wraps-42", &|tables| tables.k = c.all()),
        with("countdown-42", &|tables| {
            tables.w = c.relation(|[c, ..], [d, ..]| d + 1 == c && c != 2);
        }),
        with("countdown-57", &|tables| tables.w = c.relation(|[c, ..], [d, ..]| d + 1 == c)),
        with("countdown-56", &|tables| {
            tables.tables.q = c.relation(|[c, ..], [d, ..]| d == 0 && c > 0);
        }),
    ]
}

/// The countdown from c = 3 alone.
fn starts() -> Vec<Claim> {
    let c = counter();
    let three = c.set(|[c, ..]| c == 3);
    let mut narrow = plain(&c);
    narrow.tables.p = three;
    let mut wider_body = narrow.clone().node(assignment);
    wider_body.children[0].tables.q = c.relation(|[c, ..], [d, ..]| c == 3 && d == 2);
    let whole = plain(&c);
    let outer = Tables { p: three, ..whole.tables.clone() };
    let exact = Tables { q: c.relation(|[c, ..], [d, ..]| c == 3 && d == 0), ..outer.clone() };
    vec![
        c.claim("start-42", count_down(0), narrow.node(assignment)),
        c.claim("start-38", count_down(0), wider_body),
        c.claim("start-73", count_down(0), weaken(exact, whole.clone().node(assignment))),
        c.claim("start", count_down(0), weaken(outer, whole.node(assignment))),
    ]
}

/// `while c > 0 do c ← c − 1 od; c ← 1` from c = 3: the loop is the left part.
fn before_an_assignment() -> Vec<Claim> {
    let c = counter();
    let statement = || sequence(count_down(0), store(0, number(1)));
    let three = c.set(|[c, ..]| c == 3);
    let mut whole = plain(&c);
    whole.tables.g = c.every_pair();
    let mut narrow = whole.clone();
    narrow.tables.p = three;
    let outer = Tables { p: three, ..whole.tables.clone() };
    let root = Tables { q: c.ending(|[c, ..]| c == 1), ..outer.clone() };
    let last = Tables { p: c.set(|[c, ..]| c == 0), ..root.clone() };
    let with = |name, left: Derivation| {
        c.claim(
            name,
            statement(),
            over(Step::Sequence, root.clone(), left, assignment(last.clone())),
        )
    };
    vec![
        with("left-42", narrow.node(assignment)),
        with("left-34", whole.clone().node(assignment)),
        with("left", weaken(outer, whole.node(assignment))),
    ]
}

/// flag = 0 and tries > 0, for the variables with these numbers.
pub fn waiting(flag: usize, tries: usize) -> Expression {
    and(equal(read(flag), number(0)), greater(read(tries), number(0)))
}

/// `tries ← tries − 1`.
pub fn fewer(tries: usize) -> Statement {
    store(tries, minus(read(tries), number(1)))
}

fn waits() -> Vec<Claim> {
    let w = world([("flag", 2), ("tries", 3)]);
    let tables = || Loop {
        tables: Tables {
            p: w.all(),
            r: w.relation(|[f, t, ..], [g, u, ..]| f == 0 && g == 1 && t == u),
            g: w.relation(|[f, t, ..], [g, u, ..]| f == g && u + 1 == t),
            q: w.relation(|[f, t, ..], [g, u, ..]| f <= g && u <= t && (g == 1 || u == 0)),
        },
        k: w.set(|[_, t, ..]| t > 0),
        w: w.relation(|[f, t, ..], [g, u, ..]| f <= g && u <= t && (f, t) != (g, u)),
    };
    let with = |name, change: &dyn Fn(&mut Loop)| {
        let mut tables = tables();
        change(&mut tables);
        w.claim(name, repeat(waiting(0, 1), fewer(1)), tables.node(assignment))
    };
    let lower = || w.relation(|[f, t, ..], [g, u, ..]| f == g && u < t);
    vec![
        with("wait", &|_| {}),
        with("wait-53", &|tables| tables.k = w.set(|[f, t, ..]| f == 0 && t > 0)),
        with("wait-55", &|tables| tables.w = lower()),
        with("wait-57", &|tables| tables.w = lower().join(&tables.tables.r)),
    ]
}

/// `while c > 0 do c ← c + 1`, which ends where c wraps; and with a test that is always true.
fn wraps() -> Vec<Claim> {
    let c = counter();
    let tables = || Loop {
        tables: Tables {
            p: c.all(),
            r: none(),
            g: c.relation(|[c, ..], [d, ..]| c > 0 && d == (c + 1) % 4),
            q: c.ending(|[c, ..]| c == 0),
        },
        k: c.set(|[c, ..]| c > 0),
        w: c.relation(|[c, ..], [d, ..]| c > 0 && (d > c || d == 0)),
    };
    let with = |name, test: Expression, change: &dyn Fn(&mut Loop)| {
        let mut tables = tables();
        change(&mut tables);
        let body = store(0, plus(read(0), number(1)));
        c.claim(name, repeat(test, body), tables.node(assignment))
    };
    let above_0 = || greater(read(0), number(0));
    vec![
        with("wrap", above_0(), &|_| {}),
        with("wrap-43", above_0(), &|tables| {
            tables.tables.g = c.relation(|[c, ..], [d, ..]| c > 0 && d == c + 1);
        }),
        with("wrap-42", above_0(), &|tables| {
            tables.w = c.relation(|[c, ..], [d, ..]| c > 0 && d > c);
        }),
        with("wrap-51", less(read(0), number(4)), &|tables| {
            (tables.k, tables.w) = (c.all(), c.every_pair());
        }),
    ]
}

/// An if as the body, and before a statement that descends.
fn ifs_in_a_body() -> Vec<Claim> {
    let c = counter();
    let more = |least| greater(read(0), number(least));
    let lower = || store(0, minus(read(0), number(1)));
    let maybe = || when(more(1), lower());
    let test_true = c.set(|[c, ..]| c > 1);
    let stuck = plain(&c).node(|tables| when_node(tables, test_true, assignment));
    let mut wider = plain(&c);
    wider.tables.g = c.relation(|[c, ..], [d, ..]| d < c);
    let descends = wider.node(|tables| {
        let at_least_1 = c.relation(|[c, ..], [d, ..]| d == (c - 1).max(1));
        let left = Tables { q: at_least_1, ..tables.clone() };
        let right = Tables { p: c.set(|[c, ..]| c == 1 || c == 2), ..tables.clone() };
        over(Step::Sequence, tables, when_node(left, test_true, assignment), assignment(right))
    });
    vec![
        c.claim("stuck-46", repeat(more(0), maybe()), stuck),
        c.claim("unstuck", repeat(more(0), sequence(maybe(), lower())), descends),
    ]
}

/// A wait without a bound.
fn idles() -> Vec<Claim> {
    let f = world([("flag", 2)]);
    let idle = || repeat(equal(read(0), number(0)), Statement::Nil);
    let raise = || f.relation(|[f, ..], [g, ..]| f < g);
    let same = || f.relation(|[f, ..], [g, ..]| f == g);
    let tables = |w| Loop {
        tables: Tables { p: f.all(), r: raise(), g: none(), q: f.ending(|[f, ..]| f == 1) },
        k: f.all(),
        w,
    };
    let mut wider_body = tables(raise()).node(skip);
    wider_body.children[0].tables.q = raise().join(&same());
    vec![
        f.claim("idle-35", idle(), tables(raise()).node(skip)),
        f.claim("idle-38", idle(), wider_body),
        f.claim("idle-51", idle(), tables(raise().join(&same())).node(skip)),
    ]
}
