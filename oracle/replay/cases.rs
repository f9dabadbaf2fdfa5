//! The stored calls and the random histories.
use crate::history::{History, Put};
use crate::malformed::{self, edited, EDITS};
use crate::numbers::Rng;
use crate::{own, points, queries, tables};

pub fn stored(put: Put) {
    tables::stored(put);
    queries::stored(put);
    own::stored(put);
    points::stored(put);
    malformed::stored(put);
    queries::touched_tables(put);
    long_histories(put);
}

/// A call, or several, that no lent list has to do with.
fn others(rng: &mut Rng, put: Put) {
    match rng.below(10) {
        0..=5 => points::any(rng, put),
        6 | 7 => own::random(rng, put),
        _ => malformed::random(rng, put),
    }
}

/// Histories of all kinds of calls, one after the other on the same lists.
fn long_histories(put: Put) {
    let rng = &mut Rng(20261104);
    for _ in 0..2 {
        History { class: "long histories", put }.reset();
        let mut long = |_: &'static str, line: &[u8]| put("long histories", line);
        (0..10).for_each(|_| random(rng, &mut long));
        queries::with_others_between(rng, &mut long, &mut others);
    }
    all_shown(put);
}

/// A history, with lines between that are no calls, made of its own.
pub fn random(rng: &mut Rng, put: Put) {
    let spoil = &mut Rng(rng.next());
    let mut with_edits = |class: &'static str, line: &[u8]| {
        put(class, line);
        let edit = spoil.below(EDITS.len());
        if spoil.chance(2) {
            if let Some(line) = edited(edit, line, spoil) {
                put(EDITS[edit], &line);
            }
        }
    };
    match rng.below(40) {
        0..=5 => tables::random(rng, &mut with_edits),
        6 | 7 => queries::with_others_between(rng, &mut with_edits, &mut others),
        8..=25 => queries::random(rng, &mut with_edits),
        26..=34 => own::random(rng, &mut with_edits),
        35..=37 => points::random(rng, &mut with_edits),
        38 => malformed::random(rng, put),
        _ => all_shown(put),
    }
}

fn all_shown(put: Put) {
    let history = &mut History { class: "all shown", put };
    history.dump_all();
    history.own_dump();
}
