//! Rates filled in where rows are under views.

use super::{are_filled, are_refused, at, has_none, OPEN};

/// A view joins its result with a, up and down: two flows under one view have equal rates, the flow seen has another.
#[test]
fn up_and_down() {
    for kind in [17, 18] {
        let both = |a, b| [a, at(4, 1), [kind, 0, 1, 12], b, [kind, 3, 1, 12], [2, 2, 4, 0]];
        are_filled(&both(OPEN, at(6, 3)), &[(6, 3)]);
        are_filled(&both(at(6, 3), OPEN), &[(6, 3)]);
        are_refused(&both(OPEN, OPEN), 39, 0);
        has_none(&both(OPEN, at(8, 3)));
        has_none(&both(OPEN, at(6, 0)));
    }
}

/// The flow seen does not tell a rate, nor is it told one.
#[test]
fn seen_alone() {
    for kind in [17, 18] {
        are_refused(&[OPEN, at(4, 1), [kind, 0, 1, 4]], 39, 0);
        are_refused(&[at(4, 1), OPEN, [kind, 0, 1, 4]], 39, 1);
        are_refused(&[OPEN, at(4, 1), [kind, 1, 0, 4]], 39, 0);
        are_refused(&[at(4, 1), OPEN, [kind, 0, 1, 4], [14, 2, 2, 0], [7, 5, 3, 2]], 39, 1);
    }
}

/// Where another row joins the flow seen it is filled in; then both periods have to suit the view, and the phases.
#[test]
fn seen_and_joined() {
    for kind in [17, 18] {
        let seen = |w, beside| [at(6, 3), OPEN, beside, [2, 1, 2, 0], [kind, 0, 1, w]];
        are_filled(&seen(12, at(4, 1)), &[(4, 1)]);
        are_filled(&seen(4092, at(4, 3)), &[(4, 3)]);
        are_filled(&seen(6, at(6, 0)), &[(6, 0)]);
        has_none(&seen(12, at(4, 4)));
        has_none(&seen(18, at(4, 1)));
        has_none(&seen(8, at(4, 1)));
        has_none(&seen(12, at(5, 0)));
    }
}

/// Nothing to fill in: the views as they are, or what the check refuses of them.
#[test]
fn nothing_open() {
    for kind in [17, 18] {
        are_filled(&[at(6, 3), at(4, 1), [kind, 0, 1, 12]], &[]);
        has_none(&[at(6, 3), at(4, 4), [kind, 0, 1, 12]]);
        has_none(&[at(6, 3), at(4, 1), [kind, 0, 1, 6]]);
        has_none(&[at(6, 3), [13, 0, 0, 0], [kind, 0, 1, 6]]);
        has_none(&[at(6, 3), [kind, 0, 0, 6], [kind, 1, 0, 6]]);
    }
}
