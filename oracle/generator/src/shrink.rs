//! Smaller cases with the same property.

use crate::case::{Case, Damage};

/// The smallest case found by leaving things out of this one while `keeps` stays true.
pub fn shrunk(mut case: Case, keeps: &dyn Fn(&Case) -> bool) -> Case {
    loop {
        let before = case.bytes().len();
        case = without_damage(case, keeps);
        case = with_fewer_offers(case, keeps);
        case = with_fewer_includes(case, keeps);
        case = with_plain_header(case, keeps);
        if case.bytes().len() >= before {
            return case;
        }
    }
}

/// The changed case if it keeps the property, otherwise the case.
fn tried(case: Case, keeps: &dyn Fn(&Case) -> bool, change: impl FnOnce(&mut Case)) -> Case {
    let mut smaller = case.clone();
    change(&mut smaller);
    if smaller != case && keeps(&smaller) {
        smaller
    } else {
        case
    }
}

fn without_damage(case: Case, keeps: &dyn Fn(&Case) -> bool) -> Case {
    tried(case, keeps, |case| case.damage = Damage::None)
}

/// Damage that names an offer or a length stays with the whole stream.
fn fixed(case: &Case) -> bool {
    matches!(case.damage, Damage::OfferPadding(_) | Damage::Cut(_))
}

fn with_fewer_offers(mut case: Case, keeps: &dyn Fn(&Case) -> bool) -> Case {
    if fixed(&case) {
        return with_fewer_around(case, keeps);
    }
    let mut stretch = case.stream.offers.len().next_power_of_two();
    while stretch > 0 {
        let mut end = case.stream.offers.len();
        while end > 0 {
            let start = end.saturating_sub(stretch);
            case = tried(case, keeps, |case| {
                case.stream.offers.drain(start..end);
            });
            end = start;
        }
        stretch /= 2;
    }
    case
}

/// Leaves out single offers, the damage following its offer or its place.
fn with_fewer_around(mut case: Case, keeps: &dyn Fn(&Case) -> bool) -> Case {
    for place in (0..case.stream.offers.len()).rev() {
        case = tried(case, keeps, |case| {
            let length = case.stream.offers.remove(place).bytes().len();
            match &mut case.damage {
                Damage::OfferPadding(offer) if *offer > place => *offer -= 1,
                Damage::OfferPadding(offer) if *offer == place => case.damage = Damage::None,
                Damage::Cut(left) => *left = left.saturating_sub(length),
                _ => {}
            }
        });
    }
    case
}

fn with_fewer_includes(mut case: Case, keeps: &dyn Fn(&Case) -> bool) -> Case {
    if fixed(&case) {
        return case;
    }
    for offer in 0..case.stream.offers.len() {
        for place in (0..case.stream.offers[offer].includes.len()).rev() {
            case = tried(case, keeps, |case| {
                case.stream.offers[offer].includes.remove(place);
            });
        }
    }
    case
}

fn with_plain_header(mut case: Case, keeps: &dyn Fn(&Case) -> bool) -> Case {
    if fixed(&case) {
        return case;
    }
    case = tried(case, keeps, |case| case.stream.header.leaders = 1);
    case = tried(case, keeps, |case| case.stream.header.stakes.fill(1));
    while case.stream.header.stakes.len() > 1 {
        let size = case.stream.header.stakes.len();
        case = tried(case, keeps, |case| {
            case.stream.header.stakes.pop();
        });
        if case.stream.header.stakes.len() == size {
            break;
        }
    }
    case
}
