//! The cases, by 01's sections and 02's requests.

mod asking;
mod checks;
mod deep;
mod editions;
mod examining;
mod headers;
mod locating;
mod opening;
mod order;
mod pages;
mod place;
mod readers;
mod standing;
mod walking;

use super::base;
use super::case::{join, Base, Case};
use super::seeded;

pub fn all() -> Vec<(Base, Vec<Case>)> {
    let standard = vec![
        pages::cases(),
        asking::cases(),
        walking::cases(),
        examining::cases(),
        locating::cases(),
        order::cases(),
        readers::cases(),
        seeded::cases(),
        editions::standard_cases(),
    ];
    vec![
        (base::standard_base(), join(standard)),
        (base::tiny_base(), join(vec![place::cases(), checks::cases()])),
        (base::single_base(), join(vec![headers::cases(), editions::header_cases()])),
        (base::lone_base(), standing::cases()),
        (base::forked_base(), join(vec![opening::cases(), editions::opening_cases()])),
        (base::nested_base(), locating::nested_cases()),
        (base::deep_base(), deep::cases()),
    ]
}
