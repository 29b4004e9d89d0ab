//! The program's text from its whole input: a byte K, then a chart file.

use crate::limits::MOST_INPUT;
use crate::refusal::{Answer, Refusal};
use crate::rewriting::Plan;

/// What the program prints for its input.
pub fn listing(input: &[u8]) -> String {
    match plan(input) {
        Ok((k, plan)) => text(k, &plan),
        Err(refusal) => format!("{refusal}\n"),
    }
}

/// Judges 16, then as the rewriting does, with room enough. No input at all is 1.
fn plan(input: &[u8]) -> Answer<(u8, Plan)> {
    if input.len() > MOST_INPUT {
        return Err(Refusal::nowhere(16));
    }
    let Some((&k, file)) = input.split_first() else {
        return Err(Refusal::nowhere(1));
    };
    Ok((k, Plan::of(file, u32::from(k))?))
}

/// The figures, then of each location its live timers with their board numbers.
fn text(k: u8, plan: &Plan) -> String {
    let entries: usize = plan.live().iter().map(|set| set.len() as usize).sum();
    let mut text = String::with_capacity(40 + 7 * plan.live().len() + 6 * entries);
    text += "used ";
    put(&mut text, u32::from(plan.used()));
    let floor = plan.floor();
    text += if floor.searched { " floor " } else { " seen " };
    put(&mut text, floor.timers);
    text += " limit ";
    put(&mut text, u32::from(k));
    text += "\n";
    for (location, set) in plan.live().iter().enumerate() {
        text += "at ";
        put(&mut text, location as u32);
        for timer in *set {
            text += " ";
            put(&mut text, u32::from(timer));
            text += ">";
            put(&mut text, u32::from(plan.number(location as u8, timer)));
        }
        text += "\n";
    }
    text
}

/// Appends a number below 1,000 in decimal.
fn put(text: &mut String, number: u32) {
    if number >= 100 {
        text.push(digit(number / 100));
    }
    if number >= 10 {
        text.push(digit(number / 10));
    }
    text.push(digit(number));
}

/// The last digit of a number.
fn digit(number: u32) -> char {
    char::from(b'0' + (number % 10) as u8)
}
