//! Wrong in which bytes are read: "Each line composed for a reason reads back .. any other line to
//! none."

use super::{accepted, answered, Wrong};
use crate::expect::reason_numbers;
use crate::independent::{line_of, read_back, staircases, standing, Order, Reason};
use crate::lent::Call;
use crate::library::Function;
use crate::model::MODEL;

const FEW: usize = 300;

pub const WRONG: &[Wrong] = &[
    (Function::Parse, "reads leading zeros", |call| {
        reads(call, |line| {
            numbers(line, |digits| plain(digits).to_string())
        })
    }),
    (Function::Parse, "reads numbers in 32 bits", |call| {
        reads(call, |line| numbers(line, in_32_bits))
    }),
    (Function::Parse, "reads a plus sign", |call| {
        reads(call, |line| line.replace('+', ""))
    }),
    (Function::Parse, "reads -0", |call| {
        reads(call, |line| line.replace(" -0", " 0"))
    }),
    (Function::Parse, "reads capital letters", |call| {
        reads(call, str::to_ascii_lowercase)
    }),
    (Function::Parse, "reads a line feed at the end", |call| {
        reads(call, |line| line.trim_end_matches('\n').to_string())
    }),
    (Function::Parse, "reads up to a 0", |call| {
        reads(call, |line| line.replace('\0', " ").trim_end().to_string())
    }),
    (Function::Parse, "reads spaces at the ends", |call| {
        reads(call, |line| line.trim_matches(' ').to_string())
    }),
    (Function::Parse, "reads a line by its beginning", |call| {
        finds(call, |line, told| line.starts_with(told))
    }),
    (Function::Parse, "reads a line that is cut", |call| {
        finds(call, |line, told| {
            told.starts_with(line) && !line.is_empty()
        })
    }),
    (Function::Parse, "does not look at the last byte", |call| {
        finds(call, |line, told| {
            let last = told.len() - 1;
            line.len() == told.len() && line[..last] == told[..last]
        })
    }),
    (Function::Parse, "counts the line in 8 bits", |call| {
        finds(call, |line, told| line[..line.len() % 256] == *told)
    }),
    (Function::Parse, "counts the line in 16 bits", |call| {
        finds(call, |line, told| line[..line.len() % 65_536] == *told)
    }),
    (
        Function::Parse,
        "reads an empty line as the first",
        |call| finds(call, |line, told| line == told || line.is_empty()),
    ),
];

/// Reads another line in place of the one lent, where it is text.
fn reads(call: &mut Call, change: fn(&str) -> String) -> u32 {
    answered(MODEL.parse, call, |call| {
        if let Ok(line) = std::str::from_utf8(call.line.content()) {
            let line = change(line);
            tell(call, |order, bound, _| {
                read_back(order, bound, line.as_bytes())
            });
        }
    })
}

/// Looks for the line among all that compose, by another comparison.
fn finds(call: &mut Call, equal: fn(&[u8], &[u8]) -> bool) -> u32 {
    answered(MODEL.parse, call, |call| {
        tell(call, |order, bound, line| {
            if staircases(order) > FEW {
                return read_back(order, bound, line);
            }
            let mut all = standing(order, bound).into_iter();
            all.find(|reason| equal(line, line_of(order, bound, reason).as_bytes()))
        });
    })
}

/// Answers another reason.
pub fn tell(call: &mut Call, read: impl Fn(&Order, i32, &[u8]) -> Option<Reason>) {
    let order = accepted(call).expect("the call was answered");
    let told = read(&order, call.bound, call.line.content());
    call.answer.put(&reason_numbers(told));
}

/// The line with each run of digits changed.
fn numbers(line: &str, change: fn(&str) -> String) -> String {
    let mut changed = String::new();
    let mut rest = line;
    while let Some(at) = rest.find(|letter: char| letter.is_ascii_digit()) {
        let (words, digits) = rest.split_at(at);
        let end = digits.find(|letter: char| !letter.is_ascii_digit());
        let (digits, after) = digits.split_at(end.unwrap_or(digits.len()));
        changed += words;
        changed += &change(digits);
        rest = after;
    }
    changed + rest
}

/// Digits without zeros before them.
fn plain(digits: &str) -> &str {
    let zeros = digits.len() - digits.trim_start_matches('0').len();
    &digits[zeros.min(digits.len() - 1)..]
}

/// Digits as a number that is counted in 32 bits.
fn in_32_bits(digits: &str) -> String {
    match digits.parse::<u128>() {
        Ok(number) if plain(digits) == digits => (number % (1 << 32)).to_string(),
        _ => digits.to_string(),
    }
}
