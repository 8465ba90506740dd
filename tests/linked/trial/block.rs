//! What a block holds against what the same library tells a screen of the same file; and all 256 bytes of a block
//! against the request's.

use super::{told, Trial};
use crate::compare::unequal;
use crate::expect::block::lying;
use crate::independent::{joins, Block, Outcome};
use crate::lent::{held_rows, Call};
use crate::library::{Function, BLOCK_ROWS};

/// No byte has it.
const NO_BYTE: i32 = -1;

impl Trial {
    /// The rows that a block holds after a command are those of the screen's plan at the bound or at the least
    /// lateness, number by number; none once a difference was found.
    pub fn held_as_told(&mut self, outcome: Outcome, after: &Call) -> Option<()> {
        let (function, bound) = match outcome {
            Outcome::AtBound(bound) => (Function::ScreenPlan, bound),
            Outcome::AtLeast(least) => (Function::ScreenLeast, least),
            Outcome::Cleared | Outcome::Refused(_) => return Some(()),
        };
        let rows = held_rows(after.rows.content());
        let made = joins(self.known.order(), bound.into(), &rows);
        self.tally.count_joins(Function::BlockWrite, made);
        let file = lying(after).order_file().unwrap_or_default().to_vec();
        let call = Call::with_file(&mut self.random, &file, function.answer_length())
            .with_rows(&mut self.random, &[0; BLOCK_ROWS])
            .at(bound);
        let (_, reply) = self.call(function, call)?;
        if reply.rows.content() == &after.rows.content()[..BLOCK_ROWS] {
            return Some(());
        }
        let (name, part, seed) = (function.name(), self.part, self.seed);
        let lines = [
            format!("the rows held are not those of {name} in part {part}, seed {seed}"),
            told("left by it", &reply),
            told("left", after),
        ];
        self.difference = Some(lines.join("\n"));
        None
    }

    /// Reads all 256 bytes: each is the block's, and nothing but the answer's first number changes.
    pub fn read_all(&mut self, call: &Call, block: &Block) {
        if self.difference.is_some() {
            return;
        }
        let read = self.library.entry(Function::BlockRead);
        let mut after = call.clone();
        for address in 0..=255 {
            after.address = address;
            after.answer.put(&[NO_BYTE]);
            let result = read(&mut after);
            let (is, should) = (after.answer.content()[0], block.read(address).into());
            if result != 0 || is != should {
                let what = format!("byte {address}: result {result}, {is}, not {should}");
                return self.read_wrong(&what, block, call);
            }
        }
        after.answer.put(&call.answer.content()[..1]);
        if let Some(wrong) = unequal(call, &after) {
            return self.read_wrong(&wrong, block, call);
        }
        self.tally.count_reads(256);
    }

    fn read_wrong(&mut self, wrong: &str, block: &Block, call: &Call) {
        let (part, seed) = (self.part, self.seed);
        let lines = [
            format!("hbr_block_read differs in part {part}, seed {seed}: {wrong}"),
            format!("expected: {block:?}"),
            told("lent", call),
        ];
        self.difference = Some(lines.join("\n"));
    }
}
