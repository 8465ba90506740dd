//! Wrong in what is written: "A REFUSED CALL WRITES NOTHING", "leaves what lies beyond its rows,
//! its file, its line or its answer as it was".

use super::{answered, refused, Wrong};
use crate::lent::Lent;
use crate::library::Function;
use crate::model::MODEL;

pub const WRONG: &[Wrong] = &[
    (
        Function::Judge,
        "writes its answer where it refuses",
        |call| refused(MODEL.judge, call, |call| set_first(&mut call.answer)),
    ),
    (Function::Reason, "clears a short answer", |call| {
        refused(MODEL.reason, call, |call| call.answer.content_mut().fill(0))
    }),
    (Function::Plan, "writes rows where it refuses", |call| {
        refused(MODEL.plan, call, |call| set_first(&mut call.rows))
    }),
    (
        Function::Write,
        "writes its file where it refuses",
        |call| refused(MODEL.write, call, |call| set_first(&mut call.file)),
    ),
    (
        Function::Check,
        "touches the guard after its answer",
        |call| answered(MODEL.check, call, |call| *call.answer.after_mut() ^= 1),
    ),
    (
        Function::Plan,
        "touches the guard before its rows",
        |call| answered(MODEL.plan, call, |call| *call.rows.before_mut() ^= 1),
    ),
    (
        Function::Write,
        "touches the guard after its file",
        |call| answered(MODEL.write, call, |call| *call.file.after_mut() ^= 1),
    ),
    (
        Function::Judge,
        "touches the guard before the file",
        |call| answered(MODEL.judge, call, |call| *call.file.before_mut() ^= 1),
    ),
    (Function::Least, "changes the file", |call| {
        answered(MODEL.least, call, |call| call.file.content_mut()[0] ^= 1)
    }),
    (Function::Check, "sorts the rows", |call| {
        answered(MODEL.check, call, |call| call.rows.content_mut().sort())
    }),
    (Function::Write, "changes the jobs", |call| {
        answered(MODEL.write, call, |call| call.jobs.content_mut()[0] ^= 1)
    }),
    (Function::Least, "clears the rows beyond its plan", |call| {
        answered(MODEL.least, call, |call| {
            let written = 4 * call.answer.content()[1] as usize;
            call.rows.content_mut()[written..].fill(0);
        })
    }),
    (
        Function::Write,
        "clears the bytes beyond its file",
        |call| {
            answered(MODEL.write, call, |call| {
                let written = call.answer.content()[0] as usize;
                call.file.content_mut()[written..].fill(0);
            })
        },
    ),
    (
        Function::Reason,
        "clears a longer answer to its end",
        |call| {
            answered(MODEL.reason, call, |call| {
                call.answer.content_mut()[19..].fill(0)
            })
        },
    ),
    (
        Function::Sentence,
        "writes what fits of a line that is too long",
        |call| {
            refused(MODEL.sentence, call, |call| {
                call.line.content_mut().fill(b'm')
            })
        },
    ),
    (
        Function::Sentence,
        "writes its answer where it refuses",
        |call| refused(MODEL.sentence, call, |call| set_first(&mut call.answer)),
    ),
    (
        Function::Sentence,
        "clears the bytes beyond its line",
        |call| {
            answered(MODEL.sentence, call, |call| {
                let written = call.answer.content()[0] as usize;
                call.line.content_mut()[written..].fill(0);
            })
        },
    ),
    (
        Function::Sentence,
        "closes its line with a 0 where it fits",
        |call| {
            answered(MODEL.sentence, call, |call| {
                let written = call.answer.content()[0] as usize;
                if let Some(byte) = call.line.content_mut().get_mut(written) {
                    *byte = 0;
                }
            })
        },
    ),
    (
        Function::Sentence,
        "leaves its answer where the line is empty",
        |call| {
            let before = call.answer.content().first().copied();
            answered(MODEL.sentence, call, |call| {
                if call.answer.content()[0] == 0 {
                    call.answer.put(before.as_slice());
                }
            })
        },
    ),
    (Function::Sentence, "changes the reason", |call| {
        answered(MODEL.sentence, call, |call| {
            call.reason.content_mut()[18] ^= 1
        })
    }),
    (
        Function::Sentence,
        "touches the guard after its line",
        |call| answered(MODEL.sentence, call, |call| *call.line.after_mut() ^= 1),
    ),
    (Function::Parse, "changes the line", |call| {
        answered(MODEL.parse, call, |call| {
            call.line.content_mut().make_ascii_uppercase()
        })
    }),
    (Function::Parse, "clears a short answer", |call| {
        refused(MODEL.parse, call, |call| call.answer.content_mut().fill(0))
    }),
    (
        Function::Parse,
        "clears a longer answer to its end",
        |call| {
            answered(MODEL.parse, call, |call| {
                call.answer.content_mut()[19..].fill(0)
            })
        },
    ),
];

fn set_first<T: Copy + Default + PartialEq>(lent: &mut Lent<T>) {
    if let Some(first) = lent.content_mut().first_mut() {
        *first = T::default();
    }
}
