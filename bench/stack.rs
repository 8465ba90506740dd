//! The stack that each call takes, in bytes: every call runs on a stack of its own, and the lowest byte that it changed is looked
//! up. All drawn orders of the benchmark with their tables of needs and their highs, those with ready minutes and windows and those
//! that a screen and a register block hold too; calls that succeed and calls that are refused, at several bounds.

mod blocks;
#[allow(dead_code)]
mod cases;
mod estimates;
#[allow(dead_code)]
mod families;
#[allow(dead_code)]
#[path = "../link/highboyrobin.rs"]
mod highboyrobin;
mod orders;
#[allow(dead_code)]
mod plain;
mod random;
mod screens;
mod tables;
#[allow(dead_code)]
mod timed;
mod worst;

use blocks::Block;
use cases::{Case, CLASS_NUMBERS, LINE_MOST, ROWS_MOST, TIMED_ROWS_MOST};
use estimates::Estimate;
use highboyrobin::{raw, MOST_BYTES, MOST_MAKERS};
use std::arch::asm;
use tables::{Table, LENGTHS};
use timed::Timed;

const SEED: u64 = 2;

struct Function {
    name: &'static str,
    address: *const (),
}

const WRITE: Function = function("hbr_write", raw::hbr_write as *const ());
const JUDGE: Function = function("hbr_judge", raw::hbr_judge as *const ());
const CLASSES: Function = function("hbr_classes", raw::hbr_classes as *const ());
const NEEDS: Function = function("hbr_needs", raw::hbr_needs as *const ());
const CHECK: Function = function("hbr_check", raw::hbr_check as *const ());
const PARSE: Function = function("hbr_parse", raw::hbr_parse as *const ());
const SENTENCE: Function = function("hbr_sentence", raw::hbr_sentence as *const ());
const REASON: Function = function("hbr_reason", raw::hbr_reason as *const ());
const PLAN: Function = function("hbr_plan", raw::hbr_plan as *const ());
const LEAST: Function = function("hbr_least", raw::hbr_least as *const ());
const BOOK_PLAN: Function = function("hbr_book_plan", raw::hbr_book_plan as *const ());
const BOOK_LEAST: Function = function("hbr_book_least", raw::hbr_book_least as *const ());
const TIMED_ROWS: Function = function("hbr_timed_rows", raw::hbr_timed_rows as *const ());
const TIMED_CHECK: Function = function("hbr_timed_check", raw::hbr_timed_check as *const ());
const TIMED_PLAN: Function = function("hbr_timed_plan", raw::hbr_timed_plan as *const ());
const BETWEEN: Function = function("hbr_between", raw::hbr_between as *const ());
const BETWEEN_ORDER: Function = function("hbr_between_order", raw::hbr_between_order as *const ());
const SCREEN_JUDGE: Function = function("hbr_screen_judge", raw::hbr_screen_judge as *const ());
const SCREEN_CHECK: Function = function("hbr_screen_check", raw::hbr_screen_check as *const ());
const SCREEN_SENTENCE: Function =
    function("hbr_screen_sentence", raw::hbr_screen_sentence as *const ());
const SCREEN_REASON: Function = function("hbr_screen_reason", raw::hbr_screen_reason as *const ());
const SCREEN_PLAN: Function = function("hbr_screen_plan", raw::hbr_screen_plan as *const ());
const SCREEN_LEAST: Function = function("hbr_screen_least", raw::hbr_screen_least as *const ());
const BLOCK_CLEAR: Function = function("hbr_block_clear", raw::hbr_block_clear as *const ());
const BLOCK_READ: Function = function("hbr_block_read", raw::hbr_block_read as *const ());
const BLOCK_WRITE: Function = function("hbr_block_write", raw::hbr_block_write as *const ());
const FUNCTIONS: [Function; 26] = [
    WRITE,
    JUDGE,
    CLASSES,
    NEEDS,
    CHECK,
    PARSE,
    SENTENCE,
    REASON,
    PLAN,
    LEAST,
    BOOK_PLAN,
    BOOK_LEAST,
    TIMED_ROWS,
    TIMED_CHECK,
    TIMED_PLAN,
    BETWEEN,
    BETWEEN_ORDER,
    SCREEN_JUDGE,
    SCREEN_CHECK,
    SCREEN_SENTENCE,
    SCREEN_REASON,
    SCREEN_PLAN,
    SCREEN_LEAST,
    BLOCK_CLEAR,
    BLOCK_READ,
    BLOCK_WRITE,
];

const fn function(name: &'static str, address: *const ()) -> Function {
    Function { name, address }
}

/// A function with its arguments as the calling convention has them, the first six in registers and the others on the stack, and
/// the result that it must give.
struct Call {
    function: Function,
    arguments: Vec<u64>,
    result: u32,
}

const IN_REGISTERS: usize = 6;

const STACK_BYTES: usize = 1 << 18;

#[repr(align(16))]
struct Stack([u8; STACK_BYTES]);

/// A byte written differs from one of the two.
const FILLINGS: [u8; 2] = [0x55, 0xAA];

impl Call {
    fn of(function: Function, arguments: &[Vec<u64>], result: u32) -> Call {
        Call {
            function,
            arguments: arguments.concat(),
            result,
        }
    }

    /// The bytes from the top of the stack down to the lowest that the call changed: its arguments there, return addresses and
    /// frames.
    fn depth(&self, stack: &mut Stack) -> usize {
        let [one, other] = FILLINGS.map(|filling| self.depth_over(stack, filling));
        one.max(other)
    }

    fn depth_over(&self, stack: &mut Stack, filling: u8) -> usize {
        stack.0.fill(filling);
        let on_stack = self.arguments.get(IN_REGISTERS..).unwrap_or(&[]);
        let start = STACK_BYTES - (8 * on_stack.len()).next_multiple_of(16);
        for (place, argument) in stack.0[start..].chunks_exact_mut(8).zip(on_stack) {
            place.copy_from_slice(&argument.to_ne_bytes());
        }
        // SAFETY: the arguments are the function's, and what it is lent is alive.
        let result = unsafe { self.run(stack.0.as_mut_ptr().add(start)) };
        assert_eq!(result, self.result, "{}", self.function.name);
        let kept = stack.0.iter().take_while(|&&byte| byte == filling).count();
        assert!(0 < kept, "the stack is too short");
        STACK_BYTES - kept
    }

    /// Runs the call on the stack below a place.
    unsafe fn run(&self, top: *mut u8) -> u32 {
        let mut first = self.arguments.clone();
        first.resize(IN_REGISTERS.max(first.len()), 0);
        let result: u32;
        asm!(
            "mov r12, rsp",
            "mov rsp, r13",
            "call r14",
            "mov rsp, r12",
            out("r12") _,
            in("r13") top,
            in("r14") self.function.address,
            in("rdi") first[0],
            in("rsi") first[1],
            in("rdx") first[2],
            in("rcx") first[3],
            in("r8") first[4],
            in("r9") first[5],
            lateout("eax") result,
            clobber_abi("C"),
        );
        result
    }
}

/// What the calls write to.
struct Lent {
    file: Vec<u8>,
    classes: Vec<u32>,
    needs: Vec<u32>,
    rows: Vec<u32>,
    line: Vec<u8>,
    /// opened
    book: Vec<u32>,
    /// no count can be added to, and no number is left of one
    full: Vec<u32>,
    block: Block,
    answer: [i32; 19],
}

fn read<T>(list: &[T]) -> Vec<u64> {
    vec![list.as_ptr() as u64, list.len() as u64]
}

fn lend<T>(list: &mut [T]) -> Vec<u64> {
    vec![list.as_mut_ptr() as u64, list.len() as u64]
}

fn number(n: i32) -> Vec<u64> {
    vec![n as u64]
}

fn calls(case: &Case, lists: &[u32], lent: &mut Lent) -> Vec<Call> {
    let mut calls = Vec::new();
    let mut add = |function: Function, arguments: &[Vec<u64>], result: u32| {
        calls.push(Call::of(function, arguments, result));
    };
    let answer = lend(&mut lent.answer);
    let file = read(&case.file);
    let (memories, jobs) = lists.split_at(lists.len() - 4 * 48);
    for (jobs, room, result) in [(jobs, MOST_BYTES, 0), (jobs, 11, 9), (&jobs[1..], 11, 254)] {
        let written = lend(&mut lent.file[..room]);
        let arguments = [read(memories), read(jobs), written, answer.clone()];
        add(WRITE, &arguments, result);
    }
    add(JUDGE, &[file.clone(), answer.clone()], 0);
    let short = read(&case.file[1..]);
    add(JUDGE, &[short.clone(), answer.clone()], 12);
    for (file, room, result) in [
        (&file, CLASS_NUMBERS, 0),
        (&short, CLASS_NUMBERS, 12),
        (&short, CLASS_NUMBERS - 1, 253),
    ] {
        let classes = lend(&mut lent.classes[..room]);
        add(CLASSES, &[file.clone(), classes, answer.clone()], result);
    }
    for rows in [&case.plan, &case.long_plan, &case.plan[4..]] {
        let bound = number(case.least);
        let arguments = [file.clone(), bound, read(rows), answer.clone()];
        add(CHECK, &arguments, 0);
    }
    let bounds = [case.least, case.looser, 10_000_000];
    let tight = [case.least - 1, -10_000_000];
    let bounds = bounds.map(|bound| (bound, 0, 0));
    let tight = tight.map(|bound| (bound, 0, 10));
    let outside = [(10_000_001, 8, 8)];
    for (bound, of_reason, of_plan) in [&bounds[..], &tight, &outside].concat() {
        let bound = number(bound);
        let rows = lend(&mut lent.rows);
        let arguments = [file.clone(), bound.clone(), answer.clone()];
        add(REASON, &arguments, of_reason);
        let arguments = [file.clone(), bound, rows, answer.clone()];
        add(PLAN, &arguments, of_plan);
    }
    for (room, result) in [(4 * ROWS_MOST, 0), (3, 9)] {
        let rows = lend(&mut lent.rows[..room]);
        add(LEAST, &[file.clone(), rows, answer.clone()], result);
    }
    calls.extend(need_calls(case, lent));
    calls.extend(book_calls(case, lent));
    calls.extend(sentence_calls(case, lent));
    calls.extend(parse_calls(case, lent));
    calls.extend(between_calls(case, jobs, lent));
    calls
}

/// A length out of range, and a table that has one line twice.
static NO_LENGTH: [u32; 1] = [0];
static WHOLE_TWICE: [u32; 6] = [1, 100_000, 0, 1, 100_000, 0];

/// The needs from a case's table, and those of no length; then refusals, also of a table that lacks a line.
fn need_calls(case: &Case, lent: &mut Lent) -> Vec<Call> {
    let Table { numbers, lengths } = &case.table;
    let answer = lend(&mut lent.answer);
    let unmet = 17 + 256 * numbers[0];
    let given: [(&[u32], &[u32], usize, u32); 6] = [
        (numbers, lengths, LENGTHS, 0),
        (numbers, &[], 0, 0),
        (numbers, lengths, LENGTHS - 1, 9),
        (numbers, &NO_LENGTH, LENGTHS, 5 + 256),
        (&numbers[3..], lengths, LENGTHS, unmet),
        (&WHOLE_TWICE, lengths, LENGTHS, 18 + 256),
    ];
    let call = |(table, lengths, room, result)| {
        let needs = lend(&mut lent.needs[..room]);
        let arguments = [read(table), read(lengths), needs, answer.clone()];
        Call::of(NEEDS, &arguments, result)
    };
    given.map(call).into()
}

/// Booked plans, each from the same book, which the calls add to; then refusals, with a full book too.
fn book_calls(case: &Case, lent: &mut Lent) -> Vec<Call> {
    let (file, short) = (read(&case.file), read(&case.file[1..]));
    let answer = lend(&mut lent.answer);
    let (rows, no_rows) = (lend(&mut lent.rows), lend(&mut lent.rows[..3]));
    let (book, full) = (lend(&mut lent.book), lend(&mut lent.full));
    let no_book = lend(&mut lent.book[1..]);
    let given = [
        (&file, case.least, &rows, &book, [0, 0]),
        (&file, case.looser, &rows, &book, [0, 0]),
        (&file, 10_000_000, &rows, &book, [0, 0]),
        (&file, case.least - 1, &rows, &full, [14, 10]),
        (&file, case.least, &rows, &full, [14, 14]),
        (&file, 10_000_001, &no_rows, &full, [9, 8]),
        (&file, case.least, &no_rows, &full, [9, 9]),
        (&short, case.least, &rows, &full, [12, 12]),
        (&short, case.least, &rows, &no_book, [253, 253]),
    ];
    let both = given.map(|(file, bound, rows, book, [of_least, of_plan])| {
        let [file, rows, book] = [file, rows, book].map(Clone::clone);
        let least = [file.clone(), rows.clone(), book.clone(), answer.clone()];
        let plan = [file, number(bound), rows, book, answer.clone()];
        [
            Call::of(BOOK_LEAST, &least, of_least),
            Call::of(BOOK_PLAN, &plan, of_plan),
        ]
    });
    both.into_iter().flatten().collect()
}

/// The reason of a case, at other bounds too, and no reason; then refusals.
fn sentence_calls(case: &Case, lent: &mut Lent) -> Vec<Call> {
    let tight = case.least - 1;
    let (file, reason) = (&case.file[..], &case.reason[..]);
    let answer = lend(&mut lent.answer);
    let given: [(&[u8], i32, &[i32], usize, u32); 9] = [
        (file, tight, reason, LINE_MOST, 0),
        (file, tight, reason, case.line.len(), 0),
        (file, case.least, reason, 0, 0),
        (file, -10_000_000, reason, LINE_MOST, 0),
        (file, tight, &[0; 19], 0, 0),
        (file, 10_000_001, reason, LINE_MOST, 8),
        (file, tight, reason, case.line.len() - 1, 9),
        (&file[1..], tight, reason, LINE_MOST, 12),
        (file, tight, &reason[1..], LINE_MOST, 253),
    ];
    let call = |(file, bound, reason, room, result)| {
        let line = lend(&mut lent.line[..room]);
        let (file, bound, reason) = (read(file), number(bound), read(reason));
        let arguments = [file, bound, reason, line, answer.clone()];
        Call::of(SENTENCE, &arguments, result)
    };
    given.map(call).into()
}

/// The line of that reason, at other bounds too, an empty one, and two that are no reason's; then refusals.
fn parse_calls(case: &Case, lent: &mut Lent) -> Vec<Call> {
    let tight = case.least - 1;
    let (file, line) = (&case.file[..], &case.line[..]);
    let answer = lend(&mut lent.answer);
    let given: [(&[u8], i32, &[u8], u32); 8] = [
        (file, tight, line, 0),
        (file, case.least, line, 0),
        (file, -10_000_000, line, 0),
        (file, tight, b"", 0),
        (file, tight, &line[1..], 0),
        (file, tight, &line[..line.len() - 1], 0),
        (file, 10_000_001, line, 8),
        (&file[1..], tight, line, 12),
    ];
    let call = |(file, bound, line, result)| {
        let arguments = [read(file), number(bound), read(line), answer.clone()];
        Call::of(PARSE, &arguments, result)
    };
    given.map(call).into()
}

/// Highs of a minute, and highs out of range.
static ONE_MINUTE: [u32; 48] = [1; 48];
static NO_MINUTE: [u32; 48] = [0; 48];

/// The least lateness at lows and highs, and orders of several numbers, of none, too; then refusals.
fn between_calls(case: &Case, jobs: &[u32], lent: &mut Lent) -> Vec<Call> {
    let Estimate {
        highs,
        at_lows,
        at_highs,
        number: middle,
    } = &case.estimate;
    let (file, short) = (read(&case.file), read(&case.file[1..]));
    let answer = lend(&mut lent.answer);
    let (order, no_order) = (lend(&mut lent.file), lend(&mut lent.file[..11]));
    let longer = jobs.chunks_exact(4).position(|job| 1 < job[0]);
    let above = 19 + 256 * (1 + longer.expect("a job of more than a minute") as u32);
    let refused: [(&Vec<u64>, &[u32], u32); 4] = [
        (&file, &ONE_MINUTE, above),
        (&file, &NO_MINUTE, 5 + 256),
        (&file, &highs[1..], 253),
        (&short, highs, 12),
    ];
    let mut calls = Vec::new();
    let arguments = [file.clone(), read(highs), answer.clone()];
    calls.push(Call::of(BETWEEN, &arguments, 0));
    for (file, highs, result) in refused {
        let arguments = [file.clone(), read(highs), answer.clone()];
        calls.push(Call::of(BETWEEN, &arguments, result));
        let lists = [file.clone(), read(highs), number(*middle)].concat();
        let arguments = [lists, order.clone(), answer.clone()];
        calls.push(Call::of(BETWEEN_ORDER, &arguments, result));
    }
    for (asked, room, result) in [
        (*at_lows, &order, 0),
        (*middle, &order, 0),
        (*at_highs, &order, 0),
        (at_lows - 1, &no_order, 0),
        (at_highs + 1, &no_order, 0),
        (*middle, &no_order, 9),
    ] {
        let lists = [file.clone(), read(highs), number(asked)].concat();
        let arguments = [lists, room.clone(), answer.clone()];
        calls.push(Call::of(BETWEEN_ORDER, &arguments, result));
    }
    calls
}

/// The six calls of a screen on an order that it holds: at several bounds, and with room for no row; then refusals.
fn screen_calls(case: &Case, lent: &mut Lent) -> Vec<Call> {
    let file = read(&case.file);
    let (rows, no_rows) = (lend(&mut lent.rows), lend(&mut lent.rows[..3]));
    let (line, answer) = (lend(&mut lent.line), lend(&mut lent.answer));
    let (reason, plan) = (read(&case.reason), read(&case.plan));
    let mut calls = Vec::new();
    let mut add = |function: Function, arguments: &[&Vec<u64>], result: u32| {
        let arguments: Vec<Vec<u64>> = arguments.iter().map(|&own| own.clone()).collect();
        calls.push(Call::of(function, &arguments, result));
    };
    add(SCREEN_JUDGE, &[&file, &answer], 0);
    add(SCREEN_JUDGE, &[&read(&case.file[1..]), &answer], 12);
    add(SCREEN_LEAST, &[&file, &rows, &answer], 0);
    add(SCREEN_LEAST, &[&file, &no_rows, &answer], 9);
    for (bound, of_bound, of_plan) in [
        (case.least, 0, 0),
        (case.looser, 0, 0),
        (10_000_000, 0, 0),
        (case.least - 1, 0, 10),
        (-10_000_000, 0, 10),
        (10_000_001, 8, 8),
    ] {
        let bound = number(bound);
        add(SCREEN_PLAN, &[&file, &bound, &rows, &answer], of_plan);
        add(SCREEN_REASON, &[&file, &bound, &answer], of_bound);
        let arguments = [&file, &bound, &reason, &line, &answer];
        add(SCREEN_SENTENCE, &arguments, of_bound);
        add(SCREEN_CHECK, &[&file, &bound, &plan, &answer], of_bound);
    }
    calls
}

/// The bytes of a block that are read, one of each kind; and those that are written, but for the command.
static READ: [u8; 11] = [0, 1, 2, 3, 4, 8, 12, 16, 31, 40, 255];
static WRITTEN: [(u8, u8); 7] = [(1, 7), (2, 9), (3, 1), (10, 1), (16, 9), (251, 0), (255, 9)];

/// The three calls of a block in which the file of a case lies, which must be at its place when they run: commands that plan, at
/// several bounds, and that are refused, each with reads and other writes after it, and last a cleared block; then refusals.
fn block_calls(case: &Case, lent: &mut Lent) -> Vec<Call> {
    lent.block = blocks::planned(&case.file, case.least);
    let Block { bytes, rows } = &mut lent.block;
    let (block, short) = (lend(bytes), lend(&mut bytes[1..]));
    let (held, few) = (lend(rows), lend(&mut rows[1..]));
    let answer = lend(&mut lent.answer);
    let no_answer = lend(&mut lent.answer[..0]);
    let byte = |n: u8| vec![u64::from(n)];
    let write = |address: u8, value: u8| {
        let arguments = [block.clone(), held.clone(), byte(address), byte(value)];
        Call::of(BLOCK_WRITE, &arguments, 0)
    };
    let read = |address: &u8| {
        let arguments = [block.clone(), held.clone(), byte(*address), answer.clone()];
        Call::of(BLOCK_READ, &arguments, 0)
    };
    let mut calls = Vec::new();
    let met = [case.least, case.looser, 10_000_000];
    let not_met = [case.least - 1, -10_000_000, 10_000_001];
    for bound in [met, not_met].concat() {
        for (address, value) in (4..).zip(bound.to_le_bytes()) {
            calls.push(write(address, value));
        }
        for command in [1, 2, 0, 255] {
            calls.push(write(0, command));
            calls.extend(READ.iter().map(read));
            calls.extend(WRITTEN.map(|(address, value)| write(address, value)));
        }
    }
    calls.push(write(9, 1));
    calls.extend([2, 3, 1].map(|command| write(0, command)));
    let arguments = [block.clone(), held.clone()];
    calls.push(Call::of(BLOCK_CLEAR, &arguments, 0));
    for (block, held) in [(&short, &held), (&block, &few)] {
        let lists = [block.clone(), held.clone()].concat();
        calls.push(Call::of(BLOCK_CLEAR, &[lists.clone()], 253));
        let arguments = [lists.clone(), byte(0), byte(2)];
        calls.push(Call::of(BLOCK_WRITE, &arguments, 253));
        for (answer, result) in [(&answer, 253), (&no_answer, 255)] {
            let arguments = [lists.clone(), byte(16), answer.clone()];
            calls.push(Call::of(BLOCK_READ, &arguments, result));
        }
    }
    calls
}

/// The same six on an order of 48 jobs, of which a screen says 21 or 20.
fn over_calls(case: &Case, lent: &mut Lent) -> Vec<Call> {
    let processors = case.file[case.file.len() - 4];
    let result = if 4 < processors { 21 } else { 20 };
    let (file, bound) = (read(&case.file), number(case.least));
    let (rows, line) = (lend(&mut lent.rows), lend(&mut lent.line));
    let (reason, answer) = (read(&case.reason), lend(&mut lent.answer));
    let given = [
        (SCREEN_JUDGE, vec![&file, &answer]),
        (SCREEN_LEAST, vec![&file, &rows, &answer]),
        (SCREEN_PLAN, vec![&file, &bound, &rows, &answer]),
        (SCREEN_REASON, vec![&file, &bound, &answer]),
        (
            SCREEN_SENTENCE,
            vec![&file, &bound, &reason, &line, &answer],
        ),
        (SCREEN_CHECK, vec![&file, &bound, &rows, &answer]),
    ];
    let call = |(function, arguments): (Function, Vec<&Vec<u64>>)| {
        let arguments: Vec<Vec<u64>> = arguments.into_iter().cloned().collect();
        Call::of(function, &arguments, result)
    };
    given.map(call).into()
}

/// Ready minutes out of range, and windows that close as they open.
static LATE: [u32; 48] = [u32::MAX; 48];
static SHUT: [u32; 32] = [7; 32];

/// The times of a case: how many rows, plans at several bounds, row lists to check; then refusals.
fn timed_calls(case: &Case, lent: &mut Lent) -> Vec<Call> {
    let Timed {
        least,
        bound,
        ready,
        windows,
        plan,
        long_plan,
        ..
    } = case.times();
    let file = &case.file[..];
    let (late, shut) = (&LATE[..ready.len()], &SHUT[..windows.len()]);
    let given: [(&[u8], i32, &[u32], &[u32], u32); 11] = [
        (file, *bound, ready, windows, 0),
        (file, *least, ready, windows, 0),
        (file, bound + 100, ready, windows, 0),
        (file, 10_000_000, ready, windows, 0),
        (file, least - 1, ready, windows, 10),
        (file, -10_000_000, ready, windows, 10),
        (file, 10_000_001, ready, windows, 8),
        (file, *bound, ready, shut, 16 + 256),
        (file, *bound, late, shut, 15 + 256),
        (file, *bound, &ready[1..], windows, 253),
        (&file[1..], *bound, ready, windows, 12),
    ];
    let answer = lend(&mut lent.answer);
    let (rows, no_rows) = (lend(&mut lent.rows), lend(&mut lent.rows[..3]));
    let mut calls = Vec::new();
    for (file, bound, ready, windows, result) in given {
        let times = [read(file), number(bound), read(ready), read(windows)].concat();
        let asked = [times.clone(), answer.clone()];
        let of_rows = if result == 10 { 0 } else { result };
        calls.push(Call::of(TIMED_ROWS, &asked, of_rows));
        let arguments = [times.clone(), rows.clone(), answer.clone()];
        calls.push(Call::of(TIMED_PLAN, &arguments, result));
        let arguments = [times.clone(), no_rows.clone(), answer.clone()];
        let of_room = if matches!(result, 0 | 10) { 9 } else { result };
        calls.push(Call::of(TIMED_PLAN, &arguments, of_room));
        for list in [plan, long_plan, &plan[4..]] {
            let arguments = [times.clone(), read(list), answer.clone()];
            calls.push(Call::of(TIMED_CHECK, &arguments, of_rows));
        }
    }
    calls
}

/// The numbers of both lists of an order file.
fn lists(file: &[u8]) -> Vec<u32> {
    let lists = file[..file.len() - 12].chunks_exact(4);
    lists
        .map(|bytes| u32::from_le_bytes([bytes[0], bytes[1], bytes[2], bytes[3]]))
        .collect()
}

fn main() {
    let mut stack = Box::new(Stack([0; STACK_BYTES]));
    let mut lent = Lent {
        file: vec![0; MOST_BYTES],
        classes: vec![0; CLASS_NUMBERS],
        needs: vec![0; LENGTHS],
        rows: vec![0; 4 * TIMED_ROWS_MOST],
        line: vec![0; LINE_MOST],
        book: vec![0; MOST_MAKERS],
        full: vec![u32::MAX; MOST_MAKERS],
        block: Block::cleared(),
        answer: [0; 19],
    };
    let mut depths = Vec::new();
    for case in cases::draw(SEED) {
        for call in calls(&case, &lists(&case.file), &mut lent) {
            depths.push((call.function.name, call.depth(&mut stack)));
        }
        for call in over_calls(&case, &mut lent) {
            depths.push((call.function.name, call.depth(&mut stack)));
        }
    }
    for case in screens::draw(SEED) {
        for call in screen_calls(&case, &mut lent) {
            depths.push((call.function.name, call.depth(&mut stack)));
        }
        for call in block_calls(&case, &mut lent) {
            depths.push((call.function.name, call.depth(&mut stack)));
        }
    }
    for case in timed::draw(SEED) {
        for call in timed_calls(&case, &mut lent) {
            depths.push((call.function.name, call.depth(&mut stack)));
        }
    }
    for function in FUNCTIONS {
        let own = depths.iter().filter(|(name, _)| *name == function.name);
        let most = own.clone().map(|&(_, depth)| depth).max().unwrap_or(0);
        println!("{} {most} {}", function.name, own.count());
    }
}
