// Every function of the safe Rust wrapper, on document 01's orders A, B and C: answers, refusals and what is left as it was. A
// refusal's words are those of the table in docs/LINKING.md.
#[allow(dead_code)]
#[path = "../../link/highboyrobin.rs"]
mod highboyrobin;
use highboyrobin::{between, between_order, needs, timed_check, timed_plan, timed_rows};
use highboyrobin::{
    book_least, book_plan, check, classes, judge, least, parse, plan, reason, sentence, write,
};
use highboyrobin::{
    Between, Block, Book, Caller, Class, Job, Least, NeedLine, Reason, Refused, Row, Sizes, Window,
};
use highboyrobin::{BLOCK_BYTES, BLOCK_ROWS};
use highboyrobin::{LONGEST_LENGTH, MOST_LENGTHS, TABLE_LINES};
use highboyrobin::{MOST_BOOKED, MOST_BYTES, MOST_LINE, MOST_MAKERS, MOST_MINUTE, MOST_TIMED_ROWS};
use highboyrobin::{MOST_JOBS, MOST_PROCESSORS, MOST_ROWS};
use highboyrobin::{SCREEN_BYTES, SCREEN_JOBS, SCREEN_PROCESSORS, SCREEN_ROWS};

const KEPT: Row = Row {
    job: 7,
    processor: 7,
    from: 7,
    to: 7,
};

fn refused(number: u32, job: u32) -> Refused {
    Refused { number, job }
}

// a job of maker 1
fn job((time, due, need): (u32, i32, u32)) -> Job {
    let maker = 1;
    Job {
        time,
        due,
        need,
        maker,
    }
}

// memory 4; job (3, 10, 4)
fn order_c() {
    let mut bytes = [7; MOST_BYTES];
    assert_eq!(write(&[4], &[job((3, 10, 4))], &mut bytes), Ok(32));
    assert_eq!(bytes[..4], [4, 0, 0, 0]);
    assert_eq!(bytes[16..20], [1, 0, 0, 0]);
    assert_eq!(bytes[32..], [7; MOST_BYTES - 32]);
    let file = &bytes[..32];
    assert_eq!(
        judge(file),
        Ok(Sizes {
            processors: 1,
            jobs: 1,
            rows: 1
        })
    );

    let mut rows = [KEPT; 2];
    let row = Row {
        job: 1,
        processor: 1,
        from: 0,
        to: 3,
    };
    assert_eq!(
        least(file, &mut rows),
        Ok(Least {
            lateness: -8,
            rows: 1
        })
    );
    assert_eq!(rows, [row, KEPT]);
    rows[0] = KEPT;
    assert_eq!(plan(file, -1, &mut rows), Ok(1));
    assert_eq!(check(file, -1, &rows[..1]), Ok(true));
    assert_eq!(check(file, -9, &[row]), Ok(false));
    assert_eq!(reason(file, -8), Ok(None));
    assert_eq!(reason(file, -9), Ok(Some(Reason::Job { job: 1, time: 3 })));
}

fn refusals() {
    let late = job((1, 1_000_001, 0));
    let nobody = Job {
        maker: 17,
        ..job((1, 1, 9))
    };
    let mut bytes = [7; MOST_BYTES];
    assert_eq!(write(&[4], &[late], &mut bytes), Err(refused(6, 1)));
    assert_eq!(write(&[4], &[nobody], &mut bytes), Err(refused(13, 1)));
    assert_eq!(bytes, [7; MOST_BYTES]);
    let mut rows = [KEPT; 1];
    assert_eq!(least(&[0; 11], &mut rows), Err(refused(12, 0)));
    let job = job((3, 10, 4));
    assert_eq!(write(&[4], &[job], &mut bytes), Ok(32));
    assert_eq!(plan(&bytes[..32], -9, &mut rows), Err(refused(10, 0)));
    assert_eq!(least(&bytes[..32], &mut []), Err(refused(9, 0)));
    assert_eq!(rows, [KEPT]);
}

// memories 8, 4; jobs (3, 3, 8), (3, 3, 4), (2, 4, 2)
fn order_a() {
    let jobs = [(3, 3, 8), (3, 3, 4), (2, 4, 2)].map(job);
    let mut bytes = [0; MOST_BYTES];
    let length = write(&[8, 4], &jobs, &mut bytes).unwrap();
    assert_eq!(length, 68);
    let Ok(Some(Reason::Stairs { classes, dues })) = reason(&bytes[..length], -1) else {
        panic!("A at -1 has no staircase");
    };
    assert_eq!((classes, &dues[..3]), (2, &[3, 3, 0][..]));
}

// these memories have these classes: memory and processors of each
fn has_classes(memories: &[u32], listed: &[(u32, u32)]) {
    let mut bytes = [0; MOST_BYTES];
    let length = write(memories, &[job((1, 5, 0))], &mut bytes).unwrap();
    let told = classes(&bytes[..length]).unwrap();
    assert_eq!(told.count(), listed.len());
    let class = |&(memory, processors)| Class { memory, processors };
    let listed: Vec<Class> = listed.iter().map(class).collect();
    assert_eq!(told.listed(), listed);
}

fn classes_of_orders() {
    has_classes(&[4], &[(4, 1)]);
    has_classes(&[4, 8, 4, 2], &[(8, 1), (4, 2), (2, 1)]);
    has_classes(&[0, u32::MAX, 0], &[(u32::MAX, 1), (0, 2)]);
    has_classes(&[7; 16], &[(7, 16)]);
    let distinct: Vec<u32> = (0..16).collect();
    let each: Vec<(u32, u32)> = (0..16).rev().map(|memory| (memory, 1)).collect();
    has_classes(&distinct, &each);
    assert_eq!(classes(&[0; 11]), Err(refused(12, 0)));
    assert_eq!(classes(&[0; 12]), Err(refused(1, 0)));
}

// a reason composes to this line and is read back from it; one byte less is refused, and nothing beyond the line changes
fn composes(file: &[u8], bound: i32, reason: Reason, line: &str) {
    let mut bytes = [7; MOST_LINE];
    let length = line.len();
    assert_eq!(sentence(file, bound, &reason, &mut bytes), Ok(line));
    assert_eq!(bytes[length..], [7; MOST_LINE][length..]);
    assert_eq!(parse(file, bound, line.as_bytes()), Ok(Some(reason)));
    let mut bytes = [7; MOST_LINE];
    let told = sentence(file, bound, &reason, &mut bytes[..length - 1]);
    assert_eq!(told, Err(refused(9, 0)));
    assert_eq!(bytes, [7; MOST_LINE]);
}

// document 02's line of C at -9
fn line_of_c() {
    let mut bytes = [0; MOST_BYTES];
    let length = write(&[4], &[job((3, 10, 4))], &mut bytes).unwrap();
    let file = &bytes[..length];
    let late = Reason::Job { job: 1, time: 3 };
    composes(file, -9, late, "job 1: time 3, end 2: owed 3, on hand 2");
    let nobody = [(0, 3), (2, 3), (1, 2), (u32::MAX, 3), (1, u32::MAX)];
    for (job, time) in nobody {
        let none = Reason::Job { job, time };
        assert_eq!(sentence(file, -9, &none, &mut []), Ok(""));
    }
    assert_eq!(sentence(file, -8, &late, &mut []), Ok(""));
    assert_eq!(parse(file, -9, b""), Ok(None));
    assert_eq!(parse(file, -10_000_001, b""), Err(refused(8, 0)));
}

// document 02's line of B at -1: memories 8, 4; jobs (2, 4, 8) twice, (2, 2, 4) twice
fn line_of_b() {
    let b = [(2, 4, 8), (2, 4, 8), (2, 2, 4), (2, 2, 4)];
    let b = b.map(job);
    let mut bytes = [0; MOST_BYTES];
    let length = write(&[8, 4], &b, &mut bytes).unwrap();
    let file = &bytes[..length];
    let Ok(Some(stairs @ Reason::Stairs { classes, dues })) = reason(file, -1) else {
        panic!("B at -1 has no staircase");
    };
    let line = "memory 8 due 4, memory 4 due 2: owed 8, on hand 6";
    composes(file, -1, stairs, line);
    for classes in [0, 1, 3, classes + (1 << 32), usize::MAX] {
        let none = Reason::Stairs { classes, dues };
        assert_eq!(sentence(file, -1, &none, &mut []), Ok(""));
    }
    assert_eq!(parse(file, -1, format!("{line}\n").as_bytes()), Ok(None));
    assert_eq!(parse(file, 0, line.as_bytes()), Ok(None));
    let told = sentence(&[0; 11], -1, &stairs, &mut []);
    assert_eq!(told, Err(refused(12, 0)));
}

// a book from opening on: A with makers 16, 2 and 16, then C with maker 1, accepted and refused; and a book that is full
fn books() {
    let jobs = [(3, 3, 8, 16), (3, 3, 4, 2), (2, 4, 2, 16)];
    let jobs = jobs.map(|(time, due, need, maker)| Job {
        maker,
        ..job((time, due, need))
    });
    let (mut of_a, mut of_c) = ([0; MOST_BYTES], [0; MOST_BYTES]);
    let length = write(&[8, 4], &jobs, &mut of_a).unwrap();
    let a = &of_a[..length];
    let length = write(&[4], &[job((3, 10, 4))], &mut of_c).unwrap();
    let c = &of_c[..length];

    let mut rows = [KEPT; 8];
    let mut book = Book::open();
    assert_eq!(book.counts, [0; MOST_MAKERS]);
    let told = book_least(a, &mut rows, &mut book);
    assert_eq!(told.map(|told| told.lateness), Ok(0));
    let mut unbooked = [KEPT; 8];
    assert_eq!(least(a, &mut unbooked), told);
    assert_eq!(rows, unbooked);
    let counted = |book: &Book| [1, 2, 3, 16].map(|maker| book.minutes(maker));
    assert_eq!(counted(&book), [Some(0), Some(3), Some(0), Some(5)]);

    rows = [KEPT; 8];
    let before = book;
    assert_eq!(book_plan(c, -9, &mut rows, &mut book), Err(refused(10, 0)));
    assert_eq!(book_plan(c, -8, &mut [], &mut book), Err(refused(9, 0)));
    assert_eq!(
        book_least(&[0; 11], &mut rows, &mut book),
        Err(refused(12, 0))
    );
    assert_eq!((book, rows), (before, [KEPT; 8]));
    assert_eq!(book_plan(c, -8, &mut rows, &mut book), Ok(1));
    assert_eq!(counted(&book), [Some(3), Some(3), Some(0), Some(5)]);
    assert_eq!(
        [0, 17, u32::MAX].map(|maker| book.minutes(maker)),
        [None; 3]
    );

    rows = [KEPT; 8];
    book.counts[0] = MOST_BOOKED - 2;
    let before = book;
    assert_eq!(book_least(c, &mut rows, &mut book), Err(refused(14, 0)));
    assert_eq!(book_plan(c, -8, &mut rows, &mut book), Err(refused(14, 0)));
    assert_eq!((book, rows), (before, [KEPT; 8]));
    book.counts[0] = MOST_BOOKED - 3;
    assert_eq!(book_plan(c, -8, &mut rows, &mut book), Ok(1));
    assert_eq!(book.minutes(1), Some(MOST_BOOKED));
}

// the window of these two minutes
fn window([opens, closes]: [u32; 2]) -> Window {
    Window { opens, closes }
}

// C ready at 5 with a window from 0 to 100; D with a window that closes where the other one opens
fn times() {
    let (mut of_c, mut of_d) = ([0; MOST_BYTES], [0; MOST_BYTES]);
    let length = write(&[4], &[job((3, 10, 4))], &mut of_c).unwrap();
    let c = &of_c[..length];
    let length = write(&[8, 8], &[job((1, 4, 1)); 3], &mut of_d).unwrap();
    let d = &of_d[..length];

    let (ready, open) = ([5], [window([0, 100])]);
    let mut rows = [KEPT; 5];
    assert_eq!(timed_rows(c, -3, &ready, &open), Ok(4));
    let told = timed_plan(c, -4, &ready, &open, &mut rows);
    assert_eq!(told, Err(refused(10, 0)));
    let told = timed_plan(c, -3, &ready, &open, &mut rows[..3]);
    assert_eq!(told, Err(refused(9, 0)));
    assert_eq!(rows, [KEPT; 5]);
    assert_eq!(timed_plan(c, -3, &ready, &open, &mut rows), Ok(1));
    let row = Row {
        job: 1,
        processor: 1,
        from: 5,
        to: 8,
    };
    assert_eq!(rows, [row, KEPT, KEPT, KEPT, KEPT]);
    assert_eq!(timed_check(c, -3, &ready, &open, &[row]), Ok(true));
    assert_eq!(timed_check(c, -3, &[6], &open, &[row]), Ok(false));
    let short = [window([0, 7])];
    assert_eq!(timed_check(c, -3, &ready, &short, &[row]), Ok(false));

    let halves = [window([0, 2]), window([2, 9])];
    let mut rows = [KEPT; 16];
    assert_eq!(timed_rows(d, -2, &[0; 3], &halves), Ok(16));
    assert_eq!(timed_plan(d, -2, &[0; 3], &halves, &mut rows), Ok(3));
    assert_eq!(timed_check(d, -2, &[0; 3], &halves, &rows[..3]), Ok(true));
    let told = timed_check(d, -2, &[0; 3], &halves, &[KEPT; MOST_TIMED_ROWS + 1]);
    assert_eq!(told, Err(refused(11, 0)));
    times_refused(c, d);
}

// one ready minute to a job, one window to a processor, all in range
fn times_refused(c: &[u8], d: &[u8]) {
    let whole = window([0, MOST_MINUTE]);
    let late = [0, MOST_MINUTE + 1, u32::MAX];
    let shut = [whole, window([7, 7])];
    let cases: [(&[u8], &[u32], &[Window], Refused); 6] = [
        (&c[1..], &[], &[], refused(12, 0)),
        (c, &[], &[whole], refused(253, 0)),
        (c, &[0], &[whole, whole], refused(253, 0)),
        (d, &late, &shut, refused(15, 2)),
        (d, &[MOST_MINUTE; 3], &shut, refused(16, 2)),
        (d, &[MOST_MINUTE; 3], &[whole, whole], refused(8, 0)),
    ];
    for (file, ready, windows, told) in cases {
        let mut rows = [KEPT; 1];
        let bound = -10_000_001;
        assert_eq!(timed_rows(file, bound, ready, windows), Err(told));
        let plan = timed_plan(file, bound, ready, windows, &mut rows);
        assert_eq!(plan, Err(told));
        assert_eq!(timed_check(file, bound, ready, windows, &rows), Err(told));
        assert_eq!(rows, [KEPT]);
    }
}

// memories 8, 4; jobs of these times with the due times and needs of B, each of a maker of its own
fn b_with(times: [u32; 4]) -> Vec<u8> {
    let [first, second, third, fourth] = times;
    let jobs = [(first, 4, 8), (second, 4, 8), (third, 2, 4), (fourth, 2, 4)];
    let made = |(numbers, maker)| Job {
        maker,
        ..job(numbers)
    };
    let jobs: Vec<Job> = jobs.into_iter().zip(13..).map(made).collect();
    let mut bytes = vec![0; MOST_BYTES];
    let length = write(&[8, 4], &jobs, &mut bytes).unwrap();
    bytes.truncate(length);
    bytes
}

// B with each time from 1 to 3: the least lateness at the lows and at the highs, and the first order of each number between, whose
// least lateness it is, its processors first, also where the file has its jobs first; nothing is written beyond it, nor where there
// is none
fn between_lows_and_highs() {
    let (file, highs) = (b_with([1; 4]), [3; 4]);
    let mut jobs_first = [&file[8..72], &file[..8], &file[72..]].concat();
    jobs_first[72..80].copy_from_slice(&[64, 0, 0, 0, 0, 0, 0, 0]);
    let (at_lows, at_highs) = (-2, 2);
    for file in [&file, &jobs_first] {
        assert_eq!(between(file, &highs), Ok(Between { at_lows, at_highs }));
    }
    let first_met = [
        (-2, [1, 1, 1, 1]),
        (-1, [2, 1, 1, 1]),
        (0, [3, 2, 1, 1]),
        (1, [3, 3, 1, 1]),
        (2, [3, 3, 3, 2]),
    ];
    for (number, times) in first_met {
        let mut order = [7; MOST_BYTES];
        let told = between_order(&file, &highs, number, &mut order);
        assert_eq!(told, Ok(Some(84)));
        assert_eq!(order[..84], b_with(times));
        assert_eq!(order[84..], [7; MOST_BYTES - 84]);
        let told = least(&order[..84], &mut [KEPT; 10]);
        assert_eq!(told.map(|told| told.lateness), Ok(number));
        let mut order = [7; 84];
        let told = between_order(&file, &highs, number, &mut order[..83]);
        assert_eq!(told, Err(refused(9, 0)));
        assert_eq!(order, [7; 84]);
        let told = between_order(&jobs_first, &highs, number, &mut order);
        assert_eq!(told, Ok(Some(84)));
        assert_eq!(order[..], b_with(times));
    }
    for number in [-3, 3, i32::MIN, i32::MAX] {
        let mut order = [7; MOST_BYTES];
        let told = between_order(&file, &highs, number, &mut order);
        assert_eq!(told, Ok(None));
        assert_eq!(order, [7; MOST_BYTES]);
        assert_eq!(between_order(&file, &highs, number, &mut []), Ok(None));
    }
    let (at_lows, at_highs) = (0, 0);
    let known = between(&b_with([2; 4]), &[2; 4]);
    assert_eq!(known, Ok(Between { at_lows, at_highs }));
    between_refused();
}

// a high to each job, both ends of a time in range, no low above its high, each where all that follow hold too: the need of job 1
// is 9, which fits no processor of B; a low of 3 * 65536 + 2 minutes is job 2's
fn between_refused() {
    let mut wide = b_with([2; 4]);
    wide[8 + 8] = 9;
    let mut long = wide.clone();
    long[8 + 16 + 2] = 3;
    let cases: [(&[u8], &[u32], Refused); 9] = [
        (&wide[1..], &[0; 3], refused(12, 0)),
        (&wide, &[0; 3], refused(253, 0)),
        (&wide, &[0; 5], refused(253, 0)),
        (&[0; 12], &[], refused(1, 0)),
        (&wide, &[1, 1, 0, 100_001], refused(5, 3)),
        (&long, &[1, 1, 0, 1], refused(5, 2)),
        (&long, &[0, 1, 1, 1], refused(5, 1)),
        (&wide, &[2, 1, 1, 1], refused(19, 2)),
        (&wide, &[100_000; 4], refused(7, 1)),
    ];
    for (file, highs, told) in cases {
        let mut order = [7; MOST_BYTES];
        assert_eq!(between(file, highs), Err(told));
        assert_eq!(between_order(file, highs, 0, &mut order), Err(told));
        assert_eq!(order, [7; MOST_BYTES]);
    }
}

// processors of memory 4, and jobs of 3 minutes that are due one minute after the other
fn sized(processors: usize, jobs: usize) -> Vec<u8> {
    let jobs: Vec<Job> = (10..).take(jobs).map(|due| job((3, due, 4))).collect();
    let mut bytes = vec![0; MOST_BYTES];
    let length = write(&vec![4; processors], &jobs, &mut bytes).unwrap();
    bytes.truncate(length);
    bytes
}

// a file of so many processors and jobs, all numbers 0: every refusal that is about a job holds
fn counted(processors: u8, jobs: u8) -> Vec<u8> {
    let lists = 4 * usize::from(processors) + 16 * usize::from(jobs);
    let mut bytes = vec![0; lists + 12];
    bytes[lists + 4] = 4 * processors;
    bytes[lists + 8] = processors;
    bytes[lists + 10] = jobs;
    bytes
}

// what each of the six calls answers to a caller, and all that it leaves
#[derive(Debug, PartialEq)]
struct Replies {
    judged: Result<Sizes, Refused>,
    least: Result<Least, Refused>,
    least_rows: Vec<Row>,
    planned: Result<usize, Refused>,
    plan_rows: Vec<Row>,
    reason: Result<Option<Reason>, Refused>,
    sentence: Result<String, Refused>,
    checked: Result<bool, Refused>,
}

fn replies(caller: Caller, file: &[u8], bound: i32, room: usize) -> Replies {
    let (mut least_rows, mut plan_rows) = (vec![KEPT; room], vec![KEPT; room]);
    let least = caller.least(file, &mut least_rows);
    let planned = caller.plan(file, bound, &mut plan_rows);
    let reason = caller.reason(file, bound);
    let late = Reason::Job { job: 1, time: 3 };
    let why = reason.unwrap_or(None).unwrap_or(late);
    let mut line = [7; MOST_LINE];
    let sentence = caller.sentence(file, bound, &why, &mut line);
    Replies {
        judged: caller.judge(file),
        least,
        planned,
        reason,
        sentence: sentence.map(str::to_string),
        checked: caller.check(file, bound, &plan_rows[..planned.unwrap_or(0)]),
        least_rows,
        plan_rows,
    }
}

// all six calls are refused alike, and no row is written
fn all_refused(caller: Caller, file: &[u8], told: Refused) {
    let replies = replies(caller, file, 10_000_001, 1);
    assert_eq!(replies.judged, Err(told));
    assert_eq!(replies.least, Err(told));
    assert_eq!(replies.planned, Err(told));
    assert_eq!(replies.reason, Err(told));
    assert_eq!(replies.sentence, Err(told));
    assert_eq!(replies.checked, Err(told));
    assert_eq!(replies.least_rows, [KEPT]);
    assert_eq!(replies.plan_rows, [KEPT]);
}

// a screen refuses by its own two limits, where a dock refuses by its own or takes the order; within them both reply alike
fn screens() {
    let (dock, screen) = (Caller::Dock, Caller::Screen);
    for (processors, jobs, at_dock, from_screen) in [
        (0, 0, 1, 1),
        (0, 13, 1, 1),
        (5, 0, 3, 21),
        (17, 1, 2, 21),
        (4, 0, 3, 3),
        (1, 49, 4, 20),
        (16, 49, 12, 12),
    ] {
        let file = counted(processors, jobs);
        all_refused(dock, &file, refused(at_dock, 0));
        all_refused(screen, &file, refused(from_screen, 0));
    }
    all_refused(screen, &[0; 11], refused(12, 0));
    all_refused(screen, &counted(4, 12), refused(5, 1));
    let over = (SCREEN_PROCESSORS + 1, SCREEN_JOBS + 1);
    for (processors, jobs, number) in [
        (over.0, 1, 21),
        (over.0, over.1, 21),
        (MOST_PROCESSORS, MOST_JOBS, 21),
        (1, over.1, 20),
        (SCREEN_PROCESSORS, over.1, 20),
        (1, MOST_JOBS, 20),
    ] {
        let file = sized(processors, jobs);
        assert!(dock.least(&file, &mut vec![KEPT; MOST_ROWS]).is_ok());
        all_refused(screen, &file, refused(number, 0));
    }
    largest_of_a_screen();
}

// 4 processors and 12 jobs with a due time each: the dock's reply, whether the bound is met or not, with enough rows or one too few
fn largest_of_a_screen() {
    let file = sized(SCREEN_PROCESSORS, SCREEN_JOBS);
    assert_eq!(file.len(), SCREEN_BYTES);
    let sizes = Caller::Screen.judge(&file);
    assert_eq!(sizes.map(|sizes| sizes.rows), Ok(SCREEN_ROWS));
    for bound in [-10, -9, -8, 0, 10_000_000, 10_000_001] {
        for room in [SCREEN_ROWS - 1, SCREEN_ROWS, SCREEN_ROWS + 1] {
            let at_dock = replies(Caller::Dock, &file, bound, room);
            assert_eq!(replies(Caller::Screen, &file, bound, room), at_dock);
            let told = match bound {
                10_000_001 => Some(8),
                _ if room < SCREEN_ROWS => Some(9),
                ..-8 => Some(10),
                _ => None,
            };
            let told = told.map(|number| refused(number, 0));
            assert_eq!(at_dock.planned.err(), told);
        }
    }
}

// a block with this file, and its length
fn block_of(file: &[u8]) -> Block {
    let mut block = Block::cleared();
    for (address, byte) in (32..=251).zip(file) {
        block.write(address, *byte);
    }
    put(&mut block, 8, &(file.len() as u16).to_le_bytes());
    block
}

fn put(block: &mut Block, first: u8, bytes: &[u8]) {
    for (address, byte) in (first..).zip(bytes) {
        block.write(address, *byte);
    }
}

fn put_bound(block: &mut Block, bound: i32) {
    put(block, 4, &bound.to_le_bytes());
}

fn number(block: &Block, first: u8) -> u32 {
    u32::from_le_bytes([0, 1, 2, 3].map(|place| block.read(first + place)))
}

// flags, number of the refusal, lateness used
fn state(block: &Block) -> (u8, u8, i32) {
    (block.read(1), block.read(2), number(block, 12) as i32)
}

fn row(block: &mut Block, which: u16) -> Row {
    put(block, 10, &which.to_le_bytes());
    let [job, processor, from, to] = [16, 20, 24, 28].map(|first| number(block, first));
    Row {
        job,
        processor,
        from,
        to,
    }
}

// the rows from 1 on until the job is 0
fn held(block: &mut Block) -> Vec<Row> {
    let mut rows = Vec::new();
    for which in 1..=SCREEN_ROWS as u16 + 1 {
        let next = row(block, which);
        if next.job == 0 {
            assert_eq!(next, Row::default());
            break;
        }
        rows.push(next);
    }
    rows
}

fn all_zero(block: &Block) -> bool {
    (0..=255).all(|address| block.read(address) == 0)
}

// document 02's block on order C: planned, answered, refused, cleared
fn block_of_c() {
    let mut bytes = [0; MOST_BYTES];
    let length = write(&[4], &[job((3, 10, 4))], &mut bytes).unwrap();
    let mut block = block_of(&bytes[..length]);
    block.write(3, 0xFF);
    assert_eq!(block.read(3), 1);
    block.write(0, 2);
    assert_eq!(state(&block), (5, 0, -8));
    assert!((16..=31).all(|address| block.read(address) == 0));
    let only = Row {
        job: 1,
        processor: 1,
        from: 0,
        to: 3,
    };
    assert_eq!(held(&mut block), [only]);
    for which in [0, 2, 180, 181, 257, u16::MAX] {
        assert_eq!(row(&mut block, which), Row::default());
    }
    assert_eq!(row(&mut block, 1), only);
    block.write(1, 1);
    assert_eq!(state(&block), (4, 0, -8));
    assert_eq!(row(&mut block, 1), only);
    // 2, 12 to 31 and 252 to 255 take no writes, and unnamed bits are not kept
    let before = block;
    for address in (12..=31).chain([2]).chain(252..=255) {
        block.write(address, 0xFF);
    }
    block.write(1, 0xF8);
    assert_eq!(block, before);
    put_bound(&mut block, -9);
    block.write(3, 0);
    block.write(0, 1);
    assert_eq!(state(&block), (6, 10, 0));
    assert!((12..=31).all(|address| block.read(address) == 0));
    block.write(1, 6);
    assert_eq!(state(&block), (0, 10, 0));
    put_bound(&mut block, -8);
    block.write(0, 1);
    assert_eq!(state(&block), (1, 0, -8));
    // what is written after a command changes nothing that is held
    put_bound(&mut block, 5);
    block.write(32, 9);
    block.write(8, 0);
    assert_eq!((state(&block), row(&mut block, 1)), ((1, 0, -8), only));
    block.write(0, 0);
    assert_eq!(state(&block), (2, 0, 0));
    assert!(held(&mut block).is_empty());
    block.write(3, 1);
    block.write(0, 3);
    assert!(all_zero(&block));
    assert_eq!(block, Block::cleared());
}

// commands on a cleared block, every unknown command, and lengths that are refused before the file is looked at
fn blocks_refused() {
    let mut block = Block::cleared();
    assert!(all_zero(&block));
    block.write(0, 1);
    assert_eq!(state(&block), (2, 12, 0));
    for command in (4..=255).chain([0]) {
        block.write(0, command);
        assert_eq!(state(&block), (2, 0, 0));
    }
    let mut bytes = [0; MOST_BYTES];
    let length = write(&[4; 5], &[job((3, 10, 4))], &mut bytes).unwrap();
    let mut block = block_of(&bytes[..length]);
    block.write(0, 2);
    assert_eq!(state(&block), (2, 21, 0));
    for length in [0, 11, 221, 48 + 256, u16::MAX] {
        put(&mut block, 8, &length.to_le_bytes());
        for command in [1, 2] {
            block.write(0, command);
            assert_eq!(state(&block), (2, 12, 0));
        }
    }
}

// the largest order of a screen in a block: lateness, rows and refusals of either command are those of the screen's calls
fn largest_of_a_block() {
    assert_eq!((BLOCK_BYTES, BLOCK_ROWS), (256, 4 * SCREEN_ROWS));
    let file = sized(SCREEN_PROCESSORS, SCREEN_JOBS);
    let mut block = block_of(&file);
    for bound in [-10, -9, -8, 0, 10_000_000, 10_000_001, i32::MIN] {
        put_bound(&mut block, bound);
        for command in [1, 2] {
            let mut rows = [KEPT; SCREEN_ROWS];
            let told = match command {
                1 => {
                    let planned = Caller::Screen.plan(&file, bound, &mut rows);
                    planned.map(|count| (bound, count))
                }
                _ => {
                    let least = Caller::Screen.least(&file, &mut rows);
                    least.map(|least| (least.lateness, least.rows))
                }
            };
            block.write(0, command);
            let (told, count) = match told {
                Ok((lateness, count)) => ((1, 0, lateness), count),
                Err(refused) => ((2, refused.number as u8, 0), 0),
            };
            assert_eq!(state(&block), told);
            assert_eq!(held(&mut block), rows[..count]);
        }
    }
}

// the line of these three numbers
fn line([from, to, need]: [u32; 3]) -> NeedLine {
    NeedLine { from, to, need }
}

// document 02's needs of two lengths, with lines in either order; 32 lines count; an empty list
fn needs_of_lengths() {
    let mut table = [[1, 30_000, 4], [30_001, LONGEST_LENGTH, 8]].map(line);
    for _ in 0..2 {
        let mut filled = [7; 3];
        assert_eq!(needs(&table, &[30_000, 30_001], &mut filled), Ok(2));
        assert_eq!(filled, [4, 8, 7]);
        assert_eq!(needs(&table, &[], &mut []), Ok(0));
        table.reverse();
    }
    let even = |place: u32| line([1 + 3_125 * place, 3_125 * (place + 1), u32::MAX - place]);
    let mut lines: Vec<NeedLine> = (0..TABLE_LINES as u32).map(even).collect();
    lines.push(line([1, 1, 7]));
    let mut filled = [7; 2];
    assert_eq!(needs(&lines, &[LONGEST_LENGTH, 1], &mut filled), Ok(2));
    assert_eq!(filled, [u32::MAX - 31, u32::MAX]);
    needs_refused();
}

// 253, 17, 18, 5 and 9, each where all that follow hold too
fn needs_refused() {
    let gap = [[1, 10, 0], [10, 50, 0], [52, LONGEST_LENGTH, 0]].map(line);
    let twice = [[1, 10, 0], [10, LONGEST_LENGTH, 0]].map(line);
    let whole = [line([1, LONGEST_LENGTH, 0])];
    let long = vec![0; MOST_LENGTHS + 1];
    let listed = [1, LONGEST_LENGTH + 1, 0];
    let cases: [(&[NeedLine], &[u32], Refused); 6] = [
        (&gap, &long, refused(253, 0)),
        (&gap, &listed, refused(17, 51)),
        (&[], &listed, refused(17, 1)),
        (&twice, &listed, refused(18, 10)),
        (&whole, &listed, refused(5, 2)),
        (&whole, &[1, LONGEST_LENGTH], refused(9, 0)),
    ];
    for (table, lengths, told) in cases {
        let mut filled = [7; 1];
        assert_eq!(needs(table, lengths, &mut filled), Err(told));
        assert_eq!(filled, [7]);
    }
}

// number and words of each row of the table of refusals
fn table() -> Vec<(u32, &'static str)> {
    let page = include_str!("../../docs/LINKING.md");
    let section = page
        .split("\n## ")
        .find(|section| section.starts_with("Refusals\n"));
    let rows = section.expect("a section of refusals").lines();
    let cells = rows.map(|row| row.split(" | ").collect::<Vec<_>>());
    cells
        .filter_map(|cells| {
            let number = cells[0].strip_prefix("| ")?.parse().ok()?;
            Some((number, cells[1]))
        })
        .collect()
}

fn words() {
    let table = table();
    let mut numbers: Vec<u32> = table.iter().map(|row| row.0).collect();
    numbers.sort();
    let all = (1..=21).chain([253, 254, 255]).collect::<Vec<u32>>();
    assert_eq!(numbers, all);
    for (number, words) in table {
        let plain: Box<dyn std::error::Error> = refused(number, 0).into();
        assert_eq!(plain.to_string(), format!("refusal {number}: {words}"));
        let of_one = refused(number, 12).to_string();
        let one = match number {
            16 => "processor",
            17 | 18 => "length",
            _ => "job",
        };
        assert_eq!(of_one, format!("refusal {number} of {one} 12: {words}"));
    }
    let empty = job((0, 5, 1));
    let told = write(&[4], &[empty], &mut [0; MOST_BYTES]).unwrap_err();
    assert_eq!(
        told.to_string(),
        "refusal 5 of job 1: a job's time, low or high, or a listed length, is not 1 to 100,000"
    );
    assert_eq!(
        refused(22, 0).to_string(),
        "refusal 22: no refusal has this number"
    );
}

fn main() {
    order_c();
    refusals();
    order_a();
    classes_of_orders();
    line_of_c();
    line_of_b();
    books();
    times();
    between_lows_and_highs();
    needs_of_lengths();
    screens();
    block_of_c();
    blocks_refused();
    largest_of_a_block();
    words();
    println!("wrapper: every function answers as it should");
}
