//! The forms in which wrong things of several functions are listed.

/// A wrong thing of both functions that book, made by a helper that takes the function, the call and
/// how it is wrong.
macro_rules! of_both {
    ($with:ident: $($what:literal => $how:expr,)*) => {
        &[$(
            (Function::BookLeast, $what, |call| $with(Function::BookLeast, call, $how)),
            (Function::BookPlan, $what, |call| $with(Function::BookPlan, call, $how)),
        )*]
    };
}

/// A wrong thing of each of these functions, made likewise; how it is wrong is of this type.
macro_rules! of_these {
    ($functions:tt, $with:ident, $type:ident: $($what:literal => $how:expr,)*) => {{
        const COUNT: usize = functions!($functions).len();
        const ALL: &[[Wrong; COUNT]] = &[$({
            const HOW: $type = $how;
            wrong_in!($functions, $with, $what)
        },)*];
        ALL.as_flattened()
    }};
}

/// The functions of these names.
macro_rules! functions {
    ([$($function:ident),*]) => {
        [$(Function::$function),*]
    };
}

/// One wrong thing of each of these functions, HOW it is.
macro_rules! wrong_in {
    ([$($function:ident),*], $with:ident, $what:literal) => {
        [$((Function::$function, $what, |call| $with(Function::$function, call, HOW))),*]
    };
}

/// A wrong thing of each of the three functions that take ready minutes and windows.
macro_rules! of_timed {
    ($($listed:tt)*) => {
        of_these!([TimedRows, TimedPlan, TimedCheck], $($listed)*)
    };
}

/// A wrong thing of both functions that take highs.
macro_rules! of_estimated {
    ($($listed:tt)*) => {
        of_these!([Between, BetweenOrder], $($listed)*)
    };
}

/// A wrong thing of each of the six functions that a screen calls.
macro_rules! of_screen {
    ($($listed:tt)*) => {
        of_these!(
            [ScreenJudge, ScreenLeast, ScreenPlan, ScreenReason, ScreenSentence, ScreenCheck],
            $($listed)*
        )
    };
}

/// A wrong thing of each of the dock's six that take the same.
macro_rules! of_dock {
    ($($listed:tt)*) => {
        of_these!([Judge, Least, Plan, Reason, Sentence, Check], $($listed)*)
    };
}

/// A wrong thing of one function, made by a helper that takes the call and how it is wrong.
macro_rules! of_one {
    ($function:ident, $with:ident: $($what:literal => $how:expr,)*) => {
        &[$(
            (Function::$function, $what, |call| $with(call, $how)),
        )*]
    };
}

/// A wrong thing of each of the sixteen functions of the dock that take an order.
macro_rules! of_all {
    ($($listed:tt)*) => {
        of_these!(
            [
                Judge, Classes, Least, Plan, BookLeast, BookPlan, Reason, Sentence, Parse, Check,
                TimedRows, TimedPlan, TimedCheck, Between, BetweenOrder, Write
            ],
            $($listed)*
        )
    };
}
