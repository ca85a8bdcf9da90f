//! Stops: why a call refuses what it is given.
use std::fmt;

/// A stop of documents 01 and 02. Its number is `stop as u32`, or [`Stop::number`].
///
/// ```
/// use cube_archive::{raw, Stop};
///
/// let stop = raw::check(b"FACT").unwrap_err();
/// assert_eq!((stop, stop.number()), (Stop::Opening, 1));
/// assert_eq!(Stop::CheckWord.to_string(), "stop 11: the check word is wrong");
/// ```
#[derive(Clone, Copy, Debug, PartialEq, Eq, Hash)]
#[non_exhaustive]
pub enum Stop {
    /// The first four bytes are missing or are not the opening that the call expects.
    Opening = 1,
    /// The input ends before the last byte of a field that its earlier fields demand.
    Cut = 2,
    /// D is not 1 to 8.
    Dimensions = 3,
    /// A size is not 1 to 65,535.
    Size = 4,
    /// The row count or base count is above 1,024.
    Rows = 5,
    /// A code in a table row or base entry is not below its size.
    Code = 6,
    /// A base entry does not come strictly after the one before.
    Order = 7,
    /// A base entry has count 0, or a sum that this many readings cannot make, or brings the total count above 1,048,576.
    Amount = 8,
    /// A list count is above 70.
    List = 9,
    /// Bytes follow the check word.
    Trailing = 10,
    /// The check word is wrong.
    CheckWord = 11,
    /// A list, the normal count or a normal entry is not what the base entries require.
    Entries = 12,
    /// A question has other than D codes, or a code that is neither below its size nor ALL; a record has other than D codes, or one that
    /// is not below its size; a window's code is not below its size.
    Question = 13,
    /// The set number that a call is given is 2 to the power D or more.
    Set = 14,
    /// The result is longer than the lent output.
    Output = 15,
    /// The dimension that a call is given is not 1 to D.
    Dimension = 16,
    /// The dimensions or sizes of two archives differ.
    Sizes = 17,
    /// The result has over 1,024 base rows, or a total count over 1,048,576.
    Many = 18,
    /// The question's code at the window's dimension is not the window's.
    Window = 20,
    /// The fee is above 1,000,000,000.
    Fee = 23,
    /// The archive has no base row, so that there is nothing to share a fee by.
    NoRows = 24,
}

impl Stop {
    /// All stops, in checking order.
    pub const IN_ORDER: [Stop; 21] = [
        Stop::Opening,
        Stop::Cut,
        Stop::Dimensions,
        Stop::Size,
        Stop::Rows,
        Stop::Code,
        Stop::Order,
        Stop::Amount,
        Stop::List,
        Stop::Trailing,
        Stop::CheckWord,
        Stop::Entries,
        Stop::Question,
        Stop::Set,
        Stop::Dimension,
        Stop::Sizes,
        Stop::Many,
        Stop::Window,
        Stop::Fee,
        Stop::NoRows,
        Stop::Output,
    ];

    /// The number in the documents' list.
    pub fn number(self) -> u32 {
        self as u32
    }

    /// The stop of a number that the library gave.
    pub(crate) fn numbered(number: u64) -> Stop {
        let stop = Stop::IN_ORDER.into_iter().find(|stop| u64::from(stop.number()) == number);
        stop.expect("the library gives no other number")
    }

    /// What is wrong.
    pub fn words(self) -> &'static str {
        match self {
            Stop::Opening => "the first four bytes are missing or are not the opening of such a file",
            Stop::Cut => "the file ends before the last byte of a field that its earlier fields demand",
            Stop::Dimensions => "the number of dimensions is not 1 to 8",
            Stop::Size => "a dimension's size is not 1 to 65,535",
            Stop::Rows => "there are more than 1,024 rows or base entries",
            Stop::Code => "a code in a row or base entry is not below its dimension's size",
            Stop::Order => "a base entry does not come strictly after the one before",
            Stop::Amount => {
                "a base entry has count 0, or a sum that this many readings cannot make, or brings the total count above 1,048,576"
            }
            Stop::List => "a base entry lists more than 70 sets",
            Stop::Trailing => "bytes follow the check word",
            Stop::CheckWord => "the check word is wrong",
            Stop::Entries => "a list, the normal count or a normal entry is not what the base entries require",
            Stop::Question => "the question, record or window has not one code for each of its dimensions, or a code that is not below its dimension's size",
            Stop::Set => "the set has a dimension that the archive has not",
            Stop::Output => "the result is longer than the output",
            Stop::Dimension => "the dimension is not one of the archive's, which are counted from 1",
            Stop::Sizes => "the two archives have not the same dimensions and sizes",
            Stop::Many => "the result has over 1,024 base rows, or a total count over 1,048,576",
            Stop::Window => "the question has another code than the window at the window's dimension",
            Stop::Fee => "the fee is above 1,000,000,000 cents",
            Stop::NoRows => "the archive has no base row",
        }
    }
}

impl fmt::Display for Stop {
    fn fmt(&self, f: &mut fmt::Formatter) -> fmt::Result {
        write!(f, "stop {}: {}", self.number(), self.words())
    }
}

impl std::error::Error for Stop {}
