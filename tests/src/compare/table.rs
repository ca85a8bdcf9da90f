//! The table of calls.
use crate::landed::Request;

/// A call: its name, the request of document 02 that it came with, and the stops that it can have, in parts.
#[derive(Clone, Copy)]
pub struct Call {
    pub name: &'static str,
    pub request: Request,
    stops: &'static [&'static [usize]],
}

impl Call {
    pub fn can_stop_with(self, stop: usize) -> bool {
        self.stops.concat().contains(&stop)
    }
}

const TABLE: &[usize] = &[1, 2, 3, 4, 5, 6, 10, 11];
const EDITION_ONE: &[usize] = &[1, 2, 3, 4, 5, 6, 7, 8, 9, 10, 11, 12];
const ARCHIVE: &[usize] = &[1, 2, 3, 4, 5, 6, 7, 8, 9, 10, 11, 12, 19];
const FAMILIES: &[usize] = &[21, 22];

macro_rules! calls {
    ($($call:ident $name:literal $request:ident $stops:expr;)*) => { $(
        pub const $call: Call = Call { name: $name, request: Request::$request, stops: &$stops };
    )* };
}

calls! {
    BUILD "build" Before [TABLE, &[15]];
    CHECK "check" Before [ARCHIVE];
    LOOK_UP "look up" Before [ARCHIVE, &[13]];
    LIST "list" Before [ARCHIVE, &[14, 15]];
    EXPAND "expand" Before [ARCHIVE, &[15]];
    KEYS "keys" Before [ARCHIVE, &[15]];
    FIXES "fixes" Before [ARCHIVE, &[14, 16]];
    SHARE "share a fee" Before [ARCHIVE, &[14, 23, 24, 15]];
    JOIN "join" Before [ARCHIVE, &[17, 18, 15]];
    BUILD_TWO "build edition two" C17 [TABLE, &[15]];
    CONVERT "convert" C17 [EDITION_ONE, &[15]];
    LOOK_UP_EXTREMES "look up extremes" C17 [ARCHIVE, &[13]];
    ADD "add" C18 [ARCHIVE, &[13, 18, 15]];
    WINDOW "window" C19 [ARCHIVE, &[16, 13, 20]];
    FAMILY_BUILD "build families" C20 [TABLE, FAMILIES, &[15]];
    FAMILY_CHECK "check families" C20 [ARCHIVE, FAMILIES];
    FAMILY_LOOK_UP "look up families" C20 [ARCHIVE, FAMILIES, &[14, 13]];
    FAMILY_LIST "list families" C20 [ARCHIVE, FAMILIES, &[14, 15]];
    FAMILY_EXPAND "expand families" C20 [ARCHIVE, FAMILIES, &[15]];
}
