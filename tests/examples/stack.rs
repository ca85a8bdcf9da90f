//! The stack that each call uses, in bytes. A call runs on a thread whose stack is memory of our own with a pattern in it: the lowest byte
//! that changed tells how deep the call wrote. What a thread uses that calls nothing is taken off. No time and no chance is in it: a
//! library gives the same numbers in each run.
use calls::calls::Calls;
use calls::good::Good;
use calls::kinds::{families, kinds, SIZES};
use calls::landed::Request;
use calls::library::Library;
use calls::random::Random;
use calls::write::{family_table_bytes, table_bytes};
use std::ffi::c_void;
use std::ptr::null_mut;

/// pthread_attr_t, which has 56 bytes on x86-64.
#[repr(C, align(16))]
struct Attributes([u8; 64]);

extern "C" {
    fn pthread_attr_init(attributes: *mut Attributes) -> i32;
    fn pthread_attr_setstack(attributes: *mut Attributes, stack: *mut c_void, size: usize) -> i32;
    fn pthread_create(
        thread: *mut usize,
        attributes: *const Attributes,
        run: extern "C" fn(*mut c_void) -> *mut c_void,
        with: *mut c_void,
    ) -> i32;
    fn pthread_join(thread: usize, result: *mut *mut c_void) -> i32;
}

/// Much more than a call may use.
const SIZE: usize = 4 << 20;

/// A page, which a thread's stack begins at.
#[derive(Clone, Copy)]
#[repr(align(4096))]
struct Page([u8; 4096]);

const PATTERN: Page = Page([0xA5; 4096]);

extern "C" fn run_closure(closure: *mut c_void) -> *mut c_void {
    // SAFETY: `depth` passes a pointer to its own closure, and waits.
    unsafe { (*closure.cast::<&mut dyn FnMut()>())() };
    null_mut()
}

/// How many bytes from its top down a thread's stack was written to.
fn depth(stack: &mut [Page], mut call: &mut dyn FnMut()) -> usize {
    stack.fill(PATTERN);
    let mut attributes = Attributes([0; 64]);
    let mut thread = 0;
    // SAFETY: the stack and the closure are lent to this function, and the thread has ended when it returns.
    let results = unsafe {
        [
            pthread_attr_init(&mut attributes),
            pthread_attr_setstack(&mut attributes, stack.as_mut_ptr().cast(), size_of_val(stack)),
            pthread_create(&mut thread, &attributes, run_closure, (&raw mut call).cast()),
            pthread_join(thread, null_mut()),
        ]
    };
    assert_eq!(results, [0; 4]);
    let kept = stack.iter().flat_map(|page| &page.0).take_while(|&&byte| byte == PATTERN.0[0]).count();
    assert!(kept > 0, "the stack was too small");
    size_of_val(stack) - kept
}

struct Files {
    table: Vec<u8>,
    archive: Vec<u8>,
    /// That of edition two.
    two: Vec<u8>,
    question: Vec<u32>,
    /// A table and an archive with families of 4,096 nodes over the first six dimensions.
    family_table: Vec<u8>,
    family: Vec<u8>,
}

/// What a call of `good` writes.
fn written(out: &mut [u8], run: impl FnOnce(&mut [u8]) -> Result<usize, u32>) -> Vec<u8> {
    let length = run(out).unwrap();
    out[..length].to_vec()
}

impl Files {
    fn of(rows: &[(Vec<u32>, i32)], out: &mut [u8]) -> Files {
        let table = table_bytes(&SIZES, rows);
        let six: Vec<_> = rows.iter().map(|(codes, reading)| (codes[..6].to_vec(), *reading)).collect();
        let family_table = family_table_bytes(&families(&six, &[3; 6]), &six);
        Files {
            archive: written(out, |out| Good.build(&table, out)),
            two: written(out, |out| Good.build_two(&table, out)),
            question: rows.first().map_or(vec![65_535; 8], |row| row.0.clone()),
            family: written(out, |out| Good.family_build(&family_table, out)),
            table,
            family_table,
        }
    }
}

/// The set whose cuboid is listed and shares the fee: every other dimension.
const SET: u32 = 0b0101_0101;

/// Whether it does not stop.
type Call = fn(&Files, &mut [u8]) -> bool;

const CALLS: [(&str, Request, Call); 20] = [
    ("build", Request::Before, |files, out| Library.build(&files.table, out).is_ok()),
    ("check", Request::Before, |files, _| Library.check(&files.archive).is_ok()),
    ("look up", Request::Before, |files, _| Library.look_up(&files.archive, &files.question).is_ok()),
    ("list", Request::Before, |files, out| Library.list_cuboid(&files.archive, SET, out).is_ok()),
    ("expand", Request::Before, |files, out| Library.expand(&files.archive, out).is_ok()),
    ("keys", Request::Before, |files, out| Library.smallest_keys(&files.archive, out).is_ok()),
    ("fixes", Request::Before, |files, _| Library.fixes(&files.archive, SET, 8).is_ok()),
    ("share a fee", Request::Before, |files, out| Library.share_fee(&files.archive, 999_999_937, SET, out).is_ok()),
    ("join", Request::Before, |files, out| Library.join(&files.archive, &files.archive, out).is_ok()),
    ("build two", Request::C17, |files, out| Library.build_two(&files.table, out).is_ok()),
    ("convert", Request::C17, |files, out| Library.convert(&files.archive, out).is_ok()),
    ("extremes", Request::C17, |files, _| Library.look_up_extremes(&files.two, &files.question).is_ok()),
    ("join two", Request::C17, |files, out| Library.join(&files.two, &files.archive, out).is_ok()),
    ("add", Request::C18, |files, out| Library.add(&files.two, &files.question, 7, out).is_ok()),
    ("window", Request::C19, |files, _| Library.window(&files.two, 1, files.question[0], &files.question).is_ok()),
    ("family build", Request::C20, |files, out| Library.family_build(&files.family_table, out).is_ok()),
    ("family check", Request::C20, |files, _| Library.family_check(&files.family).is_ok()),
    ("family look up", Request::C20, |files, _| Library.family_look_up(&files.family, 0, &files.question[..6]).is_ok()),
    ("family list", Request::C20, |files, out| Library.family_list(&files.family, 0, out).is_ok()),
    ("family expand", Request::C20, |files, out| Library.family_expand(&files.family, out).is_ok()),
];

fn main() {
    let mut stack = vec![PATTERN; SIZE / size_of::<Page>()];
    let mut out = vec![0; 4_096 * (4 + 1_024 * 52)];
    let mut tables = kinds(&mut Random::seeded(7));
    tables.push(("one row", vec![(vec![65_534; 8], i32::MIN)]));
    tables.push(("no rows", vec![]));
    let none = depth(&mut stack, &mut || ());
    let mut most = CALLS.map(|(name, _, _)| (name, 0, ""));
    for (kind, rows) in tables {
        let files = Files::of(&rows, &mut out);
        for ((_, request, call), most) in CALLS.iter().zip(&mut most).filter(|(call, _)| call.1.landed()) {
            let mut passed = false;
            let bytes = depth(&mut stack, &mut || passed = call(&files, &mut out)) - none;
            assert!(passed || kind == "no rows", "{kind}: a call of {request:?} stopped");
            if bytes > most.1 {
                (most.1, most.2) = (bytes, kind);
            }
        }
    }
    println!("Stack of each call in bytes, the most over all kinds of tables");
    for (name, bytes, kind) in most.iter().filter(|call| call.1 > 0) {
        println!("{name:15}{bytes:>9}  {kind}");
    }
}
