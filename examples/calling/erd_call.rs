//! Checks a report, or compares two: `erd_call FILE` or `erd_call LEFT RIGHT`. Writes the text and ends with the status, as the
//! program erd does.
use std::ffi::CStr;
use std::os::raw::{c_char, c_int};
use std::io::Write;
use std::{env, fs, process, ptr, slice};

mod raw {
    use super::{c_char, c_int};

    #[link(name = "erd")]
    extern "C" {
        pub fn erd_check(
            bytes: *const u8,
            size: usize,
            prefer: *const c_char,
            text: *mut *mut c_char,
            length: *mut usize,
        ) -> c_int;
        pub fn erd_compare(
            left: *const u8,
            left_size: usize,
            right: *const u8,
            right_size: usize,
            prefer: *const c_char,
            text: *mut *mut c_char,
            length: *mut usize,
        ) -> c_int;
        pub fn erd_free(text: *mut c_char);
    }
}

/// An answer of the library: the exit status of the program, and its text.
struct Answer {
    outcome: i32,
    text: Vec<u8>,
}

/// Makes a call, copies its text, and gives the library the text's memory back.
fn answer(call: impl FnOnce(*mut *mut c_char, *mut usize) -> c_int) -> Answer {
    let (mut text, mut length) = (ptr::null_mut(), 0);
    let outcome = call(&mut text, &mut length);
    let copy = match text.is_null() {
        true => Vec::new(),
        // The library says that `length` bytes stand there.
        false => unsafe { slice::from_raw_parts(text.cast::<u8>(), length) }.to_vec(),
    };
    unsafe { raw::erd_free(text) };
    Answer { outcome, text: copy }
}

fn pointer(prefer: Option<&CStr>) -> *const c_char {
    prefer.map_or(ptr::null(), CStr::as_ptr)
}

fn check(report: &[u8], prefer: Option<&CStr>) -> Answer {
    answer(|text, length| unsafe { raw::erd_check(report.as_ptr(), report.len(), pointer(prefer), text, length) })
}

fn compare(left: &[u8], right: &[u8], prefer: Option<&CStr>) -> Answer {
    answer(|text, length| unsafe {
        raw::erd_compare(left.as_ptr(), left.len(), right.as_ptr(), right.len(), pointer(prefer), text, length)
    })
}

fn read(name: &str) -> Vec<u8> {
    fs::read(name).unwrap_or_else(|error| {
        eprintln!("{name}: {error}");
        process::exit(3)
    })
}

fn main() {
    let names: Vec<String> = env::args().skip(1).collect();
    let answer = match &names[..] {
        [file] => check(&read(file), None),
        [left, right] => compare(&read(left), &read(right), None),
        _ => {
            eprintln!("usage: erd_call FILE, or erd_call LEFT RIGHT");
            process::exit(3)
        }
    };
    std::io::stdout().write_all(&answer.text).expect("write failed");
    match answer.outcome {
        3 => eprintln!("too long"),
        4 => eprintln!("no memory"),
        _ => {}
    }
    process::exit(answer.outcome)
}
