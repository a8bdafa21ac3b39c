//! From a sheet to calls: the service writes the glue, a compiler builds it,
//! this process loads it while it runs, and C++ (cxx/mill.cc) calls the Rust
//! functions below through it.

use sheet::{EDITIONS, desc};
use std::cell::RefCell;
use std::cmp::Ordering;
use std::ffi::{CStr, CString, c_char, c_int, c_void};
use std::fs;
use std::mem;
use std::path::Path;
use std::process::Command;
use std::ptr::{self, NonNull};
use std::{slice, str};
use trials::compare;
use trials::compilers::{self, CXX, CXX_FLAGS, folder};

const SHEET: &str = "
rust-type mill::Job indirect
enum mill::Tool u8
struct mill::Pair { i32, f64 }
struct mill::Plan indirect { String, u32 }
cxx-type mill::Part indirect

fn mill::add(a: u32, b: i64, c: f64, d: bool) -> i64
fn mill::flip(tool: ::mill::Tool) -> ::mill::Tool
fn mill::turn(pair: ::mill::Pair, tool: ::mill::Tool) -> ::mill::Pair
fn mill::between(begin: *const u8, end: *const u8) -> usize
fn mill::find(text: &str, bytes: &[u8]) -> &str
fn mill::half(bytes: &mut [u8]) -> &mut [u8]
fn mill::reversed(numbers: [u32; 3]) -> [u32; 3]

fn mill::size() -> usize
fn mill::open assoc ::mill::Job (id: u32, name: &str) -> Box<::mill::Job>
fn mill::id const ::mill::Job () -> u32
fn mill::apart(first: &::mill::Job, second: &::mill::Job) -> i64
fn mill::title(job: &::mill::Job) -> String
fn mill::later(first: &::mill::Job, second: &::mill::Job) -> &::mill::Job
fn mill::swap(first: &mut ::mill::Job, second: &mut ::mill::Job)
fn mill::rename as set_name mut ::mill::Job (name: String)
fn mill::close(first: Box<::mill::Job>, second: Box<::mill::Job>) -> String

fn mill::plan(name: String, count: u32) -> ::mill::Plan
fn mill::difference(first: ::mill::Plan, second: ::mill::Plan) -> String
fn mill::finish(part: UniquePtr<::mill::Part>) -> UniquePtr<::mill::Part>
fn mill::exchanged(one: SharedPtr<::mill::Part>, two: SharedPtr<::mill::Part>) -> [SharedPtr<::mill::Part>; 2]

fn mill::below throws (job: &::mill::Job, limit: u32) -> u32
fn mill::earlier throws (first: &::mill::Job, second: &::mill::Job) -> &::mill::Job
fn mill::append throws mut ::mill::Job (plan: ::mill::Plan, error: &str) -> String
fn mill::stop throws mut ::mill::Job ()
";

/// What C++ passes, call by call.
const ARRIVED: &str = "
add 7 -9 0.5 true
flip 3
turn -5 2.5 4
between 2 5
find spindle [1, 2, 3]
half [1, 2, 3, 4, 5]
reversed [1, 20, 300]
open 10 first
open 25 second
size
id first
id second
apart first second
title second
later first second
swap first second
id second
id first
set_name second renamed
close first renamed
plan crown 3
difference crown 3 bridge 5
finish 41
exchanged 1 2
open 1 first
open 2 second
below first 9
below second 1
earlier second first
earlier first first
append first inlay 4 \", polished\"
append first onlay 0 \"\"
stop second
stop second
drop second
drop first
";

/// Of either edition, by its standard.
#[test]
fn calls_through_the_glue() {
    let mut sheet = desc::parse(SHEET).unwrap();
    for edition in EDITIONS {
        sheet.edition = edition;
        calls(edition, &compare::text(&sheet));
    }
}

fn calls(edition: u8, text: &[u8]) {
    let mut glue = b"#include \"mill.h\"\n".to_vec();
    glue.extend(text);
    glue.extend(b"#include \"mill.cc\"\n");
    let made = Path::new(env!("CARGO_TARGET_TMPDIR"));
    let source = made.join(format!("glue-{edition}.cc"));
    fs::write(&source, glue).unwrap();
    for compiler in CXX {
        let object = made.join(format!("glue-{edition}-{compiler}.so"));
        compilers::run(
            Command::new(compiler)
                .arg(compilers::standard(edition))
                .args(CXX_FLAGS)
                .args(["-O2", "-shared", "-fPIC", "-I"])
                .arg(folder())
                .arg(&source)
                .arg("-o")
                .arg(&object),
        );
        let run = load(&object);
        // SAFETY: it is the function `run` of mill.cc.
        let wrong = unsafe { run() };
        if !wrong.is_null() {
            // SAFETY: a string literal of mill.cc, which stays loaded.
            panic!("{edition}, {compiler}: {:?}", unsafe {
                CStr::from_ptr(wrong)
            });
        }
        let calls = CALLS.take().join("\n");
        assert_eq!(calls, ARRIVED.trim(), "{edition}, {compiler}");
    }
}

type Run = unsafe extern "C" fn() -> *const c_char;

unsafe extern "C" {
    fn dlopen(path: *const c_char, flags: c_int) -> *mut c_void;
    fn dlsym(object: *mut c_void, name: *const c_char) -> *mut c_void;
    fn dlerror() -> *const c_char;
}

fn load(object: &Path) -> Run {
    const RTLD_NOW: c_int = 2;
    let path = CString::new(object.to_str().unwrap()).unwrap();
    // SAFETY: as dlopen(3) has it; `run` has the type that mill.cc gives it.
    unsafe {
        let object = dlopen(path.as_ptr(), RTLD_NOW);
        assert!(!object.is_null(), "{:?}", CStr::from_ptr(dlerror()));
        let run = dlsym(object, c"run".as_ptr());
        assert!(!run.is_null());
        mem::transmute::<*mut c_void, Run>(run)
    }
}

thread_local! {
    static CALLS: RefCell<Vec<String>> = const { RefCell::new(Vec::new()) };
}

macro_rules! call {
    ($($word:tt)*) => {
        CALLS.with_borrow_mut(|calls| calls.push(format!($($word)*)))
    };
}

struct Job {
    id: u32,
    name: String,
    stopped: bool,
}

#[repr(C)]
struct Pair {
    number: i32,
    factor: f64,
}

#[repr(C)]
struct Plan {
    name: String,
    count: u32,
}

#[repr(C)]
struct Part {
    number: i32,
}

/// A C++ shared_ptr, which is moved bit by bit.
#[repr(C)]
struct SharedPart {
    part: *const Part,
    control: usize,
}

/// A `&str` or a slice of bytes; and what went wrong, if its pointer is not null.
#[repr(C)]
struct Fat {
    ptr: *const u8,
    len: usize,
}

impl Fat {
    fn of(bytes: &[u8]) -> Self {
        Fat {
            ptr: bytes.as_ptr(),
            len: bytes.len(),
        }
    }

    /// The bytes live in mill.cc, longer than the call.
    fn bytes<'a>(self) -> &'a [u8] {
        unsafe { slice::from_raw_parts(self.ptr, self.len) }
    }

    fn text<'a>(self) -> &'a str {
        str::from_utf8(self.bytes()).unwrap()
    }
}

/// The outcome of a throwing function; its value goes to the slot.
unsafe fn outcome<T>(result: Result<T, &'static str>, slot: *mut T) -> Fat {
    match result {
        Ok(value) => unsafe {
            slot.write(value);
            Fat {
                ptr: ptr::null(),
                len: 0,
            }
        },
        Err(message) => Fat::of(message.as_bytes()),
    }
}

// The functions that the glue calls. SAFETY of all: their types are those that
// the text declares, and C++ passes live references, pointers to what it gives
// away, and room for a slot.

#[unsafe(export_name = "mill$cxxbridge1$205$add")]
extern "C" fn add(a: u32, b: i64, c: f64, d: bool) -> i64 {
    call!("add {a} {b} {c} {d}");
    i64::from(a) + b + (2.0 * c) as i64
}

#[unsafe(export_name = "mill$cxxbridge1$205$flip")]
extern "C" fn flip(tool: u8) -> u8 {
    call!("flip {tool}");
    !tool
}

#[unsafe(export_name = "mill$cxxbridge1$205$turn")]
extern "C" fn turn(pair: Pair, tool: u8) -> Pair {
    call!("turn {} {} {tool}", pair.number, pair.factor);
    Pair {
        number: pair.number * i32::from(tool),
        factor: pair.factor * f64::from(tool),
    }
}

#[unsafe(export_name = "mill$cxxbridge1$205$between")]
unsafe extern "C" fn between(begin: *const u8, end: *const u8) -> usize {
    unsafe {
        call!("between {} {}", *begin, *end);
        end.offset_from_unsigned(begin)
    }
}

#[unsafe(export_name = "mill$cxxbridge1$205$find")]
extern "C" fn find(text: Fat, bytes: Fat) -> Fat {
    let (text, bytes) = (text.text(), bytes.bytes());
    call!("find {text} {bytes:?}");
    Fat::of(&text.as_bytes()[bytes.len()..])
}

#[unsafe(export_name = "mill$cxxbridge1$205$half")]
extern "C" fn half(bytes: Fat) -> Fat {
    let bytes = bytes.bytes();
    call!("half {bytes:?}");
    Fat::of(&bytes[bytes.len() / 2..])
}

#[unsafe(export_name = "mill$cxxbridge1$205$reversed")]
unsafe extern "C" fn reversed(numbers: *mut [u32; 3], slot: *mut [u32; 3]) {
    unsafe {
        let mut numbers = numbers.read();
        call!("reversed {numbers:?}");
        numbers.reverse();
        slot.write(numbers);
    }
}

#[unsafe(export_name = "mill$cxxbridge1$205$size")]
extern "C" fn size() -> usize {
    call!("size");
    size_of::<Job>()
}

#[unsafe(export_name = "mill$cxxbridge1$205$Job$operator$sizeof")]
extern "C" fn job_size() -> usize {
    size_of::<Job>()
}

#[unsafe(export_name = "mill$cxxbridge1$205$Job$operator$alignof")]
extern "C" fn job_align() -> usize {
    align_of::<Job>()
}

#[unsafe(export_name = "mill$cxxbridge1$205$Job$open")]
extern "C" fn open(id: u32, name: Fat) -> *mut Job {
    let name = name.text().to_string();
    call!("open {id} {name}");
    Box::into_raw(Box::new(Job {
        id,
        name,
        stopped: false,
    }))
}

#[unsafe(export_name = "mill$cxxbridge1$205$Job$id")]
extern "C" fn id(this: &Job) -> u32 {
    call!("id {}", this.name);
    this.id
}

#[unsafe(export_name = "mill$cxxbridge1$205$apart")]
extern "C" fn apart(first: &Job, second: &Job) -> i64 {
    call!("apart {} {}", first.name, second.name);
    i64::from(first.id) - i64::from(second.id)
}

#[unsafe(export_name = "mill$cxxbridge1$205$title")]
unsafe extern "C" fn title(job: &Job, slot: *mut String) {
    call!("title {}", job.name);
    unsafe { slot.write(format!("{} {}", job.name, job.id)) }
}

#[unsafe(export_name = "mill$cxxbridge1$205$later")]
extern "C" fn later(first: &Job, second: &Job) -> *const Job {
    call!("later {} {}", first.name, second.name);
    if first.id > second.id { first } else { second }
}

#[unsafe(export_name = "mill$cxxbridge1$205$swap")]
extern "C" fn swap(first: &mut Job, second: &mut Job) {
    call!("swap {} {}", first.name, second.name);
    mem::swap(first, second);
}

#[unsafe(export_name = "mill$cxxbridge1$205$Job$set_name")]
extern "C" fn set_name(this: &mut Job, name: &mut String) {
    call!("set_name {} {name}", this.name);
    this.name = mem::take(name);
}

#[unsafe(export_name = "mill$cxxbridge1$205$close")]
unsafe extern "C" fn close(first: *mut Job, second: *mut Job, slot: *mut String) {
    unsafe {
        let (first, second) = (Box::from_raw(first), Box::from_raw(second));
        call!("close {} {}", first.name, second.name);
        slot.write(format!("{}, {}", first.name, second.name));
    }
}

#[unsafe(export_name = "mill$cxxbridge1$205$plan")]
unsafe extern "C" fn plan(name: &mut String, count: u32, slot: *mut Plan) {
    call!("plan {name} {count}");
    let name = mem::take(name);
    unsafe { slot.write(Plan { name, count }) }
}

#[unsafe(export_name = "mill$cxxbridge1$205$difference")]
unsafe extern "C" fn difference(first: *mut Plan, second: *mut Plan, slot: *mut String) {
    unsafe {
        let (first, second) = (first.read(), second.read());
        call!(
            "difference {} {} {} {}",
            first.name,
            first.count,
            second.name,
            second.count
        );
        let difference = i64::from(first.count) - i64::from(second.count);
        slot.write(format!("{} {difference} {}", first.name, second.name));
    }
}

#[unsafe(export_name = "mill$cxxbridge1$205$finish")]
extern "C" fn finish(part: &mut Part) -> *mut Part {
    call!("finish {}", part.number);
    part.number += 1;
    part
}

#[unsafe(export_name = "mill$cxxbridge1$205$exchanged")]
unsafe extern "C" fn exchanged(
    one: *mut SharedPart,
    two: *mut SharedPart,
    slot: *mut [SharedPart; 2],
) {
    unsafe {
        let (one, two) = (one.read(), two.read());
        call!("exchanged {} {}", (*one.part).number, (*two.part).number);
        slot.write([two, one]);
    }
}

#[unsafe(export_name = "mill$cxxbridge1$205$below")]
unsafe extern "C" fn below(job: &Job, limit: u32, slot: *mut u32) -> Fat {
    call!("below {} {limit}", job.name);
    let left = limit.checked_sub(job.id).filter(|left| *left > 0);
    unsafe { outcome(left.ok_or("over the limit"), slot) }
}

#[unsafe(export_name = "mill$cxxbridge1$205$earlier")]
unsafe extern "C" fn earlier(first: &Job, second: &Job, slot: *mut *const Job) -> Fat {
    call!("earlier {} {}", first.name, second.name);
    let earlier: Result<*const Job, _> = match first.id.cmp(&second.id) {
        Ordering::Less => Ok(first),
        Ordering::Greater => Ok(second),
        Ordering::Equal => Err("one and the same"),
    };
    unsafe { outcome(earlier, slot) }
}

#[unsafe(export_name = "mill$cxxbridge1$205$Job$append")]
unsafe extern "C" fn append(this: &mut Job, plan: *mut Plan, error: Fat, slot: *mut String) -> Fat {
    let plan = unsafe { plan.read() };
    let error = error.text();
    call!(
        "append {} {} {} {error:?}",
        this.name,
        plan.name,
        plan.count
    );
    let text = match plan.count {
        0 => Err("no parts"),
        count => Ok(format!("{}, {} {count}{error}", this.name, plan.name)),
    };
    unsafe { outcome(text, slot) }
}

#[unsafe(export_name = "mill$cxxbridge1$205$Job$stop")]
extern "C" fn stop(this: &mut Job) -> Fat {
    call!("stop {}", this.name);
    let stopped = match mem::replace(&mut this.stopped, true) {
        true => Err("stopped already"),
        false => Ok(()),
    };
    unsafe { outcome(stopped, NonNull::dangling().as_ptr()) }
}

#[unsafe(export_name = "mill_drop_job")]
unsafe extern "C" fn drop_job(job: *mut Job) {
    let job = unsafe { Box::from_raw(job) };
    call!("drop {}", job.name);
}

// What cxx.h has behind a String.

#[unsafe(export_name = "cxxbridge1$string$new")]
unsafe extern "C" fn string_new(this: *mut String) {
    unsafe { this.write(String::new()) }
}

#[unsafe(export_name = "cxxbridge1$string$from")]
unsafe extern "C" fn string_from(this: *mut String, ptr: *const u8, len: usize) {
    unsafe { this.write(Fat { ptr, len }.text().to_string()) }
}

#[unsafe(export_name = "cxxbridge1$string$drop")]
unsafe extern "C" fn string_drop(this: *mut String) {
    unsafe { this.drop_in_place() }
}

#[unsafe(export_name = "cxxbridge1$string$ptr")]
extern "C" fn string_ptr(this: &String) -> *const u8 {
    this.as_ptr()
}

#[unsafe(export_name = "cxxbridge1$string$len")]
extern "C" fn string_len(this: &String) -> usize {
    this.len()
}
