//! What becomes of scopes where the engine gets no memory. The program has an allocator of its own, so that what is refused
//! are the engine's requests alone.
#![cfg(target_os = "linux")]

use dochirwa::*;
use std::alloc::{GlobalAlloc, Layout};
use std::sync::atomic::{AtomicI64, Ordering::SeqCst};
use std::sync::{Arc, Mutex};

unsafe extern "C" {
    fn __libc_malloc(size: usize) -> *mut u8;
    fn __libc_realloc(old: *mut u8, size: usize) -> *mut u8;
    fn __libc_memalign(alignment: usize, size: usize) -> *mut u8;
    fn free(old: *mut u8);
}

/// How many requests of the engine are made up to the one that is refused; 0 where none is.
static LEFT: AtomicI64 = AtomicI64::new(0);

fn is_refused() -> bool {
    LEFT.load(SeqCst) > 0 && LEFT.fetch_sub(1, SeqCst) == 1
}

#[no_mangle]
extern "C" fn malloc(size: usize) -> *mut u8 {
    // SAFETY: it is what the C library's own does.
    if is_refused() {
        std::ptr::null_mut()
    } else {
        unsafe { __libc_malloc(size) }
    }
}

/// # Safety
/// As of the C library's own.
#[no_mangle]
unsafe extern "C" fn realloc(old: *mut u8, size: usize) -> *mut u8 {
    if is_refused() {
        std::ptr::null_mut()
    } else {
        unsafe { __libc_realloc(old, size) }
    }
}

struct OfProgram;

// SAFETY: the C library's blocks are as large and as aligned as they are asked for.
unsafe impl GlobalAlloc for OfProgram {
    unsafe fn alloc(&self, layout: Layout) -> *mut u8 {
        unsafe { __libc_memalign(layout.align().max(16), layout.size()) }
    }

    unsafe fn dealloc(&self, old: *mut u8, _: Layout) {
        unsafe { free(old) }
    }
}

#[global_allocator]
static PROGRAM: OfProgram = OfProgram;

/// Whether something is refused where each request of some work in turn is, and whether a message after it has a tag that
/// was set in a scope.
fn refusals(work: impl Fn(&Hub, &dyn Fn())) -> Vec<bool> {
    let sent = Arc::new(Mutex::new(String::new()));
    let taken = sent.clone();
    let take = move |it: Envelope| *taken.lock().unwrap() = String::from_utf8_lossy(it.as_bytes()).into_owned();
    let options = ClientOptions::new().dsn("https://key@sentry.invalid/1").release("shop@1.0.0").transport(take);
    let client = Client::with_options(options).unwrap();
    let mut leaks = Vec::new();
    for refused in 1.. {
        let hub = Hub::new(&client).unwrap();
        work(&hub, &|| LEFT.store(refused, SeqCst));
        if LEFT.swap(0, SeqCst) > 0 {
            break;
        }
        // (what could not be popped is popped with the next one)
        drop(hub.push_scope());
        hub.capture_message("after", Level::Info);
        leaks.push(sent.lock().unwrap().contains("\"inner\":\"set\""));
    }
    leaks
}

#[test]
fn without_memory_no_scope_stays_or_takes_the_edits_of_another() {
    let popped = refusals(|hub, refuse| {
        let guard = hub.push_scope();
        hub.configure_scope(|scope| scope.set_tag("inner", "set"));
        // which the end of its scope ends
        hub.start_session();
        refuse();
        drop(guard);
    });
    assert!(!popped.is_empty() && !popped.contains(&true), "{popped:?}");
    let pushed = refusals(|hub, refuse| {
        refuse();
        let _guard = hub.push_scope();
        hub.configure_scope(|scope| scope.set_tag("inner", "set"));
        hub.add_breadcrumb(&Breadcrumb { data: Map::from([("inner", "set")]), ..Breadcrumb::default() });
    });
    assert!(!pushed.is_empty() && !pushed.contains(&true), "{pushed:?}");
    let with_scope = refusals(|hub, refuse| {
        refuse();
        hub.with_scope(|scope| scope.set_tag("inner", "set"), || ());
    });
    assert!(!with_scope.is_empty() && !with_scope.contains(&true), "{with_scope:?}");
}
