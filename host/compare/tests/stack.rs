//! The stack that docs/ABI.md promises to be enough for each call, against calls that
//! go as deep as they can.

use bisquetower::raw;
use compare::stack::{calls, deepest, promised};
use std::collections::BTreeSet;
use std::process::{Command, Output};

/// Every exported function has a promise and is tried.
#[test]
fn every_call_has_its_promise() {
    let exported: BTreeSet<&str> = raw::NAMES.iter().copied().collect();
    let promises: BTreeSet<&str> = promised().into_keys().collect();
    assert_eq!(exported, promises);
    let tried: BTreeSet<&str> = calls().into_iter().map(|(name, _)| name).collect();
    assert_eq!(exported, tried);
}

/// A call that is refused early shows little: each function answers some of its calls.
#[test]
fn some_of_each_are_answered() {
    let without_answer = ["bt_limits", "bt_set_read_only"];
    let mut answered: BTreeSet<&str> = without_answer.into_iter().collect();
    for (name, call) in calls() {
        if call()[0] == 0 {
            answered.insert(name);
        }
    }
    assert_eq!(answered, raw::NAMES.iter().copied().collect());
}

/// Each call on a stack of just the promised size answers as it does on another.
#[test]
fn each_call_on_the_stack_that_is_promised() {
    let promised = promised();
    for (name, call) in calls() {
        let bytes = promised[name];
        let expected = call();
        let (answer, used) = raw::on_stack(bytes, call);
        assert_eq!(answer, expected, "{name}");
        assert!(used.is_none_or(|used| used <= bytes), "{name}: {used:?}");
    }
}

/// What is seen of each function is within its promise, and of those that have much memory
/// of their own most of what is promised is seen.
#[test]
fn what_is_taken_is_within_the_promise() {
    let promised = promised();
    let deepest = deepest();
    for (name, (bytes, _)) in &deepest {
        assert!(*bytes <= promised[name], "{name} takes {bytes}");
    }
    for name in DEEP {
        let (bytes, _) = deepest[name];
        assert!(promised[name] < 2 * bytes, "{name} takes {bytes}");
    }
}

/// The functions whose calls take more than the smallest stack that a thread can have.
const DEEP: [&str; 8] = [
    "bt_count_capture",
    "bt_missing",
    "bt_plan",
    "bt_plan_with",
    "bt_plan_settled",
    "bt_plan_picked",
    "bt_receive",
    "bt_salvage",
];

/// On the stack that it takes a call is answered; on the next smaller one, and on others
/// below it, the program that makes it ends at the guard below the stack. Where the library
/// is linked, that program would be this one.
#[test]
fn too_small_a_stack_ends_the_emulated_program() {
    if raw::LINKED {
        return;
    }
    for (name, (bytes, call)) in deepest() {
        let enough = bytes.next_multiple_of(16);
        raw::on_stack(enough, &call);
        let smaller = (4..).map(|k| 1 << k).take_while(|size| *size < enough - 16);
        let smaller = smaller.chain((enough > 16).then_some(enough - 16));
        for size in smaller {
            let ended = std::thread::scope(|scope| {
                let on_less = scope.spawn(|| raw::on_stack(size, &call));
                on_less.join().expect_err("the program ends")
            });
            let why = ended.downcast_ref::<String>().expect("a panic says why");
            assert!(why.contains("SIGSEGV"), "{name} on {size}: {why}");
        }
    }
}

/// The variable that tells a child which call it makes, and on how many bytes of stack.
const CHILD: &str = "CALL_ON_TOO_SMALL_A_STACK";

/// Makes the calls that a child was told.
fn call_as_child(told: &str) {
    let (name, size) = told.split_once(' ').expect("a name and a size");
    let size = size.parse().expect("a size");
    for (_, call) in calls().into_iter().filter(|(own, _)| *own == name) {
        raw::on_stack(size, call);
    }
}

/// A child that runs one test of this program and is told a call. If it dies, it leaves no
/// file behind.
fn child(test: &str, name: &str, size: usize) -> Output {
    Command::new("sh")
        .args(["-c", "ulimit -c 0 && exec \"$0\" \"$@\""])
        .arg(std::env::current_exe().expect("this program"))
        .args(["--exact", test])
        .env(CHILD, format!("{name} {size}"))
        .output()
        .expect("it starts")
}

/// Where the library is linked, this program makes the call as a child of itself,
/// and Rust says of a fault in the guard below a thread's stack, and of no other, that the
/// stack has overflowed.
#[test]
fn too_small_a_stack_ends_the_linked_program() {
    if !raw::LINKED {
        return;
    }
    if let Ok(told) = std::env::var(CHILD) {
        return call_as_child(&told);
    }
    let promised = promised();
    for name in DEEP {
        for part in [16, 8, 4] {
            let size = promised[name] / part;
            let ended = child("too_small_a_stack_ends_the_linked_program", name, size);
            let said = String::from_utf8_lossy(&ended.stderr);
            let overflowed = said.contains("has overflowed its stack");
            assert!(overflowed, "{name} on {size}: {}, {said}", ended.status);
        }
    }
}
