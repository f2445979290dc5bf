//! What the examples of speed share: turns about, and the depth of a call's stack.

pub mod painted_stack;
// The rooms and the surveys are the tests' own.
#[path = "../../tests/support/mod.rs"]
pub mod support;

use std::time::Instant;

// Short turns: what else the machine does then falls into few of them.
const TURNS: usize = 401;
const CALLS: usize = 20;

/// Calls the library and the model turn about, and prints the seconds that a call takes, as the
/// mean of a turn of many.
pub fn compare(name: &str, mut library: impl FnMut(), mut model: impl FnMut()) {
    let (mut of_library, mut of_model) = (Vec::new(), Vec::new());
    for _ in 0..TURNS {
        of_library.push(turn(&mut library));
        of_model.push(turn(&mut model));
    }
    let library = middle_and_lowest(of_library);
    let model = middle_and_lowest(of_model);
    println!("middle and lowest of {} turns of {} calls:", TURNS, CALLS);
    print_row(&format!("{}, us", name), 1e6 * library.0, 1e6 * library.1);
    print_row("the model, us", 1e6 * model.0, 1e6 * model.1);
    print_row("ratio", library.0 / model.0, library.1 / model.1);
}

fn turn(call: &mut impl FnMut()) -> f64 {
    let start = Instant::now();
    for _ in 0..CALLS {
        call();
    }
    start.elapsed().as_secs_f64() / CALLS as f64
}

fn print_row(name: &str, middle: f64, lowest: f64) {
    println!("{:20} {:8.2} {:8.2}", name, middle, lowest);
}

fn middle_and_lowest(mut values: Vec<f64>) -> (f64, f64) {
    values.sort_by(f64::total_cmp);
    (values[values.len() / 2], values[0])
}

/// Prints the bytes of stack that a call uses.
pub fn print_stack(name: &str, call: impl FnMut()) {
    let bare = painted_stack::bytes_used(|| {});
    let used = painted_stack::bytes_used(call);
    println!("stack of {}: {} bytes", name, used - bare);
}
