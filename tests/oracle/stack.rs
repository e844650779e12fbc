//! A thread with a large stack: terms of some thousand levels are copied, compared and freed level by level.

const STACK: usize = 256 << 20;

pub fn on_a_large_stack<T: Send + 'static>(work: impl FnOnce() -> T + Send + 'static) -> T {
    let thread = std::thread::Builder::new().stack_size(STACK).spawn(work);
    thread.expect("a thread can be started").join().expect("the orders are answered")
}
