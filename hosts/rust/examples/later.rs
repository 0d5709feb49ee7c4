//! A host that answers later: it awaits what a script asks for between two steps. The executor is its own, and any other takes the
//! place of `block_on`: later
use grain::engine::{Engine, RunError, State, Step, Value};
use std::error::Error;
use std::future::{poll_fn, Future};
use std::pin::pin;
use std::sync::{mpsc, Arc};
use std::task::{Context, Poll, Wake, Waker};
use std::thread::{self, Thread};
use std::time::Duration;

/// Wakes the thread of the executor.
struct Unpark(Thread);

impl Wake for Unpark {
    fn wake(self: Arc<Self>) {
        self.0.unpark();
    }
}

/// Takes a future to its end. The thread sleeps while it can't go on.
fn block_on<T>(future: impl Future<Output = T>) -> T {
    let mut future = pin!(future);
    let waker = Waker::from(Arc::new(Unpark(thread::current())));
    let mut context = Context::from_waker(&waker);
    loop {
        match future.as_mut().poll(&mut context) {
            Poll::Ready(output) => return output,
            Poll::Pending => thread::park(),
        }
    }
}

/// Finds a price on another thread, as a request over a network would.
async fn price(of: Value) -> Result<i64, String> {
    let (sender, receiver) = mpsc::channel();
    let mut asked = Some((of, sender));
    poll_fn(|context| {
        if let Some((of, sender)) = asked.take() {
            let waker = context.waker().clone();
            thread::spawn(move || {
                thread::sleep(Duration::from_millis(5));
                let price = if of == "tea".into() {
                    Ok(3)
                } else {
                    Err("no such thing".into())
                };
                // If nobody waits any more, nobody misses it.
                let _sent = sender.send(price);
                waker.wake();
            });
        }
        receiver.try_recv().map_or(Poll::Pending, Poll::Ready)
    })
    .await
}

/// Runs the top level, and awaits what it asks for.
async fn run(state: &mut State) -> Result<Value, RunError> {
    state.start()?;
    loop {
        match state.step(10_000)? {
            Step::Returned(value) => return Ok(value),
            Step::Calls(mut call) => {
                let of = call.arguments.pop().unwrap_or_default();
                state.answer(price(of).await)?;
            }
            // A host with other futures has its executor take these first.
            _ => {}
        }
    }
}

fn value_of(text: &str) -> Result<Value, Box<dyn Error>> {
    let mut engine = Engine::new();
    engine.declare("price", 1);
    let mut state = engine.state(&engine.compile(text)?)?;
    Ok(block_on(run(&mut state))?)
}

fn main() -> Result<(), Box<dyn Error>> {
    println!("{:?}", value_of("price(\"tea\") + price(\"tea\")")?);
    Ok(())
}

#[cfg(test)]
mod tests {
    use super::value_of;

    #[test]
    fn what_is_awaited_is_returned_thrown_and_caught() {
        let loops = "let n = 0; while n < 20000 { n += 1; } n + price(\"tea\")";
        assert_eq!(value_of(loops).unwrap(), 20_003.into());
        let caught = "let x = 0; try { x = price(7); } catch (e) { x = e; } x";
        assert_eq!(value_of(caught).unwrap(), "no such thing".into());
        let fault = value_of("1 +\n price(\"pie\")").unwrap_err();
        assert!(
            fault.to_string().contains("no such thing (line 2"),
            "{fault}"
        );
    }
}
