//! Calls that go to the driver in batches: it works on one batch while the next is made.

use crate::driver::Driver;
use crate::options::Options;
use std::fmt;

/// One call, or several on the same bytes: how it is asked for, and how the driver's reply is read. It is
/// shown with its input.
pub trait Asked: fmt::Display + Sized {
    type Reply;
    fn request(&self, to: &mut Vec<u8>);
    fn reply(&self, driver: &mut Driver) -> Result<Self::Reply, String>;
    /// The call that the archive lacks, as the C face names it, when the reply says so.
    fn lacking(&self, proved: &Self::Reply) -> Option<&'static str>;
    /// The same, call by call.
    fn one_by_one(&self) -> Vec<Self>;
}

/// Takes in what was expected of a call and what the proved side did.
pub trait Takes<A: Asked> {
    fn take(&mut self, asked: &A, expected: &A::Reply, proved: &A::Reply);
    /// So far.
    fn differences(&self) -> u64;
}

struct Batch<A: Asked> {
    asked: Vec<(A, A::Reply)>,
    requests: Vec<u8>,
}

impl<A: Asked> Batch<A> {
    /// A batch of so many bytes is large enough to keep both processes busy.
    const ENOUGH: usize = 1 << 18;

    fn empty() -> Batch<A> {
        Batch {
            asked: Vec::new(),
            requests: Vec::new(),
        }
    }
}

pub struct Exchange<A: Asked, T> {
    command: Vec<String>,
    /// End at the first difference.
    first: bool,
    driver: Driver,
    filling: Batch<A>,
    /// Sent, and not yet answered.
    sent: Batch<A>,
    pub tally: T,
}

impl<A: Asked, T: Takes<A> + Default> Exchange<A, T> {
    pub fn start(options: &Options) -> Result<Exchange<A, T>, String> {
        Ok(Exchange {
            command: options.driver.clone(),
            first: options.first,
            driver: Driver::start(&options.driver)?,
            filling: Batch::empty(),
            sent: Batch::empty(),
            tally: T::default(),
        })
    }

    /// Asks for one call; its reply may come later.
    pub fn ask(&mut self, asked: A, expected: A::Reply) -> Result<(), String> {
        asked.request(&mut self.filling.requests);
        self.filling.asked.push((asked, expected));
        if self.filling.requests.len() >= Batch::<A>::ENOUGH {
            self.send()?;
        }
        Ok(())
    }

    /// Sends what was filled, and settles what was sent before it.
    fn send(&mut self) -> Result<(), String> {
        let mut batch = std::mem::replace(&mut self.filling, Batch::empty());
        self.driver.send(std::mem::take(&mut batch.requests));
        let before = std::mem::replace(&mut self.sent, batch);
        self.settle(before)
    }

    /// Waits for the replies to a batch.
    fn settle(&mut self, batch: Batch<A>) -> Result<(), String> {
        for (asked, expected) in &batch.asked {
            let proved = match asked.reply(&mut self.driver) {
                Ok(proved) => proved,
                // The replies that the driver still held are lost, so that its last call is not known.
                Err(why) => return Err(self.culprit(&batch).unwrap_or(why)),
            };
            if let Some(name) = asked.lacking(&proved) {
                return Err(format!("the archive lacks {name}"));
            }
            self.tally.take(asked, expected, &proved);
            if self.first && self.tally.differences() > 0 {
                return Err("ended at the first difference".into());
            }
        }
        Ok(())
    }

    /// Asks a fresh driver one by one to find the call that ends it.
    fn culprit(&self, batch: &Batch<A>) -> Option<String> {
        let mut driver = Driver::start(&self.command).ok()?;
        let all = batch.asked.iter().chain(&self.sent.asked);
        for asked in all.flat_map(|(asked, _)| asked.one_by_one()) {
            let mut request = Vec::new();
            asked.request(&mut request);
            driver.send(request);
            if let Err(why) = asked.reply(&mut driver) {
                return Some(format!("{asked}: {why}"));
            }
        }
        None
    }

    pub fn finish(mut self) -> Result<T, String> {
        self.send()?;
        let last = std::mem::replace(&mut self.sent, Batch::empty());
        self.settle(last)?;
        self.driver.finish()?;
        Ok(self.tally)
    }
}
