//! One table and the calls on sheets beside it, as one request: the bytes go to the driver once.

use super::call::SheetCall;
use crate::driver::Driver;
use crate::exchange::Asked;
use crate::outcome::{hex, Outcome};
use crate::question::Origin;
use std::fmt;
use std::rc::Rc;

#[derive(Clone)]
pub struct Asking {
    pub origin: Origin,
    /// Bit 1 is ignored by every call on a sheet.
    pub settings: u64,
    pub table: Rc<[u8]>,
    pub calls: Vec<SheetCall>,
}

impl Asking {
    pub const MODE: u8 = 12;

    pub fn second(&self) -> Vec<Outcome> {
        let answer = |call: &SheetCall| call.second(&self.table, self.settings);
        self.calls.iter().map(answer).collect()
    }
}

impl Asked for Asking {
    type Reply = Vec<Outcome>;

    /// Mode, length of the table, number of calls, settings, the table, the calls.
    fn request(&self, to: &mut Vec<u8>) {
        to.push(Asking::MODE);
        to.extend_from_slice(&(self.table.len() as u32).to_le_bytes());
        to.extend_from_slice(&(self.calls.len() as u64).to_le_bytes());
        to.extend_from_slice(&self.settings.to_le_bytes());
        to.extend_from_slice(&self.table);
        self.calls.iter().for_each(|call| call.request(to));
    }

    fn reply(&self, driver: &mut Driver) -> Result<Vec<Outcome>, String> {
        let reply = |call: &SheetCall| {
            let answer = driver.receive()?;
            let buffer = driver.receive_bytes(call.left())?;
            Ok(Outcome { answer, buffer })
        };
        self.calls.iter().map(reply).collect()
    }

    fn lacking(&self, proved: &Vec<Outcome>) -> Option<&'static str> {
        let lacks = |(call, one): (&SheetCall, &Outcome)| one.answer.lacking(call.name());
        self.calls.iter().zip(proved).find_map(lacks)
    }

    fn one_by_one(&self) -> Vec<Asking> {
        let one = |&call| Asking {
            calls: vec![call],
            ..self.clone()
        };
        self.calls.iter().map(one).collect()
    }
}

impl fmt::Display for Asking {
    fn fmt(&self, to: &mut fmt::Formatter) -> fmt::Result {
        let calls: Vec<String> = self.calls.iter().map(SheetCall::to_string).collect();
        let (calls, table) = (calls.join("; "), hex(&self.table));
        let (origin, settings) = (self.origin, self.settings);
        write!(to, "{origin}: {calls}, settings {settings:X}h: {table}")
    }
}
