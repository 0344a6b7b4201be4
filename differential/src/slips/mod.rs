//! Versions that are wrong on purpose, each by one slip: the tests must find out every one of them.

mod blocks;
mod levels;
mod log;
mod model;
mod names;
mod policy;
mod previews;
mod round;
mod tables;
mod weights;

pub use names::{Slip, Slipped, CONTROLS, SLIPS};

use crate::calls::{Call, Memory, Operation, Preview, Version};
use crate::plain::interface::refusal_reply;
use crate::plain::policy::Refusal;

impl Slipped {
    fn call_set(&self, call: Call, policy: &[u8], memory: &mut Memory) -> Result<u32, Refusal> {
        let rules = self.check(policy);
        if self.is(Slip::SetWritten) && rules.is_err() {
            memory.set_credentials(0);
        }
        let rules = rules?;
        match call {
            Call::Model(set) => memory.set_model(self.model(&rules.levels, set)),
            Call::Disclosable(set) => {
                memory.set_credentials(self.disclosable(&rules.disclosure, set));
            }
            _ => {}
        }
        Ok(0)
    }
}

impl Version for Slipped {
    fn call(&mut self, call: Call, policy: &mut [u8], memory: &mut Memory) -> u32 {
        let answer = match call {
            Call::Check => self.check(policy).map(|_| 0),
            Call::Model(_) | Call::Disclosable(_) => self.call_set(call, policy, memory),
            Call::Open(request) => Ok(self.call_open(request, memory)),
            Call::Round(p) => self.call_round(policy, p, memory),
        };
        answer.unwrap_or_else(refusal_reply)
    }

    fn log_record(&mut self, p: u16, reply: u32, session: &mut Memory, memory: &mut Memory) -> u32 {
        self.record(p, reply, session.session(), memory)
    }

    fn compare_logs(&mut self, first: &mut [u8], second: &mut [u8], memory: &mut Memory) -> u32 {
        self.compare(first, second, memory)
    }

    fn operate(&mut self, operation: Operation, policy: &mut [u8], table: &mut [u8]) -> u32 {
        self.at(operation, policy, table)
            .unwrap_or_else(refusal_reply)
    }

    fn preview(
        &mut self,
        preview: Preview,
        policy: &mut [u8],
        table: &mut [u8],
        memory: &mut Memory,
    ) -> u32 {
        self.preview_at(preview, policy, table, memory)
            .unwrap_or_else(refusal_reply)
    }
}
