//! One call of one exported function, and the memory that it may write.

use crate::plain::interface::Plain;

/// A call of include/gate.h with its number; policy and memory come beside it.
#[derive(Clone, Copy, PartialEq, Eq, Debug)]
pub enum Call {
    Check,
    Model(u16),
    Disclosable(u16),
    Open(u16),
    Round(u16),
}

impl Call {
    /// The exported function's name.
    pub fn name(self) -> &'static str {
        match self {
            Call::Check => "gate_check",
            Call::Model(_) => "gate_model",
            Call::Disclosable(_) => "gate_disclosable",
            Call::Open(_) => "gate_open",
            Call::Round(_) => "gate_round",
        }
    }

    /// Its 16-bit argument; 0 where it has none.
    pub fn argument(self) -> u16 {
        match self {
            Call::Check => 0,
            Call::Model(number)
            | Call::Disclosable(number)
            | Call::Open(number)
            | Call::Round(number) => number,
        }
    }

    /// The call with this name and argument.
    pub fn named(name: &str, argument: u16) -> Option<Call> {
        match name {
            "gate_check" => Some(Call::Check),
            "gate_model" => Some(Call::Model(argument)),
            "gate_disclosable" => Some(Call::Disclosable(argument)),
            "gate_open" => Some(Call::Open(argument)),
            "gate_round" => Some(Call::Round(argument)),
            _ => None,
        }
    }
}

/// An operation on a table of slots, gate_open_at or gate_round_at; table and policy come beside it.
#[derive(Clone, Copy, PartialEq, Eq, Debug)]
pub enum Operation {
    Open {
        slot: usize,
        owner: u8,
        request: u16,
    },
    Round {
        slot: usize,
        p: u16,
    },
}

impl Operation {
    pub fn slot(self) -> usize {
        match self {
            Operation::Open { slot, .. } | Operation::Round { slot, .. } => slot,
        }
    }
}

/// A preview of a round at a slot, gate_preview_at; table and policy come beside it, and the memory for the slot that it gives.
#[derive(Clone, Copy, PartialEq, Eq, Debug)]
pub struct Preview {
    pub slot: usize,
    pub p: u16,
}

impl Preview {
    /// The round that it is of.
    pub fn round(self) -> Operation {
        Operation::Round {
            slot: self.slot,
            p: self.p,
        }
    }
}

/// Where a session, a set or a slot stands in the memory: guard bytes are before and after it.
pub const PLACE: usize = 8;

/// The memory that a call may write, with guard bytes on both sides.
#[derive(Clone, Copy, PartialEq, Eq, Debug)]
#[repr(C, align(8))]
pub struct Memory(pub [u8; 32]);

impl Memory {
    /// The ten bytes of the session.
    pub fn session(&self) -> [u8; 10] {
        self.0[PLACE..PLACE + 10].try_into().expect("ten bytes")
    }

    pub fn set_session(&mut self, bytes: [u8; 10]) {
        self.0[PLACE..PLACE + 10].copy_from_slice(&bytes);
    }

    pub fn model(&self) -> u64 {
        u64::from_le_bytes(self.0[PLACE..PLACE + 8].try_into().expect("eight bytes"))
    }

    pub fn set_model(&mut self, set: u64) {
        self.0[PLACE..PLACE + 8].copy_from_slice(&set.to_le_bytes());
    }

    pub fn set_credentials(&mut self, set: u16) {
        self.0[PLACE..PLACE + 2].copy_from_slice(&set.to_le_bytes());
    }

    /// The twelve bytes of a slot.
    pub fn slot(&self) -> [u8; 12] {
        self.0[PLACE..PLACE + 12].try_into().expect("twelve bytes")
    }

    pub fn set_slot(&mut self, bytes: [u8; 12]) {
        self.0[PLACE..PLACE + 12].copy_from_slice(&bytes);
    }

    /// The eight bytes of a log record.
    pub fn set_record(&mut self, bytes: [u8; 8]) {
        self.0[PLACE..PLACE + 8].copy_from_slice(&bytes);
    }

    /// The number of a log's record.
    pub fn set_place(&mut self, place: usize) {
        self.0[PLACE..PLACE + 8].copy_from_slice(&place.to_le_bytes());
    }
}

/// Something that answers calls: the gate, the plain version, or one with a slip in it.
pub trait Version {
    /// The reply. A right version writes nothing to the policy, and to the memory only what include/gate.h says.
    fn call(&mut self, call: Call, policy: &mut [u8], memory: &mut Memory) -> u32;

    /// gate_log_record, of a round that showed a set, replied so and left this session; the plain version's where there is no
    /// other.
    fn log_record(&mut self, p: u16, reply: u32, session: &mut Memory, memory: &mut Memory) -> u32 {
        Plain.log_record(p, reply, session, memory)
    }

    /// gate_compare_logs; the plain version's where there is no other.
    fn compare_logs(&mut self, first: &mut [u8], second: &mut [u8], memory: &mut Memory) -> u32 {
        Plain.compare_logs(first, second, memory)
    }

    /// gate_open_at or gate_round_at; the plain version's where there is no other. An opening does not look at the policy.
    fn operate(&mut self, operation: Operation, policy: &mut [u8], table: &mut [u8]) -> u32 {
        Plain.operate(operation, policy, table)
    }

    /// gate_preview_at; the plain version's where there is no other. A right version writes nothing to the table either.
    fn preview(
        &mut self,
        preview: Preview,
        policy: &mut [u8],
        table: &mut [u8],
        memory: &mut Memory,
    ) -> u32 {
        Plain.preview(preview, policy, table, memory)
    }
}

/// What include/gate.h's macros read of a reply.
pub fn refusal_of(reply: u32) -> u32 {
    reply & 0xff
}

pub fn ending_of(reply: u32) -> u32 {
    reply >> 8 & 0xff
}

/// The set that a session asks for.
pub fn asked_of(session: [u8; 10]) -> u16 {
    u16::from_le_bytes([session[8], session[9]])
}

/// "enum { GATE_GRANT = 1, GATE_DENY = 2, GATE_ASK = 3 }"
pub const GRANT: u32 = 1;
pub const DENY: u32 = 2;
pub const ASK: u32 = 3;

/// "0x400: they part"
pub const PART: u32 = 0x400;
