//! The chip library for Rust: safe functions over libchip.a, which `make lib` gives. docs/CHIP.md is the manual, and
//! include/chip.h says what a call costs and what a loss of power does.
//!
//! `rustc --edition 2021 --crate-type rlib -L native=FOLDER chip.rs`, with the folder of libchip.a. Nothing else is needed.
#![no_std]
#![deny(missing_docs)]

use core::fmt;

/// The edition that this file is for; 0 is the base.
pub const EDITION: u32 = 5;
/// Words of a table that are in use; a table with fewer is `SY_ERR`.
pub const WORDS: usize = 739;
/// The word of the models' cursor, the number that a creation tries first; include/chip.h says how it moves.
pub const MODEL_CURSOR: usize = 736;
/// The word of the schema instances' cursor.
pub const SCHEMA_INSTANCE_CURSOR: usize = 737;
/// The word of the instances' cursor.
pub const INSTANCE_CURSOR: usize = 738;
/// Events that a session holds at most.
pub const EVENTS: usize = 16;
/// Repositories, 0 to 7, always known.
pub const REPOSITORIES: u32 = 8;
/// Models that a table has room for.
pub const MODELS: u32 = 64;
/// Schema instances that a table has room for.
pub const SCHEMA_INSTANCES: u32 = 16;
/// Instances that a table has room for.
pub const INSTANCES: u32 = 128;
/// A session's transaction: there is none.
pub const NONE: u32 = 0;
/// A session's transaction: read-only.
pub const RO: u32 = 1;
/// A session's transaction: read-write.
pub const RW: u32 = 2;
/// A session's transaction: aborted by a fault, and not ended yet.
pub const ABORTED: u32 = 3;

// ---- the dictionary: types, and attributes by type; inherited ones come first

/// Type 0.
pub const ITEM: u32 = 0;
/// Attribute 0 of type 0.
pub const ITEM_NUMBER: u32 = 0;
/// Type 1.
pub const PART: u32 = 1;
/// Attribute 0 of type 1.
pub const PART_NUMBER: u32 = 0;
/// Attribute 1 of type 1.
pub const PART_MASS: u32 = 1;
/// Type 2.
pub const PLATE: u32 = 2;
/// Attribute 0 of type 2.
pub const PLATE_NUMBER: u32 = 0;
/// Attribute 1 of type 2.
pub const PLATE_MASS: u32 = 1;
/// Attribute 2 of type 2.
pub const PLATE_THICKNESS: u32 = 2;
/// Type 3.
pub const CAVITY: u32 = 3;
/// Attribute 0 of type 3.
pub const CAVITY_NUMBER: u32 = 0;
/// Attribute 1 of type 3.
pub const CAVITY_MASS: u32 = 1;
/// Attribute 2 of type 3.
pub const CAVITY_PLATE: u32 = 2;
/// Type 4.
pub const ASSEMBLY: u32 = 4;
/// Attribute 0 of type 4.
pub const ASSEMBLY_NUMBER: u32 = 0;
/// Attribute 1 of type 4.
pub const ASSEMBLY_ITEM: u32 = 1;
/// Type 5.
pub const EVENT: u32 = 5;
/// Attribute 0 of type 5.
pub const EVENT_DAY: u32 = 0;
/// Type 6.
pub const SHOT_COUNT: u32 = 6;
/// Attribute 0 of type 6.
pub const SHOT_COUNT_DAY: u32 = 0;
/// Attribute 1 of type 6.
pub const SHOT_COUNT_PART: u32 = 1;
/// Attribute 2 of type 6.
pub const SHOT_COUNT_SHOTS: u32 = 2;
/// Type 7.
pub const REPAIR: u32 = 7;
/// Attribute 0 of type 7.
pub const REPAIR_DAY: u32 = 0;
/// Attribute 1 of type 7.
pub const REPAIR_PART: u32 = 1;
/// Type 8.
pub const READING: u32 = 8;
/// Attribute 0 of type 8.
pub const READING_VALUE: u32 = 0;
/// Type 9.
pub const WEAR: u32 = 9;
/// Attribute 0 of type 9.
pub const WEAR_VALUE: u32 = 0;
/// Attribute 1 of type 9.
pub const WEAR_READING: u32 = 1;

// ---- what crosses the border

/// A refusal that was recorded with its place, and the operation that it was given to.
#[repr(C)]
#[derive(Clone, Copy, Debug, Default, PartialEq, Eq)]
pub struct Event {
    /// The operation's number.
    pub op: u32,
    /// The refusal's number.
    pub refusal: u8,
    /// The place's number; 0 to 7 are sound beside any refusal.
    pub place: u8,
}

/// A session, as the caller holds it between calls. Every value is taken; one that is not sound is `SY_ERR`.
#[repr(C)]
#[derive(Clone, Copy, Debug, Default, PartialEq, Eq)]
pub struct Session {
    /// The oldest first; after the first `count` all fields are 0.
    pub events: [Event; EVENTS],
    /// How many events there are.
    pub count: u64,
    /// Bit r for open repository r.
    pub repositories: u64,
    /// Bit m for model m with read-only access.
    pub ro: u64,
    /// Bit m for model m with read-write access.
    pub rw: u64,
    /// 1 if the session is open.
    pub opened: u32,
    /// 1 if refusals are recorded.
    pub recording: u32,
    /// 0 none, 1 read-only, 2 read-write, 3 aborted.
    pub transaction: u32,
}

/// One operation of a tray, with what `call` takes for it.
#[repr(C)]
#[derive(Clone, Copy, Debug, Default, PartialEq, Eq)]
pub struct Order {
    /// The operation's number.
    pub op: u32,
    /// The first argument.
    pub a: u32,
    /// The second.
    pub b: u32,
    /// The third.
    pub c: u32,
}

impl Order {
    /// Any number and any arguments.
    pub fn new(op: impl Into<u32>, a: u32, b: u32, c: u32) -> Order {
        let op = op.into();
        Order { op, a, b, c }
    }
}

/// All of an answer but the session, as it comes over the border: so the orders of a tray are answered.
#[repr(C)]
#[derive(Clone, Copy, Debug, Default, PartialEq, Eq)]
pub struct Reply {
    /// The refusal's number; 0 if it is done.
    pub refusal: u16,
    /// The place's number.
    pub place: u16,
    /// 0 unless it is done.
    pub value: u32,
}

impl Reply {
    /// The value if it is done.
    pub fn result(self) -> Result<u32, Refused> {
        match self.refusal {
            0 => Ok(self.value),
            refusal => Err(Refused {
                refusal: Refusal::of(refusal.into()),
                place: Place::of(self.place.into()),
            }),
        }
    }
}

#[repr(C)]
struct Answer {
    reply: Reply,
    session: Session,
}

impl Answer {
    /// Takes it apart: the session goes where the caller holds it.
    fn settle(self, session: &mut Session) -> Result<u32, Refused> {
        *session = self.session;
        self.reply.result()
    }
}

const _: () =
    assert!(core::mem::size_of::<Event>() == 8 && core::mem::offset_of!(Event, place) == 5);
const _: () = assert!(
    core::mem::size_of::<Session>() == 176 && core::mem::offset_of!(Session, transaction) == 168
);
const _: () = assert!(core::mem::size_of::<Order>() == 16 && core::mem::offset_of!(Order, c) == 12);
const _: () = assert!(
    core::mem::size_of::<Reply>() == 8
        && core::mem::offset_of!(Reply, place) == 2
        && core::mem::offset_of!(Reply, value) == 4
);
const _: () =
    assert!(core::mem::size_of::<Answer>() == 184 && core::mem::offset_of!(Answer, session) == 8);
const _: () = assert!(core::mem::size_of::<usize>() == 8);

#[link(name = "chip", kind = "static")]
extern "C" {
    fn chip_call(
        op: u32,
        a: u32,
        b: u32,
        c: u32,
        session: Session,
        working: *mut u64,
        working_words: usize,
        kept: *mut u64,
        kept_words: usize,
    ) -> Answer;

    fn chip_tray(
        orders: *const Order,
        count: usize,
        answers: *mut Reply,
        places: usize,
        session: Session,
        working: *mut u64,
        working_words: usize,
        kept: *mut u64,
        kept_words: usize,
    ) -> Answer;
}

// ---- operations, refusals and places

macro_rules! operations {
    ($($(#[$doc:meta])* $case:ident = $number:literal $name:literal,)*) => {
        /// The operations that are listed. `ask`, `call` and `Order` take any other number too.
        #[derive(Clone, Copy, Debug, PartialEq, Eq)]
        #[repr(u32)]
        pub enum Operation {
            $($(#[$doc])* $case = $number,)*
        }

        impl Operation {
            /// The operation of this number, if it is listed.
            pub fn of(number: u32) -> Option<Operation> {
                match number {
                    $($number => Some(Operation::$case),)*
                    _ => None,
                }
            }

            /// As chip_operation_name has it.
            pub fn name(self) -> &'static str {
                match self {
                    $(Operation::$case => $name,)*
                }
            }
        }
    };
}

operations! {
    /// Open session.
    OpenSession = 1 "open session",
    /// Close session.
    CloseSession = 2 "close session",
    /// Open repository. a: repository.
    OpenRepository = 3 "open repository",
    /// Close repository. a: repository.
    CloseRepository = 4 "close repository",
    /// Start RW.
    StartRw = 5 "start RW",
    /// Start RO.
    StartRo = 6 "start RO",
    /// Commit.
    Commit = 7 "commit",
    /// Abort.
    Abort = 8 "abort",
    /// End, commit.
    EndCommit = 9 "end, commit",
    /// End, abort.
    EndAbort = 10 "end, abort",
    /// Recording on.
    RecordingOn = 11 "recording on",
    /// Recording off.
    RecordingOff = 12 "recording off",
    /// Storage fault.
    StorageFault = 13 "storage fault",
    /// Create model. a: repository, b: schema, c: name.
    CreateModel = 20 "create model",
    /// Delete model. a: model.
    DeleteModel = 21 "delete model",
    /// RO access. a: model.
    RoAccess = 22 "RO access",
    /// RW access. a: model.
    RwAccess = 23 "RW access",
    /// End access. a: model.
    EndAccess = 24 "end access",
    /// Promote. a: model. Its read-only access becomes read-write.
    Promote = 25 "promote",
    /// Create schema instance. a: repository, b: schema, c: name.
    CreateSchemaInstance = 30 "create schema instance",
    /// Delete schema instance. a: schema instance.
    DeleteSchemaInstance = 31 "delete schema instance",
    /// Add model. a: schema instance, b: model.
    AddModel = 32 "add model",
    /// Remove model. a: schema instance, b: model.
    RemoveModel = 33 "remove model",
    /// Create instance. a: model, b: type.
    CreateInstance = 40 "create instance",
    /// Delete instance. a: instance.
    DeleteInstance = 41 "delete instance",
    /// Get. a: instance, b: attribute. When done, its model has read-only access unless it has read-write.
    Get = 42 "get",
    /// Test. a: instance, b: attribute. When done, its model has read-only access unless it has read-write.
    Test = 43 "test",
    /// Put. a: instance, b: attribute, c: value.
    Put = 44 "put",
    /// Unset. a: instance, b: attribute.
    Unset = 45 "unset",
    /// Subtype test. a: type, b: other.
    SubtypeTest = 46 "subtype test",
}

impl From<Operation> for u32 {
    fn from(operation: Operation) -> u32 {
        operation as u32
    }
}

impl fmt::Display for Operation {
    fn fmt(&self, out: &mut fmt::Formatter<'_>) -> fmt::Result {
        out.write_str(self.name())
    }
}

macro_rules! numbers {
    ($(#[$about:meta])* $kind:ident, $unknown:literal, $($(#[$doc:meta])* $case:ident = $number:literal $name:literal,)*) => {
        $(#[$about])*
        #[derive(Clone, Copy, Debug, PartialEq, Eq)]
        pub enum $kind {
            $($(#[$doc])* $case,)*
            /// A number that this edition does not give.
            Unknown(u32),
        }

        impl $kind {
            /// The one of a number.
            pub fn of(number: u32) -> $kind {
                match number {
                    $($number => $kind::$case,)*
                    other => $kind::Unknown(other),
                }
            }

            /// Its number.
            pub fn number(self) -> u32 {
                match self {
                    $($kind::$case => $number,)*
                    $kind::Unknown(number) => number,
                }
            }

            /// As include/chip.h has it.
            pub fn name(self) -> &'static str {
                match self {
                    $($kind::$case => $name,)*
                    $kind::Unknown(_) => $unknown,
                }
            }
        }

        impl fmt::Display for $kind {
            fn fmt(&self, out: &mut fmt::Formatter<'_>) -> fmt::Result {
                out.write_str(self.name())
            }
        }
    };
}

numbers! {
    /// Why a call was not done, by the standard's names and NO_ROOM. 0, which is done, is none of them.
    #[allow(non_camel_case_types)]
    Refusal, "unknown refusal",
    /// Tables or session are not sound, or a tray lacks room; the session comes back as given.
    SY_ERR = 1 "SY_ERR",
    /// No such operation.
    FN_NAVL = 2 "FN_NAVL",
    /// The session is open.
    SS_OPN = 3 "SS_OPN",
    /// The session is closed.
    SS_NOPN = 4 "SS_NOPN",
    /// The transaction is aborted.
    TR_EAB = 5 "TR_EAB",
    /// There is a transaction.
    TR_EXS = 6 "TR_EXS",
    /// There is no transaction to end, commit or abort.
    TR_NEXS = 7 "TR_NEXS",
    /// There is no transaction to work in.
    TR_NAVL = 8 "TR_NAVL",
    /// The transaction is read-only.
    TR_NRW = 9 "TR_NRW",
    /// No such repository.
    RP_NEXS = 10 "RP_NEXS",
    /// The repository is open.
    RP_OPN = 11 "RP_OPN",
    /// The repository is closed.
    RP_NOPN = 12 "RP_NOPN",
    /// No such model.
    MO_NEXS = 13 "MO_NEXS",
    /// The repository has a model of that name.
    MO_DUP = 14 "MO_DUP",
    /// The schemas of model and schema instance differ.
    MO_NDEQ = 15 "MO_NDEQ",
    /// Remove model: not in the set; put: no set has both models.
    MO_NVLD = 16 "MO_NVLD",
    /// The model has read-only access.
    MX_RO = 17 "MX_RO",
    /// The model has read-write access.
    MX_RW = 18 "MX_RW",
    /// The model has no access.
    MX_NDEF = 19 "MX_NDEF",
    /// No read-write access, of the model or of one that refers to what would go: the place tells which.
    MX_NRW = 20 "MX_NRW",
    /// No such schema.
    SD_NDEF = 21 "SD_NDEF",
    /// No such schema instance.
    SI_NEXS = 22 "SI_NEXS",
    /// The repository has a schema instance of that name.
    SI_DUP = 23 "SI_DUP",
    /// No such type.
    ED_NDEF = 24 "ED_NDEF",
    /// The two types are of two schemas.
    ED_NDEQ = 25 "ED_NDEQ",
    /// The type is of another schema than the model.
    ED_NVLD = 26 "ED_NVLD",
    /// No such instance.
    EI_NEXS = 27 "EI_NEXS",
    /// The type has no such attribute.
    AT_NDEF = 28 "AT_NDEF",
    /// The attribute is not set.
    VA_NSET = 29 "VA_NSET",
    /// The value names no instance.
    VA_NVLD = 30 "VA_NVLD",
    /// The value names an instance of a wrong type.
    VT_NVLD = 31 "VT_NVLD",
    /// Every entry is live.
    NO_ROOM = 32 "NO_ROOM",
}

numbers! {
    /// What a refusal is about. A condition on two arguments names the later one; where both types of a subtype test are
    /// none, the first is named.
    Place, "unknown place",
    /// No argument: SY_ERR, FN_NAVL, session and transaction.
    None = 0 "none",
    /// The first argument failed its check.
    A = 1 "argument a",
    /// The second.
    B = 2 "argument b",
    /// The third.
    C = 3 "argument c",
    /// NO_ROOM: there is none for a model.
    Models = 4 "models",
    /// NO_ROOM: there is none for a schema instance.
    SchemaInstances = 5 "schema instances",
    /// NO_ROOM: there is none for an instance.
    Instances = 6 "instances",
    /// MX_NRW: an instance that stays refers to what would go.
    Reference = 7 "remaining reference",
}

/// Why a call was not done, and what that is about. It has changed no word of a table.
#[derive(Clone, Copy, Debug, PartialEq, Eq)]
pub struct Refused {
    /// Why.
    pub refusal: Refusal,
    /// Which argument failed its check, what is full, or that something refers to what would go.
    pub place: Place,
}

impl fmt::Display for Refused {
    fn fmt(&self, out: &mut fmt::Formatter<'_>) -> fmt::Result {
        match self.place {
            Place::None => write!(out, "{}", self.refusal),
            place => write!(out, "{}, {place}", self.refusal),
        }
    }
}

impl core::error::Error for Refused {}

/// For `?` in a function that gives the refusal alone.
impl From<Refused> for Refusal {
    fn from(refused: Refused) -> Refusal {
        refused.refusal
    }
}

// ---- the call

/// One operation, any number and any arguments, on any session and tables of any length: the value if it is done. Two
/// tables that are lent for writing cannot overlap, which is all that the call asks of them.
pub fn call(
    op: impl Into<u32>,
    a: u32,
    b: u32,
    c: u32,
    session: &mut Session,
    working: &mut [u64],
    kept: &mut [u64],
) -> Result<u32, Refused> {
    let op = op.into();
    // SAFETY: both slices may be read and written for their lengths, are aligned, and are apart, being borrowed mutably.
    let answer = unsafe {
        chip_call(
            op,
            a,
            b,
            c,
            *session,
            working.as_mut_ptr(),
            working.len(),
            kept.as_mut_ptr(),
            kept.len(),
        )
    };
    answer.settle(session)
}

/// A whole tray at once: `answers[n]` becomes what `call` answers to `orders[n]` on what the orders before it left. Answers
/// behind those of the orders stay as they are.
///
/// It is done however the orders were answered, on tables or a session that are not sound too: each of them is `SY_ERR` then.
/// Only with fewer answers than orders it is `SY_ERR` itself, and nothing has changed. A refusal stops no order after it.
pub fn tray(
    orders: &[Order],
    answers: &mut [Reply],
    session: &mut Session,
    working: &mut [u64],
    kept: &mut [u64],
) -> Result<(), Refused> {
    // SAFETY: the orders may be read, the other three read and written, each for its length; all are aligned, and apart,
    // since what is borrowed mutably is borrowed once.
    let answer = unsafe {
        chip_tray(
            orders.as_ptr(),
            orders.len(),
            answers.as_mut_ptr(),
            answers.len(),
            *session,
            working.as_mut_ptr(),
            working.len(),
            kept.as_mut_ptr(),
            kept.len(),
        )
    };
    answer.settle(session).map(|_| ())
}

/// A session and its two tables, some 12 KB.
#[derive(Clone, Debug, PartialEq, Eq)]
pub struct Chip {
    /// What the last answer left.
    pub session: Session,
    /// What operations read and change.
    pub working: [u64; WORDS],
    /// What was last committed.
    pub kept: [u64; WORDS],
}

impl Chip {
    /// All zeros.
    pub const fn fresh() -> Chip {
        let event = Event {
            op: 0,
            refusal: 0,
            place: 0,
        };
        let session = Session {
            events: [event; EVENTS],
            count: 0,
            repositories: 0,
            ro: 0,
            rw: 0,
            opened: 0,
            recording: 0,
            transaction: 0,
        };
        Chip {
            session,
            working: [0; WORDS],
            kept: [0; WORDS],
        }
    }

    /// After a loss of power: the kept table is all that is left.
    pub fn restart(&mut self) {
        self.session = Session::default();
        self.working = self.kept;
    }

    /// `call` on it.
    pub fn ask(&mut self, op: impl Into<u32>, a: u32, b: u32, c: u32) -> Result<u32, Refused> {
        call(
            op,
            a,
            b,
            c,
            &mut self.session,
            &mut self.working,
            &mut self.kept,
        )
    }

    /// `tray` on it.
    pub fn ask_tray(&mut self, orders: &[Order], answers: &mut [Reply]) -> Result<(), Refused> {
        tray(
            orders,
            answers,
            &mut self.session,
            &mut self.working,
            &mut self.kept,
        )
    }
}
