//! Names of calls, callers, arguments and states: one table for all tools.

/// How an argument is written.
#[derive(Clone, Copy, PartialEq, Eq, Debug)]
pub enum Form {
    /// A plain number.
    Number,
    /// Ticks, or `forever` (0xFFFFFFFF).
    Ticks,
    /// Ticks, `none` (0) or `forever` (0xFFFFFFFF).
    Wait,
    /// Event flags, in hexadecimal.
    Flags,
    /// `or` (0) or `and` (2).
    SetOption,
    /// `or`, `or_clear`, `and` or `and_clear` (0 to 3).
    GetOption,
    /// A message in place, or the index of one.
    Message,
}

/// An argument that a call uses.
#[derive(Clone, Copy, Debug)]
pub struct Argument {
    pub name: &'static str,
    pub form: Form,
}

/// A known call.
#[derive(Clone, Copy, Debug)]
pub struct Service {
    pub number: u32,
    pub name: &'static str,
    pub arguments: &'static [Argument],
}

const fn number(name: &'static str) -> Argument {
    Argument { name, form: Form::Number }
}

const WAIT: Argument = Argument { name: "wait", form: Form::Wait };
const TICKS: Argument = Argument { name: "ticks", form: Form::Ticks };
const FLAGS: Argument = Argument { name: "flags", form: Form::Flags };
const SET_OPTION: Argument = Argument { name: "option", form: Form::SetOption };
const GET_OPTION: Argument = Argument { name: "option", form: Form::GetOption };
const MESSAGE: Argument = Argument { name: "message", form: Form::Message };
const THREAD: Argument = number("thread");
const SEMAPHORE: Argument = number("semaphore");
const QUEUE: Argument = number("queue");
const GROUP: Argument = number("group");
const POOL: Argument = number("pool");

const fn service(number: u32, name: &'static str, arguments: &'static [Argument]) -> Service {
    Service { number, name, arguments }
}

/// All known calls, by number. Names without `tx_` are no ThreadX services.
pub const SERVICES: [Service; 39] = [
    service(
        1,
        "tx_thread_create",
        &[THREAD, number("priority"), number("threshold"), number("start")],
    ),
    service(2, "tx_thread_delete", &[THREAD]),
    service(3, "tx_thread_resume", &[THREAD]),
    service(4, "tx_thread_suspend", &[THREAD]),
    service(5, "tx_thread_terminate", &[THREAD]),
    service(6, "tx_thread_reset", &[THREAD]),
    service(7, "finish", &[]),
    service(8, "tx_thread_relinquish", &[]),
    service(9, "tx_thread_sleep", &[TICKS]),
    service(10, "tx_thread_wait_abort", &[THREAD]),
    service(11, "tx_thread_priority_change", &[THREAD, number("priority")]),
    service(12, "tx_thread_preemption_change", &[THREAD, number("threshold")]),
    service(13, "tx_time_get", &[]),
    service(14, "tx_time_set", &[number("clock")]),
    service(15, "tick", &[]),
    service(16, "tx_semaphore_create", &[SEMAPHORE, number("count")]),
    service(17, "tx_semaphore_delete", &[SEMAPHORE]),
    service(18, "tx_semaphore_get", &[SEMAPHORE, WAIT]),
    service(19, "tx_semaphore_put", &[SEMAPHORE]),
    service(20, "tx_semaphore_ceiling_put", &[SEMAPHORE, number("ceiling")]),
    service(21, "tx_semaphore_prioritize", &[SEMAPHORE]),
    service(22, "tx_queue_create", &[QUEUE, number("message_words"), number("storage_words")]),
    service(23, "tx_queue_delete", &[QUEUE]),
    service(24, "tx_queue_send", &[QUEUE, WAIT, MESSAGE]),
    service(25, "tx_queue_front_send", &[QUEUE, WAIT, MESSAGE]),
    service(26, "tx_queue_receive", &[QUEUE, WAIT]),
    service(27, "tx_queue_flush", &[QUEUE]),
    service(28, "tx_queue_prioritize", &[QUEUE]),
    service(29, "tx_event_flags_create", &[GROUP]),
    service(30, "tx_event_flags_delete", &[GROUP]),
    service(31, "tx_event_flags_set", &[GROUP, FLAGS, SET_OPTION]),
    service(32, "tx_event_flags_get", &[GROUP, FLAGS, GET_OPTION, WAIT]),
    service(33, "tx_block_pool_create", &[POOL, number("block_bytes"), number("total_bytes")]),
    service(34, "tx_block_pool_delete", &[POOL]),
    service(35, "tx_block_allocate", &[POOL, WAIT]),
    service(36, "tx_block_release", &[POOL, number("block")]),
    service(37, "tx_block_pool_prioritize", &[POOL]),
    service(38, "read_state", &[THREAD]),
    service(39, "read_words", &[THREAD]),
];

/// Callers by number.
pub const CALLERS: [&str; 3] = ["startup", "interrupt", "thread"];

/// Options of a flags get by number; a set uses 0 and 2.
pub const OPTIONS: [&str; 4] = ["or", "or_clear", "and", "and_clear"];

/// The call with this number.
pub fn service_numbered(number: u32) -> Option<&'static Service> {
    SERVICES.get((number as usize).checked_sub(1)?)
}

/// The call with this name.
pub fn service_named(name: &str) -> Option<&'static Service> {
    SERVICES.iter().find(|service| service.name == name)
}
