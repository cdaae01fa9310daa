//! The wrong rules. Each changes one rule of 01 or 02 and nothing else; `Wrong::None` is the papers themselves.

/// The decision lists of 01 and 02, each "in order".
#[derive(Clone, Copy, PartialEq, Eq)]
pub enum List {
    Record,
    End,
    Start,
    Call,
    Return,
    TakeBack,
}

#[derive(Clone, Copy, PartialEq, Eq)]
pub enum Wrong {
    None,
    /// The paper's BAD-P: only the asker's own level, and a free thread.
    BadP,
    /// The paper's BASIC-P: level below the free threads.
    BasicP,
    /// The paper's EFFICIENT-P.
    EfficientP,
    /// A[k] may be T - k + 1.
    LimitUp,
    /// A[k] may only be T - k - 1.
    LimitDown,
    /// Levels at or above T have a limit too.
    LimitAboveT,
    /// Waiting calls are counted as active ones.
    WaitingCounted,
    /// A newcomer waits behind those who wait.
    NoPassing,
    /// A return looks at the first waiter only.
    FirstWaiter,
    /// A return takes the youngest admissible.
    Youngest,
    /// A return takes the lowest ticket.
    LowestTicket,
    /// A return takes the lowest level.
    LowestLevel,
    /// A return takes the highest admissible level.
    HighestLevel,
    /// A return admits nobody.
    NobodyServed,
    /// 29 counts active children only.
    ActiveChildren,
    /// 29 is never given.
    NoChildren,
    /// 256 open calls may become 257.
    Open257,
    /// 255 open calls are the limit.
    Open255,
    /// 257 edges are let through.
    Edge257,
    /// 256 edges are refused.
    Edge256,
    /// Site steps need a strictly falling level.
    StrictLevels,
    /// No site steps at all.
    NoSiteSteps,
    /// Site steps go up as well.
    StepsBothWays,
    /// An edge from a node to itself is no loop.
    SelfEdge,
    /// A level equal to the threads is let through.
    LevelT,
    /// A record may repeat the one before.
    Repeats,
    /// The pair rises in its second number alone when compared.
    CalledOnly,
    /// Site 16 and node 64 are let through.
    Numbers,
    /// 65 threads are let through.
    Threads65,
    /// The offset of `bad` is counted from the plan's end.
    BadOffset,
    /// `done` leaves refused commands out.
    DoneAccepted,
    /// A cut command is no fault.
    CutDone,
    /// A room is 01's formula, T - k - A[k].
    RoomFormula,
    /// A room is the smallest over the levels below alone.
    RoomBelow,
    /// A room is the smallest over all levels.
    RoomAllLevels,
    /// The room at level 0 is one too small.
    RoomZeroOff,
    /// Two-byte numbers low byte first.
    LowByteFirst,
    /// After a taking back the call that has waited longest at the site becomes active.
    BackServes,
    /// An active call is taken back: 34 is never given.
    BackActive,
    /// A taking back turns the order of the others round.
    BackTurns,
    /// The last of the waiting order takes the place of the call that was taken back.
    BackLastMoves,
    /// A call that was taken back is still a child of its parent.
    BackStillChild,
    /// The place of a call that was taken back is not used again.
    BackKeepsPlace,
    /// A call that waits is told the lowest full level.
    BlockLowest,
    /// A call that waits is told the highest full level below its own.
    BlockBelow,
    /// A call that waits is told the highest full level of all.
    BlockAnywhere,
    /// A call that waits is told its own level.
    BlockOwn,
    /// A call that waits is told no level.
    BlockUntold,
    /// A question's `W` has the level too.
    AskBlock,
    /// `number` is tested just before `before`, and no longer in its place.
    Early(List, u8, u8),
}

pub const ALL: [(&str, Wrong); 69] = [
    ("bad-p", Wrong::BadP),
    ("first-waiter", Wrong::FirstWaiter),
    ("strict-levels", Wrong::StrictLevels),
    ("limit-up", Wrong::LimitUp),
    ("limit-down", Wrong::LimitDown),
    ("active-children", Wrong::ActiveChildren),
    ("limit-above-t", Wrong::LimitAboveT),
    ("basic-p", Wrong::BasicP),
    ("efficient-p", Wrong::EfficientP),
    ("waiting-counted", Wrong::WaitingCounted),
    ("no-passing", Wrong::NoPassing),
    ("youngest", Wrong::Youngest),
    ("lowest-ticket", Wrong::LowestTicket),
    ("lowest-level", Wrong::LowestLevel),
    ("highest-level", Wrong::HighestLevel),
    ("nobody-served", Wrong::NobodyServed),
    ("no-children", Wrong::NoChildren),
    ("open-257", Wrong::Open257),
    ("open-255", Wrong::Open255),
    ("edge-257", Wrong::Edge257),
    ("edge-256", Wrong::Edge256),
    ("no-site-steps", Wrong::NoSiteSteps),
    ("steps-both-ways", Wrong::StepsBothWays),
    ("self-edge", Wrong::SelfEdge),
    ("level-t", Wrong::LevelT),
    ("repeats", Wrong::Repeats),
    ("called-only", Wrong::CalledOnly),
    ("numbers", Wrong::Numbers),
    ("threads-65", Wrong::Threads65),
    ("bad-offset", Wrong::BadOffset),
    ("done-accepted", Wrong::DoneAccepted),
    ("cut-done", Wrong::CutDone),
    ("room-formula", Wrong::RoomFormula),
    ("room-below", Wrong::RoomBelow),
    ("room-all-levels", Wrong::RoomAllLevels),
    ("room-zero-off", Wrong::RoomZeroOff),
    ("low-byte-first", Wrong::LowByteFirst),
    ("back-serves", Wrong::BackServes),
    ("back-active", Wrong::BackActive),
    ("back-turns", Wrong::BackTurns),
    ("back-last-moves", Wrong::BackLastMoves),
    ("back-still-child", Wrong::BackStillChild),
    ("back-keeps-place", Wrong::BackKeepsPlace),
    ("block-lowest", Wrong::BlockLowest),
    ("block-below", Wrong::BlockBelow),
    ("block-anywhere", Wrong::BlockAnywhere),
    ("block-own", Wrong::BlockOwn),
    ("block-untold", Wrong::BlockUntold),
    ("ask-block", Wrong::AskBlock),
    ("record-1-2", Wrong::Early(List::Record, 1, 2)),
    ("record-3-1", Wrong::Early(List::Record, 3, 1)),
    ("record-4-3", Wrong::Early(List::Record, 4, 3)),
    ("record-5-4", Wrong::Early(List::Record, 5, 4)),
    ("record-6-5", Wrong::Early(List::Record, 6, 5)),
    ("record-6-4", Wrong::Early(List::Record, 6, 4)),
    ("record-9-5", Wrong::Early(List::Record, 9, 5)),
    ("record-9-3", Wrong::Early(List::Record, 9, 3)),
    ("record-9-1", Wrong::Early(List::Record, 9, 1)),
    ("end-8-7", Wrong::Early(List::End, 8, 7)),
    ("start-22-21", Wrong::Early(List::Start, 22, 21)),
    ("start-26-22", Wrong::Early(List::Start, 26, 22)),
    ("start-26-20", Wrong::Early(List::Start, 26, 20)),
    ("call-23-21", Wrong::Early(List::Call, 23, 21)),
    ("call-22-24", Wrong::Early(List::Call, 22, 24)),
    ("call-22-23", Wrong::Early(List::Call, 22, 23)),
    ("call-25-22", Wrong::Early(List::Call, 25, 22)),
    ("call-26-25", Wrong::Early(List::Call, 26, 25)),
    ("call-26-20", Wrong::Early(List::Call, 26, 20)),
    ("back-34-27", Wrong::Early(List::TakeBack, 34, 27)),
];

pub fn named(name: &str) -> Option<Wrong> {
    ALL.iter().find(|(n, _)| *n == name).map(|(_, w)| *w)
}

/// 01's orders: "Checks on one record, in order", "7, then 8", "Order for a start", "a call", "a return";
/// and 02's, 4/14: "first 27 if not open, then 34 if active".
fn right_order(list: List) -> Vec<u8> {
    match list {
        List::Record => vec![2, 1, 3, 4, 5, 6, 9],
        List::End => vec![7, 8],
        List::Start => vec![20, 21, 22, 26],
        List::Call => vec![20, 21, 23, 24, 22, 25, 26],
        List::Return => vec![27, 28, 29],
        List::TakeBack => vec![27, 34],
    }
}

/// "The first fault decides": the first number of the list whose condition holds.
pub fn first(list: List, wrong: Wrong, holds: impl Fn(u8) -> bool) -> Option<u8> {
    let mut order = right_order(list);
    if let Wrong::Early(l, number, before) = wrong {
        if l == list {
            order.retain(|n| *n != number);
            let place = order.iter().position(|n| *n == before).unwrap();
            order.insert(place, number);
        }
    }
    order.into_iter().find(|n| holds(*n))
}
