//! What rust/chip.rs adds to the call: the same names and numbers as include/chip.h, slices of any length, and trays.
use chip::{call, tray, Chip, Event, Operation, Order, Place, Refusal, Refused, Reply, Session};

fn edition_has_a_number() {
    assert_eq!(chip::EDITION, 5);
}

const REFUSALS: &str = "SY_ERR FN_NAVL SS_OPN SS_NOPN TR_EAB TR_EXS TR_NEXS TR_NAVL TR_NRW RP_NEXS RP_OPN RP_NOPN MO_NEXS MO_DUP \
     MO_NDEQ MO_NVLD MX_RO MX_RW MX_NDEF MX_NRW SD_NDEF SI_NEXS SI_DUP ED_NDEF ED_NDEQ ED_NVLD EI_NEXS AT_NDEF VA_NSET \
     VA_NVLD VT_NVLD NO_ROOM";

fn refusals_have_names() {
    for (name, number) in REFUSALS.split_whitespace().zip(1..) {
        assert_eq!(Refusal::of(number).number(), number);
        assert_eq!(Refusal::of(number).to_string(), name);
    }
    assert_eq!(Refusal::of(32), Refusal::NO_ROOM);
    assert_eq!(Refusal::of(33), Refusal::Unknown(33));
    assert_eq!(Refusal::of(33).to_string(), "unknown refusal");
}

const PLACES: [&str; 8] = [
    "none",
    "argument a",
    "argument b",
    "argument c",
    "models",
    "schema instances",
    "instances",
    "remaining reference",
];

fn places_have_names() {
    for (name, number) in PLACES.iter().zip(0..) {
        assert_eq!(Place::of(number).number(), number);
        assert_eq!(Place::of(number).name(), *name);
    }
    assert_eq!(Place::of(7), Place::Reference);
    assert_eq!(Place::of(8), Place::Unknown(8));
    assert_eq!(Place::of(8).to_string(), "unknown place");
}

/// A refusal that is about no argument.
fn by_itself(refusal: Refusal) -> Result<u32, Refused> {
    Err(Refused {
        refusal,
        place: Place::None,
    })
}

/// An answer's place comes with the refusal, and stands in the event.
fn places_are_told() {
    let mut on = Chip::fresh();
    assert_eq!(on.ask(Operation::OpenSession, 0, 0, 0), Ok(0));
    let refused = on.ask(Operation::SubtypeTest, 0, 10, 0).unwrap_err();
    assert_eq!(
        (refused.refusal, refused.place),
        (Refusal::ED_NDEF, Place::B)
    );
    assert_eq!(refused.to_string(), "ED_NDEF, argument b");
    assert_eq!(Refusal::from(refused), Refusal::ED_NDEF);
    let event = Event {
        op: 46,
        refusal: 24,
        place: 2,
    };
    assert_eq!((on.session.count, on.session.events[0]), (1, event));
    assert_eq!(
        on.ask(Operation::Commit, 0, 0, 0).unwrap_err().to_string(),
        "TR_NEXS"
    );
}

/// An operation has a name exactly if the library lists its number.
fn listed_operations_have_names() {
    for op in 0..70_000 {
        let unlisted = Chip::fresh().ask(op, 0, 0, 0) == by_itself(Refusal::FN_NAVL);
        assert_eq!(Operation::of(op).is_none(), unlisted);
        assert!(Operation::of(op)
            .is_none_or(|listed| u32::from(listed) == op && !listed.to_string().is_empty()));
    }
}

fn short_tables_are_refused() {
    let mut session = Session::default();
    let (mut working, mut kept) = ([0; chip::WORDS], [0; chip::WORDS]);
    assert_eq!(
        call(
            Operation::OpenSession,
            0,
            0,
            0,
            &mut session,
            &mut [],
            &mut []
        ),
        by_itself(Refusal::SY_ERR)
    );
    assert_eq!(
        call(
            Operation::OpenSession,
            0,
            0,
            0,
            &mut session,
            &mut working[..chip::WORDS - 1],
            &mut kept
        ),
        by_itself(Refusal::SY_ERR)
    );
    assert_eq!(session, Session::default());
    assert_eq!(
        call(
            Operation::OpenSession,
            0,
            0,
            0,
            &mut session,
            &mut working,
            &mut kept
        ),
        Ok(0)
    );
    assert_eq!((session.opened, session.recording), (1, 1));
}

/// A model moves the first cursor, a schema instance the second, an instance the third.
fn cursors_have_names() {
    let mut on = Chip::fresh();
    let made = [
        (Operation::CreateModel, chip::MODEL_CURSOR),
        (
            Operation::CreateSchemaInstance,
            chip::SCHEMA_INSTANCE_CURSOR,
        ),
        (Operation::CreateInstance, chip::INSTANCE_CURSOR),
    ];
    for op in [
        Operation::OpenSession,
        Operation::OpenRepository,
        Operation::StartRw,
    ] {
        assert_eq!(on.ask(op, 0, 0, 0), Ok(0));
    }
    for (op, cursor) in made {
        assert_eq!(on.working[cursor], 0);
        assert_eq!(on.ask(op, 0, 1, 7), Ok(0));
        assert_eq!(on.working[cursor], 1);
        if op == Operation::CreateModel {
            assert_eq!(on.ask(Operation::RwAccess, 0, 0, 0), Ok(0));
        }
    }
}

/// A plate is made, measured and kept. Three orders are refused: before the transaction, for an attribute, for a number that
/// is not listed.
fn orders() -> [Order; 12] {
    [
        Order::new(Operation::OpenSession, 0, 0, 0),
        Order::new(Operation::OpenRepository, 0, 0, 0),
        Order::new(Operation::CreateModel, 0, 1, 7),
        Order::new(Operation::StartRw, 0, 0, 0),
        Order::new(Operation::CreateModel, 0, 1, 7),
        Order::new(Operation::RwAccess, 0, 0, 0),
        Order::new(Operation::CreateInstance, 0, chip::PLATE, 0),
        Order::new(Operation::Put, 0, chip::PLATE_THICKNESS + 1, 25),
        Order::new(Operation::Put, 0, chip::PLATE_THICKNESS, 25),
        Order::new(Operation::Get, 0, chip::PLATE_THICKNESS, 0),
        Order::new(Operation::EndCommit, 0, 0, 0),
        Order::new(u32::MAX, 0, 0, 0),
    ]
}

/// An answer that the library does not give.
const MARK: Reply = Reply {
    refusal: 0xa5a5,
    place: 0xa5a5,
    value: 0xa5a5_a5a5,
};

/// What an order has where nothing is sound.
const UNSOUND: Reply = Reply {
    refusal: 1,
    place: 0,
    value: 0,
};

fn orders_and_replies_are_as_in_c() {
    assert_eq!((size_of::<Order>(), size_of::<Reply>()), (16, 8));
    assert_eq!(Reply::default().result(), Ok(0));
    assert_eq!(UNSOUND.result(), by_itself(Refusal::SY_ERR));
    assert_eq!(
        MARK.result().unwrap_err().to_string(),
        "unknown refusal, unknown place"
    );
}

/// All orders in two trays, wherever the row is cut, the empty ones included: so the second goes on from the session that the
/// first left.
fn trays_answer_as_calls() {
    let orders = orders();
    for cut in 0..=orders.len() {
        let (mut one, mut other) = (Chip::fresh(), Chip::fresh());
        let mut answers = [MARK; 12];
        assert_eq!(one.ask_tray(&orders[..cut], &mut answers[..cut]), Ok(()));
        assert!(answers[cut..].iter().all(|answer| *answer == MARK));
        assert_eq!(one.ask_tray(&orders[cut..], &mut answers[cut..]), Ok(()));
        for (order, answer) in orders.iter().zip(answers) {
            let single = other.ask(order.op, order.a, order.b, order.c);
            assert_eq!(answer.result(), single);
        }
        assert_eq!(one, other);
        assert_eq!(answers[2].result(), by_itself(Refusal::TR_NAVL));
        assert_eq!(answers[9].result(), Ok(25));
        assert_eq!(one.session.count, 3);
    }
}

/// With too few answers nothing changes; with more than there are orders the rest stays.
fn rows_may_differ_in_length() {
    let (orders, mut on) = (orders(), Chip::fresh());
    let mut answers = [MARK; 15];
    assert_eq!(on.ask(Operation::OpenSession, 0, 0, 0), Ok(0));
    let before = on.clone();
    for places in 0..orders.len() {
        assert_eq!(
            on.ask_tray(&orders, &mut answers[..places]).map(|()| 0),
            by_itself(Refusal::SY_ERR)
        );
        assert_eq!((&on, answers), (&before, [MARK; 15]));
    }
    assert_eq!(on.ask_tray(&orders, &mut answers), Ok(()));
    assert_eq!(answers[0].result(), by_itself(Refusal::SS_OPN));
    assert_eq!(answers[11].result(), by_itself(Refusal::FN_NAVL));
    assert_eq!(answers[12..], [MARK; 3]);
}

/// Nothing is asked for, and of the state nothing is asked.
fn empty_trays_are_done() {
    let mut on = Chip::fresh();
    for word in [0, 1] {
        let mut answers = [MARK];
        on.working[0] = word;
        let before = on.clone();
        assert_eq!(on.ask_tray(&[], &mut []), Ok(()));
        assert_eq!(on.ask_tray(&[], &mut answers), Ok(()));
        assert_eq!((&on, answers), (&before, [MARK]));
    }
}

/// The tray is done, and each of its orders is refused.
fn unsound_states_are_told_order_by_order() {
    let (orders, mut on) = (orders(), Chip::fresh());
    let mut answers = [MARK; 12];
    on.working[0] = 1;
    let before = on.clone();
    assert_eq!(on.ask_tray(&orders, &mut answers), Ok(()));
    assert_eq!((&on, answers), (&before, [UNSOUND; 12]));

    let mut session = Session {
        opened: 1,
        ..Session::default()
    };
    let given = session;
    answers = [MARK; 12];
    assert_eq!(
        tray(&orders, &mut answers, &mut session, &mut [], &mut []),
        Ok(())
    );
    assert_eq!((session, answers), (given, [UNSOUND; 12]));
}

fn main() {
    edition_has_a_number();
    refusals_have_names();
    places_have_names();
    places_are_told();
    listed_operations_have_names();
    short_tables_are_refused();
    cursors_have_names();
    orders_and_replies_are_as_in_c();
    trays_answer_as_calls();
    rows_may_differ_in_length();
    empty_trays_are_done();
    unsound_states_are_told_order_by_order();
    println!("face in Rust: as in C");
}
