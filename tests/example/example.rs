//! The walk of example.c in Rust: a plate is made, read back and kept; then power is lost, and it is read from what was kept
//! and made thinner. One question is wrong, and the answer says which argument is to blame. What waits for no answer is asked
//! in trays.
use chip::{Chip, Operation, Order, Refused, Reply};
use std::process::ExitCode;

struct Walk {
    on: Chip,
    refused: u32,
}

impl Walk {
    fn tell(&mut self, op: Operation, result: Result<u32, Refused>) -> u32 {
        match result {
            Ok(value) => {
                println!("{op}: done, value {value}");
                value
            }
            Err(Refused { refusal, place }) => {
                println!("{op}: {refusal}, place: {place}");
                self.refused += 1;
                0
            }
        }
    }

    fn ask(&mut self, op: Operation, a: u32, b: u32, c: u32) -> u32 {
        let result = self.on.ask(op, a, b, c);
        self.tell(op, result)
    }

    /// A tray is done if there is room for its answers; how each order went is told there.
    fn ask_three(&mut self, asked: [(Operation, u32, u32, u32); 3]) {
        let mut answers = [Reply::default(); 3];
        let orders = asked.map(|(op, a, b, c)| Order::new(op, a, b, c));
        if self.on.ask_tray(&orders, &mut answers).is_err() {
            self.refused += 1;
            return;
        }
        for ((op, ..), answer) in asked.into_iter().zip(answers) {
            self.tell(op, answer.result());
        }
    }

    fn begin(&mut self, repository: u32) {
        self.ask_three([
            (Operation::OpenSession, 0, 0, 0),
            (Operation::OpenRepository, repository, 0, 0),
            (Operation::StartRw, 0, 0, 0),
        ]);
    }

    fn put_plate(&mut self, plate: u32, number: u32, mass: u32, thickness: u32) {
        self.ask_three([
            (Operation::Put, plate, chip::PLATE_NUMBER, number),
            (Operation::Put, plate, chip::PLATE_MASS, mass),
            (Operation::Put, plate, chip::PLATE_THICKNESS, thickness),
        ]);
    }

    fn make_plate(&mut self, repository: u32, schema: u32, name: u32) {
        self.begin(repository);
        let model = self.ask(Operation::CreateModel, repository, schema, name);
        self.ask(Operation::RwAccess, model, 0, 0);
        let plate = self.ask(Operation::CreateInstance, model, chip::PLATE, 0);
        self.put_plate(plate, 5, 1200, 25);
        self.ask(Operation::Get, plate, chip::PLATE_THICKNESS, 0);
        self.ask(Operation::EndCommit, 0, 0, 0);
    }

    /// The get gives the model read-only access, the promotion makes it read-write. A plate has no attribute after its
    /// thickness.
    fn grind_plate(&mut self, repository: u32, model: u32, plate: u32) {
        self.begin(repository);
        self.ask(Operation::Get, plate, chip::PLATE_THICKNESS, 0);
        self.ask(Operation::Promote, model, 0, 0);
        self.ask(Operation::Put, plate, chip::PLATE_THICKNESS + 1, 24);
        self.ask(Operation::Put, plate, chip::PLATE_THICKNESS, 24);
        self.ask(Operation::Get, plate, chip::PLATE_THICKNESS, 0);
        self.ask(Operation::EndCommit, 0, 0, 0);
        self.ask(Operation::CloseSession, 0, 0, 0);
    }
}

fn main() -> ExitCode {
    let mut walk = Walk {
        on: Chip::fresh(),
        refused: 0,
    };
    walk.make_plate(0, 1, 7);
    walk.on.restart();
    walk.grind_plate(0, 0, 0);
    ExitCode::from(u8::from(walk.refused != 1))
}
