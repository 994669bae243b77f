//! The counselor's hour: two desks, one with an old message, and the message that was missing.
use izgarmulf::{ClientID, IdTable, Refusal};

const AUTHORS: [(u64, &str); 3] = [(11, "Ada"), (12, "Ben"), (13, "Cleo")];

fn name(client: ClientID) -> &'static str {
    AUTHORS.iter().find(|w| w.0 == client.get()).map_or("someone", |w| w.1)
}
/// Each row as a line: whose sentences, from which to which. A row 0..4 holds the sentences 1 to 4.
fn show(title: &str, table: &IdTable) {
    println!("{title}:");
    if table.is_empty() {
        println!("    none");
    }
    for (client, range) in table.iter() {
        println!("    {:<5} sentences {} to {}", name(client), range.start + 1, range.end);
    }
}

fn main() -> Result<(), Refusal> {
    let [ada, ben, cleo] = AUTHORS.map(|w| ClientID::new(w.0));
    let (mut teacher, mut counselor) = (IdTable::new(), IdTable::new());

    println!("Several people write a report; each one's sentences are numbered, from 1.");
    println!("The teacher and the counselor have a desk each. A desk's table says which sentences are struck out, as far as it has heard.\n");

    println!("9:00  The teacher strikes out Ada's sentences 1 to 4 and Ben's 1 to 6, and sends the counselor a message with all of it.");
    teacher.insert_range(ada, 0..4)?;
    teacher.insert_range(ben, 0..6)?;
    let early = teacher.capture()?;
    counselor = counselor.merge(&early)?;

    println!("9:20  The teacher strikes out Ada's 5 to 9 and Cleo's 1 to 3. This message gets lost.");
    teacher.insert_range(ada, 4..9)?;
    teacher.insert_range(cleo, 0..3)?;
    let missing = teacher.capture()?;

    println!("9:40  The counselor strikes out Ben's 9 and 10, and the teacher gets that message.");
    counselor.insert_range(ben, 8..10)?;
    teacher = teacher.merge(&counselor.capture()?)?;

    println!("9:50  The old message of 9:00 reaches the counselor a second time.\n");
    let before = counselor.clone();
    counselor = counselor.merge(&early)?;

    show("Struck out on the teacher's desk", &teacher);
    show("Struck out on the counselor's desk", &counselor);
    println!("The old message changed nothing there: {}.\n", if counselor == before { "right" } else { "WRONG" });

    show("Where they differ: struck out for the teacher, still shown to the counselor", &teacher.diff(&counselor)?);
    show("Where they differ: struck out for the counselor, still shown to the teacher", &counselor.diff(&teacher)?);

    println!("\n9:55  The message of 9:20 is found and reaches the counselor.\n");
    counselor = counselor.merge(&missing)?;
    show("Struck out on the teacher's desk", &teacher);
    show("Struck out on the counselor's desk", &counselor);
    if counselor != teacher {
        println!("The two desks differ: WRONG.");
        std::process::exit(1);
    }
    println!("Both desks hold the same table, row by row.");
    Ok(())
}
