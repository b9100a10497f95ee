//! A clerk books a small month through the keeper, from Rust, and tells what was done.

use keeper_client::{Amounts, Keeper, Refusal, Shape, Trace, Voucher, Vouchers};

const WORDS: usize = 96;

/// Where the open items stand: one row of amounts for each customer.
const CUSTOMERS: Trace<'static> = Trace {
    name: 1,
    subscripts: &[],
};

/// The voucher of the month's last payment.
const PAYMENT: Trace<'static> = Trace {
    name: 2,
    subscripts: &[],
};

/// The place of a customer.
fn of<'t>(customer: &'t [i32; 1]) -> Trace<'t> {
    Trace {
        name: CUSTOMERS.name,
        subscripts: customer,
    }
}

/// Tells what a call answered.
fn tell<T>(what: &str, answer: &Result<T, Refusal>) {
    println!("{what}:");
    match answer {
        Ok(_) => println!("  Done."),
        Err(refusal) => match refusal.step() {
            Some(step) => println!(
                "  Refused, number {}, at step {step}: {refusal}.",
                refusal.number()
            ),
            None => println!("  Refused, number {}: {refusal}.", refusal.number()),
        },
    }
}

/// Prints a customer's open items, in cents.
fn show(keeper: &mut Keeper<'_>, customer: i32) -> Result<(), Refusal> {
    let Some(shape) = keeper.span(of(&[customer]))? else {
        println!("  Customer {customer} has no open items.");
        return Ok(());
    };
    let mut items = vec![0; shape.length as usize];
    keeper.read_row::<Amounts>(of(&[customer]), shape.base as i32, &mut items)?;
    println!(
        "  Customer {customer} has {} open items: {items:?}",
        shape.length
    );
    Ok(())
}

/// Books a customer's open items.
fn book(keeper: &mut Keeper<'_>, customer: i32, amounts: &[i64]) {
    let shape = Shape::row::<Amounts>(1, amounts.len() as u64);
    let booked = keeper
        .take(of(&[customer]), shape)
        .and_then(|()| keeper.write_row::<Amounts>(of(&[customer]), 1, amounts));
    tell(
        &format!("Customer {customer} owes {} invoices", amounts.len()),
        &booked,
    );
}

/// What is turned away, and why.
fn refusals(keeper: &mut Keeper<'_>) {
    let unknown = Trace {
        name: 65,
        subscripts: &[],
    };
    let deep = Trace {
        name: 1,
        subscripts: &[1, 1, 1, 1],
    };
    tell("Name 65 is freed", &keeper.free(unknown));
    tell("A place four subscripts down is freed", &keeper.free(deep));
    tell(
        "Invoice 9 of customer 1 is read",
        &keeper.read::<Amounts>(of(&[1]), 9),
    );
    tell(
        "Invoice 1 of customer 1 is read as a voucher",
        &keeper.read::<Vouchers>(of(&[1]), 1),
    );
    tell(
        "The table is read as a row",
        &keeper.read::<Amounts>(CUSTOMERS, 1),
    );
    tell("Customer 4 is freed", &keeper.free(of(&[4])));
    tell("Customer 3 is freed", &keeper.free(of(&[3])));
    tell(
        "Customer 3 owes 40 invoices",
        &keeper.take(of(&[3]), Shape::row::<Amounts>(1, 40)),
    );
    tell(
        "All invoices of customer 2 leave",
        &keeper.delete(of(&[2]), 1, 2),
    );
}

/// The last payment's voucher.
fn payment(keeper: &mut Keeper<'_>) {
    let paid = Voucher {
        days: 45990,
        number: 7,
    };
    tell(
        "Room for a voucher is taken under name 2",
        &keeper.take(PAYMENT, Shape::row::<Vouchers>(1, 1)),
    );
    tell(
        "The voucher of the payment is written",
        &keeper.write::<Vouchers>(PAYMENT, 1, paid),
    );
}

/// The month itself.
fn month(keeper: &mut Keeper<'_>) -> Result<(), Refusal> {
    tell(
        "A table for three customers, under name 1",
        &keeper.take(CUSTOMERS, Shape::table(1, 3)),
    );
    book(keeper, 1, &[11900, 5950, -2000, 875]);
    book(keeper, 2, &[100, 200]);
    println!("  {} words are free.", keeper.total());
    refusals(keeper);
    tell(
        "Two invoices come in before the third of customer 1",
        &keeper.insert(of(&[1]), 3, 2),
    );
    tell(
        "The first of them is of 4200 cents",
        &keeper.write::<Amounts>(of(&[1]), 3, 4200),
    );
    show(keeper, 1)?;
    tell(
        "The fourth and fifth are settled",
        &keeper.delete(of(&[1]), 4, 2),
    );
    show(keeper, 1)?;
    tell(
        "Customers 1 and 2 change places",
        &keeper.exchange(CUSTOMERS, 1, 2),
    );
    for customer in 1..=3 {
        show(keeper, customer)?;
    }
    payment(keeper);
    keeper.tidy();
    println!("  The store is tidied; {} words are free.", keeper.total());
    Ok(())
}

/// A second house takes the month over.
fn carry_over(saved: &mut [u64]) -> Result<(), Refusal> {
    let mut words = [0; WORDS];
    let mut house = Keeper::of_saved(&mut words, saved)?;
    println!("A second house loads the month:");
    show(&mut house, 2)?;
    let paid = house.read::<Vouchers>(PAYMENT, 1)?;
    println!(
        "  The voucher is number {} of day {}.",
        paid.number, paid.days
    );
    tell(
        "A list that is too short is loaded",
        &house.load(&saved[1..]),
    );
    saved[0] += 1;
    tell("A damaged copy is loaded", &house.load(saved));
    show(&mut house, 2)
}

fn main() -> Result<(), Refusal> {
    let mut words = [0; WORDS];
    tell("A keeper over 66 words", &Keeper::make(&mut words[..66]));
    let made = Keeper::make(&mut words);
    tell("A keeper over 96 words", &made);
    let mut keeper = made?;
    month(&mut keeper)?;
    let mut saved = [0; WORDS];
    tell("The month is saved", &keeper.save(&mut saved));
    carry_over(&mut saved)
}
