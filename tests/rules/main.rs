//! Document 01's rules answer its records from standard input. Options: --rings N, --table N, --output N.

#[allow(dead_code)]
#[path = "../streams/records.rs"]
mod records;
#[allow(dead_code)]
mod rules;

use records::Lent;
use rules::Rules;

fn main() -> std::io::Result<()> {
    let (lent, others) = Lent::from_arguments(std::env::args().skip(1));
    assert!(others.is_empty(), "options: --rings N, --table N, --output N");
    let mut rules = Rules::new(lent);
    records::answer_all(|record| rules.answer(record))
}
