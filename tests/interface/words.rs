//! Prints the wrapper's version and the text of each refusal, which are to be the header's.

#[path = "../../rust/spheroidal.rs"]
mod spheroidal;

use spheroidal::Refusal;

fn main() {
    println!("version {}", spheroidal::VERSION);
    let refusals = [
        Refusal::ModeNumbers,
        Refusal::SizeParameter,
        Refusal::TooLarge,
        Refusal::CharacteristicValue,
        Refusal::Argument,
        Refusal::Buffer,
        Refusal::Allowance,
        Refusal::OffTheDisc,
        Refusal::TrialOrder,
        Refusal::Sheet,
    ];
    for refusal in refusals {
        println!("{refusal}");
    }
}
