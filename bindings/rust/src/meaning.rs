// What each number of a refusal means (docs/FORMAT.md, 'Refusals'). tools/explain has this file too, and Python the same sentences.
pub fn meaning(number: u32) -> &'static str {
    match number {
        1 => "the trace is shorter than the four bytes of its head",
        2 => "the version is not 1",
        3 => "the number of cells is not 3 to 12",
        4 => "the idle current is over 32766 mA",
        5 => "a count or a section runs past the end of the trace",
        6 => "the rules are not 16 of 10 bytes each",
        7 => "a rule that is on is outside its limits",
        8 => "a hole is reversed, not after the hole before it, or ends at tick 4294967295",
        9 => "a tick is covered by no record or by two, has already passed, or is 4294967295; the place is the tick that is expected",
        10 => "a reply is earlier than the reply before it, or after the last tick",
        11 => "bytes are left over after the last section",
        12 => "the report's buffer is not 187 bytes",
        13 => "the verdicts' buffer is not as long as there are replies",
        14 => "the program was given more than 65536 bytes",
        15 => "a list is not as long as the call asks for: give one voltage and one temperature a cell, six bytes a reply",
        16 => "what was lent is no state of a live feed or of a recorder",
        17 => "a new hole is needed, and the recorder has 1024 already",
        _ => "a number that is not known here",
    }
}
