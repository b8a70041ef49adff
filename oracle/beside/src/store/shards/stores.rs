//! Many stores, each with a script of its own: what they answer, as it is printed.
use crate::program::Program;
use crate::store::calls::{Call, Side};
use crate::store::model::Model;
use crate::store::script::{bytes_of, led, INPUT_LIMIT, SCRIPT_LIMIT};

/// What the calls of each script answer.
pub type Answers = Vec<Vec<String>>;

/// Models of document 01, with its limits.
pub fn by_model(scripts: &[Vec<Call>]) -> Answers {
    let one = |script: &Vec<Call>| {
        let mut model = Model::default();
        script.iter().map(|call| model.answer(call).to_string()).collect()
    };
    scripts.iter().map(one).collect()
}

/// Whether `replay` takes each script.
pub fn fit(scripts: &[Vec<Call>]) -> bool {
    scripts.iter().all(|script| bytes_of(script).len() <= SCRIPT_LIMIT)
}

/// The stores of `replay`, as many in one run as its input has room for.
pub fn by_replay(scripts: &[Vec<Call>], replay: &Program) -> Answers {
    let mut answers = Vec::new();
    let mut input = Vec::new();
    for (next, script) in scripts.iter().enumerate() {
        let bytes = led(&bytes_of(script));
        if input.len() + bytes.len() > INPUT_LIMIT {
            let from = answers.len();
            answers.extend(read(&replay.run(&input), &scripts[from..next]));
            input.clear();
        }
        input.extend_from_slice(&bytes);
    }
    let from = answers.len();
    answers.extend(read(&replay.run(&input), &scripts[from..]));
    answers
}

/// The answers in what was printed of these scripts.
fn read(text: &str, scripts: &[Vec<Call>]) -> Answers {
    let mut printed = text.split("== ").skip(1);
    let one = |(number, script): (usize, &Vec<Call>)| {
        let lines: Vec<&str> = printed.next().unwrap_or("").lines().collect();
        match lines.len() == script.len() + 1 && lines[0] == number.to_string() {
            true => script.iter().zip(&lines[1..]).enumerate().map(read_line).collect(),
            false => vec!["(other lines than calls)".to_string(); script.len()],
        }
    };
    scripts.iter().enumerate().map(one).collect()
}

/// The answer in the line of a call, or the line if it is not of the call.
fn read_line((place, (call, line)): (usize, (&Call, &&str))) -> String {
    line.strip_prefix(&format!("{place} {} ", call.mark())).unwrap_or(line).to_string()
}
