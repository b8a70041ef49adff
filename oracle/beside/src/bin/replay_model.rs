//! The model behind the formats of `replay`, to try the driver without our program: `run` may be given its path.
use beside::store::model::Model;
use beside::store::script::{read_script, INPUT_LIMIT, SCRIPT_LIMIT};
use std::io::{Read, Write};

fn main() -> std::io::Result<()> {
    let mut input = Vec::new();
    std::io::stdin().read_to_end(&mut input)?;
    let mut out = String::new();
    let mut rest: &[u8] = &input;
    let mut number = 0;
    if input.len() > INPUT_LIMIT {
        rest = &[0];
    }
    while !rest.is_empty() {
        let length = rest.get(..4).map(|b| u32::from_le_bytes([b[0], b[1], b[2], b[3]]) as usize);
        match length.filter(|n| *n <= SCRIPT_LIMIT).and_then(|n| rest.get(4..4 + n)) {
            None => {
                out.push_str("bad input\n");
                break;
            }
            Some(script) => {
                out.push_str(&read_script(script).lines(number, &mut Model::default()).0);
                rest = &rest[4 + script.len()..];
                number += 1;
            }
        }
    }
    std::io::stdout().write_all(out.as_bytes())
}
