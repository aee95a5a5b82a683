//! Lines of commands over one world.
use crate::picture::{cut, picture, unfolded, Unfolded};
use rhai_world::{Answer, Error, Limits, Refusal, World};
use serde_json::{json, Value};
use std::num::NonZeroUsize;

/// The most lines, and the most bytes of memory that their world may hold.
const MOST_LINES: usize = 2_000;
const MEMORY: Option<NonZeroUsize> = NonZeroUsize::new(8 << 20);

/// Runs the first lines of a text over a new world, and returns their answers and a picture of the
/// world after them. Empty lines do nothing.
pub fn lines(asked: &Value) -> Value {
    let text = asked["text"].as_str().unwrap_or_default();
    let count = asked["count"].as_u64().and_then(|count| usize::try_from(count).ok()).unwrap_or(MOST_LINES);
    run(text, count.min(MOST_LINES), &unfolded(asked)).unwrap_or_else(|error| json!({ "wrong": error.to_string() }))
}

fn run(text: &str, count: usize, unfolded: &Unfolded) -> Result<Value, Error> {
    let mut world = World::new(Limits::new().with_memory(MEMORY))?;
    let mut answers = Vec::new();
    for line in text.split('\n').take(count) {
        if line.is_empty() {
            answers.push(json!(null));
            continue;
        }
        let answer = world.line(line);
        answers.push(json!({ "s": cut(&words(&answer)), "refused": answer.is_err() }));
    }
    Ok(json!({ "answers": answers, "picture": picture(&world.snapshot()?, unfolded) }))
}

/// Writes an answer as the program for lines prints it.
fn words(answer: &Result<Answer, Error>) -> String {
    match answer {
        Ok(Answer::Done) => "ok".to_owned(),
        Ok(Answer::Bool(truth)) => truth.to_string(),
        Ok(Answer::Int(n)) => n.to_string(),
        Ok(Answer::Text(text)) => text.clone(),
        Ok(Answer::Bytes(bytes)) => bytes.iter().map(|byte| format!("{byte:02x}")).collect(),
        Ok(Answer::Pair(one, other)) => format!("{one} {other}"),
        Ok(Answer::Nothing) => "none".to_owned(),
        Ok(_) => "?".to_owned(),
        Err(Error::NoCommand) => "refused BadLine".to_owned(),
        Err(Error::Refused(why)) => format!("refused {}", refusal(why)),
        Err(error) => error.to_string(),
    }
}

fn refusal(why: &Refusal) -> String {
    match why {
        Refusal::Mismatch(held) => format!("Mismatch {held}"),
        Refusal::WrongType(wanted, found) => format!("ErrorMismatchDataType {wanted} {found}"),
        Refusal::DataRace => "ErrorDataRace".to_owned(),
        Refusal::Arithmetic(fault) => format!("ErrorArithmetic {fault:?}"),
        Refusal::TooLarge(kind) => format!("ErrorDataTooLarge {kind:?}"),
        // (each of the others has the name of its word)
        other => format!("{other:?}"),
    }
}

#[cfg(test)]
mod tests {
    use super::*;

    #[test]
    fn answers_are_those_of_the_program() -> Result<(), Error> {
        let text = "int 7\nshare 0\nshow 0\nask 0 shared\nask 0 type\nhash 0\nask 0 bool\nfoo\nop 0 / 9\nint 0\nop 0 / 1\n\
                    text two words\nop 0 + 2\nassign 2 += 0\nindex 5 9 true\noffset 5 -2 10\nmark 0\nassign 0 += 1\nget x\n\
                    op 1 ** 0\nint -1\nop 1 ** 3\ncharat 0 0 0\n";
        let told = lines(&json!({ "text": text.trim_end() }));
        let answers: Vec<&str> = told["answers"].as_array().into_iter().flatten().filter_map(|one| one["s"].as_str()).collect();
        let printed = World::new(Limits::default())?.run_lines(text.as_bytes())?;
        assert_eq!(answers.join("\n") + "\n", String::from_utf8_lossy(&printed));
        Ok(())
    }

    #[test]
    fn a_world_is_drawn_after_a_line() {
        let text = "int 7\npush x 0\n\ntext b\nfoo";
        let told = lines(&json!({ "text": text, "count": 3 }));
        assert_eq!(told["answers"], json!([{ "s": "ok", "refused": false }, { "s": "ok", "refused": false }, null]));
        assert_eq!(told["picture"]["rows"][0]["name"], json!("x"));
        assert_eq!(told["picture"]["hand"], json!([{ "k": "unit", "s": "()" }]));
        let told = lines(&json!({ "text": text }));
        assert_eq!(told["answers"][4], json!({ "s": "refused BadLine", "refused": true }));
        assert_eq!(told["picture"]["hand"][1]["s"], json!("b"));
    }
}
