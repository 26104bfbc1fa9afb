//! Whether a text is a listing or a refusal of the program, by its form alone.

pub fn is_output(text: &[u8]) -> bool {
    let Ok(text) = std::str::from_utf8(text) else {
        return false;
    };
    let Some(text) = text.strip_suffix('\n') else {
        return false;
    };
    is_refusal(text) || is_listing(text)
}

fn is_refusal(text: &str) -> bool {
    (1..=7).chain([13, 14]).any(|number| text == format!("refused {number}"))
}

fn is_listing(text: &str) -> bool {
    let mut lines = text.split('\n');
    let (verdict, counts) = (lines.next(), lines.next().unwrap_or_default());
    let Some((stop, numbers)) = counts.split_once(' ') else {
        return false;
    };
    let numbers: Vec<u32> = numbers.split(' ').filter_map(number).collect();
    let [steps, answers, pending, parked, cost] = numbers[..] else {
        return false;
    };
    let expected = match (stop, pending, parked, answers) {
        ("finished", 0, 0, 0) => "no",
        ("finished", 0, 0, _) => "all",
        ("finished", 0, _, _) => "open",
        ("budget" | "answers" | "store", 1.., _, _) => "open",
        _ => return false,
    };
    let rest: Vec<&str> = lines.collect();
    verdict == Some(expected)
        && counts == format!("{stop} {steps} {answers} {pending} {parked} {cost}")
        && steps <= cost
        && cost <= 100_000
        && (cost < 100_000 || stop == "finished" || stop == "budget")
        && rest.len() == answers as usize
        && rest.iter().all(|line| *line == "true" || line.split(' ').all(is_term))
}

fn number(text: &str) -> Option<u32> {
    let value: u32 = text.parse().ok()?;
    (value.to_string() == text).then_some(value)
}

fn is_term(text: &str) -> bool {
    let mut rest = text;
    term(&mut rest) && rest.is_empty()
}

/// Takes a term from the front. No answer of a query has a variable.
fn term(rest: &mut &str) -> bool {
    let Some(text) = rest.strip_prefix('s') else {
        return false;
    };
    let digits = text.len() - text.trim_start_matches(|byte: char| byte.is_ascii_digit()).len();
    let (digits, text) = text.split_at(digits);
    *rest = text;
    number(digits).is_some() && (!rest.starts_with('(') || arguments(rest))
}

/// Takes arguments in brackets from the front.
fn arguments(rest: &mut &str) -> bool {
    let mut mark = '(';
    while let Some(text) = rest.strip_prefix(mark) {
        *rest = text;
        if !term(rest) {
            return false;
        }
        mark = ',';
    }
    let Some(text) = rest.strip_prefix(')') else {
        return false;
    };
    *rest = text;
    true
}
