//! What is told of a journal and of a call over it.

use draugsten::{Forecast, Tallies, Tally};

/// The tallies: a line for each scope, and a column for each opcode.
pub fn tallies(tallies: &Tallies) -> String {
    let Tallies { negative, first, second, third } = *tallies;
    let rows = [("negative", negative), ("1", first), ("2", second), ("3, all units", third)];
    let mut lines = vec![row("scope", ["deletes", "updates", "additions"].map(String::from))];
    for (name, tally) in rows {
        lines.push(row(name, [tally.deletes, tally.updates, tally.additions].map(|count| count.to_string())));
    }
    lines.concat()
}

/// A journal has at most 104,857 operations, so these columns hold any number of them.
fn row(name: &str, [deletes, updates, additions]: [String; 3]) -> String {
    format!("{name:<12}  {deletes:>7}  {updates:>7}  {additions:>9}\n")
}

/// What the call would answer, and if it is -3 why.
pub fn forecast(tallies: &Tallies, scope: i32, state: u32, forecast: Forecast) -> String {
    let answer = match forecast {
        Forecast::Done | Forecast::CallAgain { .. } => forecast.to_string(),
        Forecast::Parameter => format!("status {}: {}", forecast.status(), refusal(tallies, scope)),
    };
    format!("scope {scope}, state {state}: {answer}\n")
}

fn refusal(tallies: &Tallies, scope: i32) -> String {
    match (scope, tallies.of_scope(scope)) {
        (3, _) => String::from("a forecast knows no unit; the call itself answers in scope 3"),
        (_, None) => String::from("there is no such scope"),
        (_, Some(Tally { deletes, updates, additions })) => {
            format!("the scope holds {} operations, and this state is not below that", deletes + updates + additions)
        }
    }
}

#[cfg(test)]
mod tests {
    use super::{forecast, tallies};
    use draugsten::{Forecast, Tallies, Tally};

    fn some() -> Tallies {
        let tally = |deletes| Tally { deletes, updates: 104_857, additions: 2 };
        Tallies { negative: tally(1), first: tally(2), second: tally(3), third: tally(104_857) }
    }

    #[test]
    fn tallies_stand_in_columns() {
        let expected = "
scope         deletes  updates  additions
negative            1   104857          2
1                   2   104857          2
2                   3   104857          2
3, all units   104857   104857          2
";
        assert_eq!(format!("\n{}", tallies(&some())), expected);
    }

    #[test]
    fn an_answer_is_told_in_words() {
        let told = |scope, told| forecast(&some(), scope, 7, told);
        assert_eq!(told(1, Forecast::Done), "scope 1, state 7: status 0: nothing remains after this call\n");
        let again = Forecast::CallAgain { next: 1018 };
        assert_eq!(told(-1, again), "scope -1, state 7: status 1: more remains, next state 1018\n");
        let refused = |scope| told(scope, Forecast::Parameter);
        let state = "the scope holds 104861 operations, and this state is not below that";
        assert_eq!(refused(1), format!("scope 1, state 7: status -3: {state}\n"));
        assert_eq!(refused(0), "scope 0, state 7: status -3: there is no such scope\n");
        let unit = "a forecast knows no unit; the call itself answers in scope 3";
        assert_eq!(refused(3), format!("scope 3, state 7: status -3: {unit}\n"));
    }
}
