//! Feeds case files to the program target/bin/price_list and checks each list as docs/PRICE-LIST.md does by hand: price_list [SEED]
//!
//! Columns and prices, or the rows and events of the block, are taken from what is printed; all else is worked out anew from the
//! model's reading of the file. The last line is 'N passed, M failed'; any failure gives exit status 1.
use cases::model::{self, Accepted};
use cases::program::{same, try_program};

/// The numbers of a line, whatever signs stand between them.
fn numbers(line: &str) -> Vec<i64> {
    line.split_whitespace().filter_map(|word| word.parse().ok()).collect()
}

fn number_of_things(count: usize, thing: &str) -> String {
    format!("{count} {thing}{}", if count == 1 { "" } else { "s" })
}

fn is_allowed(case: &Accepted, row: usize, event: usize) -> bool {
    case.mask[row * case.n + event] == 1
}

/// How large the case is, below the title.
fn size(case: &Accepted) -> String {
    format!("{}, {}, clocks at most {} ms apart", number_of_things(case.n, "fragment"), number_of_things(case.n, "event"), case.window)
}

/// The case in words: its rows and its events.
fn case_lines(case: &Accepted) -> String {
    let mut text = "  row    hut   area       clock\n".to_string();
    for (row, fragment) in case.fragments.iter().enumerate() {
        text += &format!("{row:5}{:7}{:7}{:12}\n", fragment.hut, fragment.area, fragment.clock);
    }
    text += "\nevent          area       clock\n";
    for (column, event) in case.events.iter().enumerate() {
        text += &format!("{column:5}{:14}{:12}\n", event.area, event.clock);
    }
    text
}

/// The rows that fit no event, and the events that fit no fragment.
fn unfit_lines(case: &Accepted) -> String {
    let lines = 0..case.n;
    let rows = lines.clone().filter(|&row| !lines.clone().any(|event| is_allowed(case, row, event)));
    let events = lines.clone().filter(|&event| !lines.clone().any(|row| is_allowed(case, row, event)));
    let rows: String = rows.map(|row| format!("row {row} (hut {}) fits no event\n", case.huts[row])).collect();
    rows + &events.map(|event| format!("event {event} fits no fragment\n")).collect::<String>()
}

/// A list with these columns and prices, in full and short, and what is wrong with them.
fn list(case: &Accepted, columns: &[usize], row_prices: &[i64], event_prices: &[i64]) -> Result<(String, String), String> {
    let n = case.n;
    let difference = |row: usize, event: usize| case.costs[row * n + event] as i64;
    let mut sorted = columns.to_vec();
    sorted.sort();
    if sorted != (0..n).collect::<Vec<_>>() {
        return Err(format!("{columns:?} is no pairing"));
    }
    let (rows, events): (i64, i64) = (row_prices.iter().sum(), event_prices.iter().sum());
    let total: i64 = (0..n).map(|row| difference(row, columns[row])).sum();
    if total != rows + events {
        return Err(format!("the prices {rows} + {events} are not the total {total}"));
    }
    let head =
        format!("PRICE LIST\n{}; differences and prices in ms.\nA price may be negative; only sums of prices count.\n\n", size(case));
    let mut text = "  row    hut  event   difference =     row price +   event price\n".to_string();
    for row in 0..n {
        let (event, hut) = (columns[row], case.huts[row]);
        if !is_allowed(case, row, event) {
            return Err(format!("row {row} and event {event} may not be paired"));
        }
        let (cost, price, event_price) = (difference(row, event), row_prices[row], event_prices[event]);
        if cost != price + event_price {
            return Err(format!("row {row} does not add up"));
        }
        text += &format!("{row:5}{hut:7}{event:7}{cost:13} = {price:13} + {event_price:13}\n");
    }
    text += &format!("  sum{:14}{total:13} = {rows:13} + {events:13}\n\nevent     event price\n", "");
    event_prices.iter().enumerate().for_each(|(event, price)| text += &format!("{event:5}{price:16}\n"));
    text += &format!("  sum{events:16}\n\nTOTAL {total}\n");
    let short = format!("{head}{text}");
    text += "\nWhy no pairing costs less: the list below has every allowed pair, and no spare is negative.\n";
    text += "A pairing takes every row once and every event once, so it costs at least all prices together,\n";
    text += &format!("{rows} + {events} = {total}. The pairing above costs exactly that.\n\n");
    text += "  row  event   difference =     row price +   event price +         spare\n";
    for (row, event) in (0..n * n).map(|cell| (cell / n, cell % n)).filter(|&(row, event)| is_allowed(case, row, event)) {
        let (cost, price, event_price) = (difference(row, event), row_prices[row], event_prices[event]);
        let spare = cost - price - event_price;
        if spare < 0 {
            return Err(format!("the spare of row {row} and event {event} is {spare}"));
        }
        text += &format!("{row:5}{event:7}{cost:13} = {price:13} + {event_price:13} + {spare:13}\n");
    }
    Ok((format!("{head}{}\n{text}", case_lines(case)), short))
}

fn judge_list(case: &Accepted, printed: &str, printed_short: &str) -> Result<&'static str, String> {
    let pairs: Vec<Vec<i64>> = printed_short.lines().skip(5).take(case.n).map(numbers).collect();
    if pairs.iter().any(|pair| pair.len() != 6 || !(0..case.n as i64).contains(&pair[2])) {
        return Err(format!("the pairs are {pairs:?}"));
    }
    let columns: Vec<usize> = pairs.iter().map(|pair| pair[2] as usize).collect();
    let row_prices: Vec<i64> = pairs.iter().map(|pair| pair[4]).collect();
    let mut event_prices = vec![0; case.n];
    pairs.iter().for_each(|pair| event_prices[pair[2] as usize] = pair[5]);
    let (full, short) = list(case, &columns, &row_prices, &event_prices)?;
    same(printed_short, &short, "paired").and(same(printed, &full, "paired"))
}

/// The block of these rows and events in words, below the case, and what is wrong with it.
fn block(case: &Accepted, rows: &[usize], events: &[usize]) -> Result<String, String> {
    let fragments = |one: &str, more: &str| match rows.len() {
        1 => format!("{one}fragment"),
        count => format!("{more}{}", number_of_things(count, "fragment")),
    };
    let names = |set: &[usize], one: &str, more: &str| {
        let names: String = set.iter().map(|event| format!(" {event}")).collect();
        match set.len() {
            1 => format!("{one}event{names}\n"),
            count => format!("{more}{}:{names}\n", number_of_things(count, "event")),
        }
    };
    if rows.len() + events.len() <= case.n || rows.iter().any(|&row| events.iter().any(|&event| is_allowed(case, row, event))) {
        return Err(format!("rows {rows:?} and events {events:?} are no block"));
    }
    let left: Vec<usize> = (0..case.n).filter(|event| !events.contains(event)).collect();
    let mut text = format!("NO PAIRING\n{}\n\n{}\n{}", size(case), case_lines(case), unfit_lines(case));
    text += &format!("{}:\n  row    hut\n", fragments("This ", "These "));
    rows.iter().for_each(|&row| text += &format!("{row:5}{:7}\n", case.huts[row]));
    text += &match left.len() {
        0 => "may be paired with no event,\n".to_string(),
        _ => names(&left, "may be paired only with ", "may be paired only with these "),
    };
    text += &fragments("since this ", "since each of these ");
    text += &names(events, " and ", " and each of these ");
    text += &format!("differ in area or lie more than {} ms apart.\n", case.window);
    text += &match left.len() {
        0 => "So no pairing exists.\n".to_string(),
        count => format!(
            "{} cannot share {}, so no pairing exists.\n",
            number_of_things(rows.len(), "fragment"),
            number_of_things(count, "event")
        ),
    };
    Ok(text)
}

fn judge_block(case: &Accepted, printed: &str) -> Result<&'static str, String> {
    let below = |line: i64| usize::try_from(line).ok().filter(|&line| line < case.n).ok_or(format!("there is no line {line}"));
    let rows = printed.lines().skip_while(|line| !line.starts_with("This ") && !line.starts_with("These ")).skip(2);
    let rows = rows.take_while(|line| !line.starts_with("may be paired"));
    let rows = rows.map(|line| below(*numbers(line).first().unwrap_or(&-1))).collect::<Result<Vec<_>, _>>()?;
    let since = printed.lines().find(|line| line.starts_with("since")).unwrap_or_default();
    // behind the colon, or the one event's number behind its word
    let named = since.split(" events: ").nth(1).or(since.split(" and event ").nth(1)).unwrap_or_default();
    let events = numbers(named).into_iter().map(below).collect::<Result<Vec<_>, _>>()?;
    same(printed, &block(case, &rows, &events)?, "NO PAIRING")
}

/// What is printed with no word, and with the word `short`: of a refusal, and where there is no pairing, the same.
fn judge(file: &[u8], printed: &[String]) -> Result<&'static str, String> {
    let [full, short] = printed else { return Err("two texts were wanted".to_string()) };
    let case = model::read(file);
    if case.is_err() || full.starts_with("NO PAIRING\n") {
        same(short, full, "")?;
    }
    match case {
        Err(refusal) => same(full, &format!("REFUSED {} AT {}\n", refusal.number, refusal.place), "REFUSED"),
        Ok(case) if full.starts_with("NO PAIRING\n") => judge_block(&case, full),
        Ok(case) => judge_list(&case, full, short),
    }
}

fn main() {
    try_program("target/bin/price_list", &["short"], judge);
}
