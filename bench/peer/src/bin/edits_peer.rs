//! What a user would write over toml_edit for the edits that `edit_calls` makes, to measure against in one
//! run: it takes the same arguments, makes the same edit and prints the same text. (It reads no text again and
//! compares no trees.) usage: edits_peer FILE insert|remove|set_value|set_literal|replace_entry STEP.. = ..
use std::iter::Peekable;
use toml_edit::{value, Array, Document, InlineTable, Item, TableLike, Value};

type Args = Peekable<std::vec::IntoIter<String>>;

/// A step of a place.
enum Step {
    Key(String),
    Index(usize),
}

/// The next argument, empty after the last one.
fn take(args: &mut Args) -> String {
    args.next().unwrap_or_default()
}

/// The steps up to an argument `=`.
fn take_place(args: &mut Args) -> Vec<Step> {
    let mut place = Vec::new();
    loop {
        let arg = take(args);
        if let Some(name) = arg.strip_prefix('.') {
            place.push(Step::Key(name.to_string()));
        } else if let Some(index) = arg.strip_prefix('#') {
            place.push(Step::Index(index.parse().unwrap_or(usize::MAX)));
        } else {
            return place;
        }
    }
}

/// A value of a kind.
fn take_value_of(args: &mut Args, kind: &str) -> Value {
    match kind {
        "truth" => Value::from(take(args) == "true"),
        "list" => {
            let count = take(args).parse().unwrap_or(0);
            Value::from((0..count).map(|_| take(args)).collect::<Array>())
        }
        _ => Value::from(take(args)),
    }
}

/// A value, behind its kind.
fn take_value(args: &mut Args) -> Value {
    let kind = take(args);
    take_value_of(args, &kind)
}

/// An entry: a table of members, or a value.
fn take_item(args: &mut Args) -> Item {
    let kind = take(args);
    if kind != "table" {
        return value(take_value_of(args, &kind));
    }
    let mut table = InlineTable::new();
    let count = take(args).parse().unwrap_or(0);
    for _ in 0..count {
        let name = take(args);
        table.insert(&name, take_value(args));
    }
    value(table)
}

/// The item at a place.
fn at<'a>(root: &'a mut Item, place: &[Step]) -> Option<&'a mut Item> {
    place.iter().try_fold(root, |item, step| match step {
        Step::Key(name) => item.get_mut(name.as_str()),
        Step::Index(index) => item.get_mut(*index),
    })
}

/// The table that holds a place's last step, and that step's name.
fn holder<'a>(root: &'a mut Item, place: &'a [Step]) -> Option<(&'a mut dyn TableLike, &'a str)> {
    match place.split_last()? {
        (Step::Key(name), front) => Some((at(root, front)?.as_table_like_mut()?, name.as_str())),
        (Step::Index(_), _) => None,
    }
}

/// A value that keeps what stands around the old one.
fn in_place_of(old: &mut Item, new: Value) -> Option<()> {
    let old = old.as_value_mut()?;
    let decor = old.decor().clone();
    *old = new;
    *old.decor_mut() = decor;
    Some(())
}

/// Makes the edit that the arguments name.
fn edit(root: &mut Item, args: &mut Args) -> Option<()> {
    let call = take(args);
    let place = take_place(args);
    match call.as_str() {
        "insert" => {
            let name = take(args);
            let new = take_value(args);
            at(root, &place)?.as_table_like_mut()?.insert(&name, value(new));
        }
        "remove" => {
            let (table, name) = holder(root, &place)?;
            table.remove(name)?;
        }
        "set_value" => in_place_of(at(root, &place)?, take_value(args))?,
        "set_literal" => in_place_of(at(root, &place)?, Value::from(take(args)))?,
        "replace_entry" => {
            let item = take_item(args);
            in_place_of(at(root, &place)?, item.into_value().ok()?)?;
        }
        _ => return None,
    }
    Some(())
}

fn main() {
    let mut args = std::env::args().skip(1).collect::<Vec<_>>().into_iter().peekable();
    let text = std::fs::read_to_string(take(&mut args)).unwrap();
    let mut document = text.parse::<Document>().unwrap();
    let outcome = match edit(document.as_item_mut(), &mut args) {
        Some(()) => "done",
        None => "no such place",
    };
    print!("{outcome}\n{document}");
}
