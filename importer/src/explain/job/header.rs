//! The first line: `J,rows,sites,D,R,step,shift,mirror,swap`, or led by `K` and with the weight of a
//! filled step at its end.

use crate::explain::field::{in_range, Field};
use crate::explain::form::{count, Form, Numbers};
use crate::explain::line::Line;
use crate::explain::reason::{Reason, FORM, RANGE};
use crate::job::Weights;

/// What the line begins with that says a weight of filled steps.
const FILLED: &str = "K";

const HEADER: Form = Form {
    lead: Some((&["J", FILLED], "the first line")),
    fields_of,
};

/// The most that the header may say of each.
pub const MOST_SITES: u32 = 1024;
pub const MOST_DISPLACEMENT: u32 = 7;
pub const MOST_REORDERING: u32 = 2;
const MOST_WEIGHT: u32 = 1000;

pub struct Header {
    pub rows: u32,
    pub sites: u32,
    /// The displacement limit D.
    pub displacement: u32,
    /// The reordering limit R.
    pub reordering: u32,
    pub weights: Weights,
}

/// The fields behind the lead, which decides how many they are.
fn fields_of(numbers: &Numbers) -> Vec<Field> {
    let mut fields = vec![
        Field::new("rows", 1, 2),
        Field::new("sites", 1, MOST_SITES),
        Field::new("D", 0, MOST_DISPLACEMENT),
        Field::new("R", 0, MOST_REORDERING),
    ];
    let weight = |name: &'static str| Field::new(name, 0, MOST_WEIGHT);
    fields.extend(["step", "shift", "mirror", "swap"].map(weight));
    if numbers.lead == FILLED {
        fields.push(weight("filled"));
    }
    fields
}

pub fn read(line: &Line) -> Result<Header, Reason> {
    let refuse = |number| move |words| line.refused(number, words);
    let numbers = HEADER.numbers(line).map_err(refuse(FORM))?;
    let fields = fields_of(&numbers);
    let fits = numbers.fields == 1 + fields.len();
    let header = header_of(&numbers.values).filter(|_| fits);
    let header = header.ok_or_else(|| line.refused(FORM, miscounted(&numbers, &fields)))?;
    in_range(&fields, &numbers.values).map_err(refuse(RANGE))?;
    Ok(header)
}

/// What the numbers behind a lead say, of which the ninth fits a `K` alone.
fn header_of(values: &[u32]) -> Option<Header> {
    let &[rows, sites, displacement, reordering, step, shift, mirror, swap, ref rest @ ..] = values
    else {
        return None;
    };
    let weights = Weights {
        step,
        shift,
        mirror,
        swap,
        filled: rest.first().copied(),
    };
    Some(Header {
        rows,
        sites,
        displacement,
        reordering,
        weights,
    })
}

/// What to say of a line with too few fields or too many. One too many behind a `J` is most likely
/// the weight of filled steps.
fn miscounted(numbers: &Numbers, fields: &[Field]) -> String {
    let (found, lead) = (count(numbers.fields, "field"), numbers.lead);
    let fitting = 1 + fields.len();
    let names: Vec<&str> = fields.iter().map(Field::name).collect();
    let names = names.join(",");
    let mut words = format!("{found}, the first line has {fitting}: {lead},{names}");
    if lead != FILLED && numbers.fields == fitting + 1 {
        words += "; with filled behind them it begins with K";
    }
    words
}
