//! What the lines of a file say, each thing at most once.

use super::line::{Line, lines};
use super::{Complaint, number};
use noddyfir::Perturbation;

/// A value and the line that gives it.
#[derive(Clone, Copy, Debug, PartialEq)]
pub struct Given<T> {
    pub value: T,
    pub line: usize,
}

/// The keys of a substance, in the order of a record.
pub const SUBSTANCE_KEYS: [&str; 4] = ["rep", "att", "sigma_angstrom", "epsilon_k_kelvin"];

#[derive(Debug)]
pub struct NamedSubstance {
    pub name: String,
    pub line: usize,
    pub values: [Option<Given<f64>>; 4],
}

/// A number of a named substance.
#[derive(Debug)]
pub struct Named {
    pub name: String,
    pub given: Given<f64>,
}

#[derive(Debug)]
pub struct Pair {
    pub names: [String; 2],
    pub given: Given<f64>,
}

#[derive(Debug, Default)]
pub struct Document {
    pub perturbation: Option<Given<Perturbation>>,
    pub substances: Vec<NamedSubstance>,
    pub k_ij: Vec<Pair>,
    pub l_ij: Vec<Pair>,
    pub temperature: Option<Given<f64>>,
    pub density: Option<Given<f64>>,
    pub densities: Vec<Named>,
    pub fractions: Vec<Named>,
    /// The number of lines, for what is missing.
    pub end: usize,
}

/// How each kind of line is written.
const FORMS: [(&str, &str); 11] = [
    ("perturbation", "perturbation = BH, WCA or WCA-B3"),
    ("substance", "substance NAME"),
    ("rep", "rep = NUMBER, below the substance"),
    ("att", "att = NUMBER, below the substance"),
    ("sigma_angstrom", "sigma_angstrom = NUMBER, below the substance"),
    ("epsilon_k_kelvin", "epsilon_k_kelvin = NUMBER, below the substance"),
    ("k_ij", "k_ij NAME NAME = NUMBER"),
    ("l_ij", "l_ij NAME NAME = NUMBER"),
    ("temperature_kelvin", "temperature_kelvin = NUMBER"),
    (
        "density_per_cubic_angstrom",
        "density_per_cubic_angstrom = NUMBER, or density_per_cubic_angstrom NAME = NUMBER",
    ),
    ("fraction", "fraction NAME = NUMBER"),
];

pub fn parse(text: &str) -> Result<Document, Complaint> {
    let mut document = Document { end: text.lines().count().max(1), ..Document::default() };
    for line in lines(text) {
        document.take(&line?)?;
    }
    Ok(document)
}

impl Document {
    fn take(&mut self, line: &Line) -> Result<(), Complaint> {
        let Some(value) = line.value else { return self.take_substance(line) };
        let place = SUBSTANCE_KEYS.iter().position(|key| *key == line.key);
        match (line.key, line.names.as_slice()) {
            ("perturbation", []) => {
                let given = Given { value: perturbation(line.number, value)?, line: line.number };
                put(&mut self.perturbation, given, line.key)
            }
            ("k_ij", [first, second]) => {
                add_pair(&mut self.k_ij, [first, second], given(line, value)?, line.key)
            }
            ("l_ij", [first, second]) => {
                add_pair(&mut self.l_ij, [first, second], given(line, value)?, line.key)
            }
            ("temperature_kelvin", []) => put(&mut self.temperature, given(line, value)?, line.key),
            ("density_per_cubic_angstrom", []) => {
                put(&mut self.density, given(line, value)?, line.key)
            }
            ("density_per_cubic_angstrom", [name]) => {
                add(&mut self.densities, name, given(line, value)?, line.key)
            }
            ("fraction", [name]) => add(&mut self.fractions, name, given(line, value)?, line.key),
            (_, []) if place.is_some() => self.take_value(place.unwrap_or(0), line, value),
            _ => Err(not_understood(line)),
        }
    }

    fn take_substance(&mut self, line: &Line) -> Result<(), Complaint> {
        let ("substance", [name]) = (line.key, line.names.as_slice()) else {
            return Err(not_understood(line));
        };
        if let Some(before) = self.substances.iter().find(|substance| substance.name == *name) {
            let message = format!("substance {name} was given in line {} already", before.line);
            return Err(Complaint::new(line.number, message));
        }
        let substance =
            NamedSubstance { name: name.to_string(), line: line.number, values: [None; 4] };
        self.substances.push(substance);
        Ok(())
    }

    fn take_value(&mut self, place: usize, line: &Line, value: &str) -> Result<(), Complaint> {
        let Some(substance) = self.substances.last_mut() else {
            let message = format!("{} stands before the first substance", line.key);
            return Err(Complaint::new(line.number, message));
        };
        let key = format!("{} of {}", line.key, substance.name);
        put(&mut substance.values[place], given(line, value)?, &key)
    }
}

fn given(line: &Line, value: &str) -> Result<Given<f64>, Complaint> {
    let value = number(value).map_err(|message| Complaint::new(line.number, message))?;
    Ok(Given { value, line: line.number })
}

fn put<T>(slot: &mut Option<Given<T>>, given: Given<T>, key: &str) -> Result<(), Complaint> {
    let line = given.line;
    match slot.replace(given) {
        None => Ok(()),
        Some(before) => {
            let message = format!("{key} was given in line {} already", before.line);
            Err(Complaint::new(line, message))
        }
    }
}

fn add(list: &mut Vec<Named>, name: &str, given: Given<f64>, key: &str) -> Result<(), Complaint> {
    if let Some(before) = list.iter().find(|named| named.name == name) {
        let message = format!("{key} of {name} was given in line {} already", before.given.line);
        return Err(Complaint::new(given.line, message));
    }
    list.push(Named { name: name.to_owned(), given });
    Ok(())
}

fn add_pair(
    list: &mut Vec<Pair>,
    names: [&str; 2],
    given: Given<f64>,
    key: &str,
) -> Result<(), Complaint> {
    let same = |pair: &&Pair| {
        let [first, second] = [0, 1].map(|i| pair.names[i].as_str());
        [first, second] == names || [second, first] == names
    };
    if let Some(before) = list.iter().find(same) {
        let [first, second] = names;
        let at = before.given.line;
        let message = format!("{key} of {first} and {second} was given in line {at} already");
        return Err(Complaint::new(given.line, message));
    }
    list.push(Pair { names: names.map(str::to_owned), given });
    Ok(())
}

fn perturbation(line: usize, value: &str) -> Result<Perturbation, Complaint> {
    let message = || format!("the perturbation is BH, WCA or WCA-B3, not '{value}'");
    Perturbation::from_name(value).ok_or_else(|| Complaint::new(line, message()))
}

fn not_understood(line: &Line) -> Complaint {
    let key = line.key;
    if let Some((_, form)) = FORMS.iter().find(|(known, _)| *known == key) {
        return Complaint::new(line.number, format!("a line with {key} is written: {form}"));
    }
    let near = FORMS.iter().find(|(known, _)| known.starts_with(key) || key.starts_with(known));
    let message = match near {
        Some((known, _)) => format!("there is no key '{key}'; did you mean {known}?"),
        None => {
            let known: Vec<&str> = FORMS.iter().map(|(known, _)| *known).collect();
            format!("there is no key '{key}'; the keys are {}", known.join(", "))
        }
    };
    Complaint::new(line.number, message)
}
