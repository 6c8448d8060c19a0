//! From what a file says to a mixture and a state.

use super::document::{Document, Given, Named, Pair, SUBSTANCE_KEYS};
use super::{Complaint, Input, Lines, LinesOfPairs};
use noddyfir::{MAX_SUBSTANCES, Mixture, State, Substance};

/// Densities and fractions, each with its line.
struct Amounts {
    densities: Vec<Given<f64>>,
    fractions: Vec<Given<f64>>,
}

pub fn input(file: &str, document: Document) -> Result<Input, Complaint> {
    let missing =
        |what: &str| Complaint::new(document.end, format!("{what} is missing in the file"));
    let perturbation = document.perturbation.ok_or_else(|| missing("perturbation"))?;
    let substances = substances(&document)?;
    let (mixture, [k_ij, l_ij]) = mixture(&document, &substances)?;
    let temperature = document.temperature.ok_or_else(|| missing("temperature_kelvin"))?;
    let amounts = amounts(&document)?;
    let values = |list: &[Given<f64>]| list.iter().map(|given| given.value).collect();
    let lines = |list: &[Given<f64>]| list.iter().map(|given| given.line).collect();
    Ok(Input {
        file: file.to_owned(),
        names: document.substances.iter().map(|substance| substance.name.clone()).collect(),
        perturbation: perturbation.value,
        mixture,
        state: State {
            temperature: temperature.value,
            partial_density: values(&amounts.densities),
            molefracs: values(&amounts.fractions),
        },
        lines: Lines {
            substances: substances.iter().map(|values| values.map(|given| given.line)).collect(),
            k_ij,
            l_ij,
            temperature: temperature.line,
            densities: lines(&amounts.densities),
            fractions: lines(&amounts.fractions),
        },
    })
}

/// The four values of each substance; none may be missing.
fn substances(document: &Document) -> Result<Vec<[Given<f64>; 4]>, Complaint> {
    if document.substances.is_empty() {
        return Err(Complaint::new(document.end, "the file has no substance"));
    }
    if let Some(ninth) = document.substances.get(MAX_SUBSTANCES) {
        let message = format!("{} is substance 9, and a mixture has from 1 to 8", ninth.name);
        return Err(Complaint::new(ninth.line, message));
    }
    let complete = |substance: &super::document::NamedSubstance| {
        let mut values = [Given { value: 0.0, line: 0 }; 4];
        for (place, key) in SUBSTANCE_KEYS.iter().enumerate() {
            let message = || format!("substance {} has no {key}", substance.name);
            let missing = || Complaint::new(substance.line, message());
            values[place] = substance.values[place].ok_or_else(missing)?;
        }
        Ok(values)
    };
    document.substances.iter().map(complete).collect()
}

/// The place of a substance by its name.
fn place_of(document: &Document, name: &str, line: usize) -> Result<usize, Complaint> {
    let place = document.substances.iter().position(|substance| substance.name == name);
    place.ok_or_else(|| Complaint::new(line, format!("there is no substance {name} in the file")))
}

/// The mixture, and the lines of its k_ij and of its l_ij.
fn mixture(
    document: &Document,
    substances: &[[Given<f64>; 4]],
) -> Result<(Mixture, [LinesOfPairs; 2]), Complaint> {
    let substance = |values: &[Given<f64>; 4]| {
        let [rep, att, sigma, epsilon_k] = values.map(|given| given.value);
        Substance::new(rep, att, sigma, epsilon_k)
    };
    let mut mixture = Mixture::new(substances.iter().map(substance).collect())
        .map_err(|refusal| Complaint::new(document.end, refusal.sentence()))?;
    let k_ij = places(document, &document.k_ij, "k_ij")?;
    let l_ij = places(document, &document.l_ij, "l_ij")?;
    for ([i, j], given) in &k_ij {
        mixture = mixture.with_k_ij(*i, *j, given.value);
    }
    for ([i, j], given) in &l_ij {
        mixture = mixture.with_l_ij(*i, *j, given.value);
    }
    let lines = |pairs: Places| pairs.iter().map(|(pair, given)| (*pair, given.line)).collect();
    Ok((mixture, [k_ij, l_ij].map(lines)))
}

/// Two substances, the first of them before the second, and a constant of theirs.
type Places = Vec<([usize; 2], Given<f64>)>;

fn places(document: &Document, pairs: &[Pair], key: &str) -> Result<Places, Complaint> {
    let place = |pair: &Pair| {
        let line = pair.given.line;
        let i = place_of(document, &pair.names[0], line)?;
        let j = place_of(document, &pair.names[1], line)?;
        if i == j {
            let message = format!("{key} is for two different substances");
            return Err(Complaint::new(line, message));
        }
        Ok(([i.min(j), i.max(j)], pair.given))
    };
    pairs.iter().map(place).collect()
}

fn amounts(document: &Document) -> Result<Amounts, Complaint> {
    match (document.density, document.densities.first()) {
        (Some(total), None) => of_total(document, total),
        (None, Some(_)) => of_densities(document),
        (Some(total), Some(first)) => {
            let line = first.given.line.max(total.line);
            let other = first.given.line.min(total.line);
            let message = format!(
                "a total density and densities of substances exclude each other; line {other} has the other kind"
            );
            Err(Complaint::new(line, message))
        }
        (None, None) => {
            Err(Complaint::new(document.end, "density_per_cubic_angstrom is missing in the file"))
        }
    }
}

/// One for each substance, in their order.
fn in_order(document: &Document, list: &[Named], what: &str) -> Result<Vec<Given<f64>>, Complaint> {
    for named in list {
        place_of(document, &named.name, named.given.line)?;
    }
    let find = |name: &str, line| {
        let message = || format!("substance {name} has no {what}");
        let found = list.iter().find(|named| named.name == name);
        found.map(|named| named.given).ok_or_else(|| Complaint::new(line, message()))
    };
    document.substances.iter().map(|substance| find(&substance.name, substance.line)).collect()
}

/// A pure substance needs no fraction.
fn of_total(document: &Document, total: Given<f64>) -> Result<Amounts, Complaint> {
    let fractions = if document.substances.len() == 1 && document.fractions.is_empty() {
        vec![Given { value: 1.0, line: total.line }]
    } else {
        in_order(document, &document.fractions, "fraction")?
    };
    // The same products as of State::with_density.
    let values = fractions.iter().map(|fraction| fraction.value).collect();
    let densities = State::with_density(0.0, total.value, values).partial_density;
    let densities = densities.iter().map(|&value| Given { value, line: total.line }).collect();
    Ok(Amounts { densities, fractions })
}

fn of_densities(document: &Document) -> Result<Amounts, Complaint> {
    if let Some(fraction) = document.fractions.first() {
        let message = "fractions go with a total density; those of densities of substances are worked from these";
        return Err(Complaint::new(fraction.given.line, message));
    }
    let densities = in_order(document, &document.densities, "density_per_cubic_angstrom")?;
    let values: Vec<f64> = densities.iter().map(|density| density.value).collect();
    let worked = State::with_partial_density(0.0, values).molefracs;
    if worked.iter().any(|fraction| !fraction.is_finite()) {
        let message = "the densities add up to nothing, so they give no fractions; give a total density and fractions";
        return Err(Complaint::new(densities[0].line, message));
    }
    let fractions =
        worked.iter().zip(&densities).map(|(&value, density)| Given { value, line: density.line });
    Ok(Amounts { fractions: fractions.collect(), densities })
}
