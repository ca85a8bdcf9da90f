//! New labels behind those that a legend has, and the codes of records.
use super::{Dimension, Labels, Legend};
use cube_archive::csv::Column;
use cube_archive::quoted;
use std::collections::{BTreeSet, HashMap};

impl Legend {
    /// Takes in the labels of records, and gives the records its codes and sizes. The columns may stand in another order than the
    /// dimensions. The error is about the header's line.
    pub fn code(&mut self, labels: &mut Labels) -> Result<(), String> {
        let places = self.places(&labels.columns)?;
        for (dimension, &place) in self.dimensions.iter_mut().zip(&places) {
            dimension.extend(labels.of(place).collect(), labels.columns[place].size)?;
        }
        let codes: Vec<Vec<u16>> =
            self.dimensions.iter().zip(&places).map(|(dimension, &place)| dimension.codes(&labels.numbers[place])).collect();
        let coded = labels.records.recode(&self.sizes(), |i, numbers| codes[i][usize::from(numbers[places[i]])]);
        coded.map_err(|error| error.to_string())
    }

    /// What was taken in since an older legend: a line for each dimension with new labels.
    pub fn news(&self, old: &Legend) -> Vec<String> {
        let new = self.dimensions.iter().zip(&old.dimensions).filter(|(new, old)| new.labels.len() > old.labels.len());
        let line = |(new, old): (&Dimension, &Dimension)| {
            let labels: Vec<String> = new.labels[old.labels.len()..].iter().map(|label| quoted(label)).collect();
            let sizes =
                if new.size() == old.size() { String::new() } else { format!("; its size was {}, now it is {}", old.size(), new.size()) };
            format!("new in {}: {}{sizes}", new.name, labels.join(", "))
        };
        new.map(line).collect()
    }

    /// The place of each dimension among the columns.
    fn places(&self, columns: &[Column]) -> Result<Vec<usize>, String> {
        let names: Vec<&str> = self.dimensions.iter().map(|dimension| dimension.name.as_str()).collect();
        let place = |name: &&str| columns.iter().position(|column| column.name == *name);
        let places: Option<Vec<usize>> = names.iter().map(place).collect();
        places.filter(|places| places.len() == columns.len()).ok_or_else(|| {
            let listed = |names: Vec<&str>| names.into_iter().map(quoted).collect::<Vec<_>>().join(", ");
            let columns = columns.iter().map(|column| column.name.as_str()).collect();
            format!("the columns are {}, but the legend's dimensions are {}", listed(columns), listed(names))
        })
    }
}

impl Dimension {
    /// Takes in labels, new ones in the order of their bytes. The size grows as far as it must, or to the size that is given.
    fn extend(&mut self, labels: BTreeSet<&str>, given: Option<u16>) -> Result<(), String> {
        for label in labels {
            if self.code(label).is_none() {
                self.push(label)?;
            }
        }
        let needed = self.size().max(self.labels.len() as u16);
        let size = given.unwrap_or(needed);
        if size < needed {
            return Err(format!(
                "the header gives dimension {} the size {size}, but its labels and its size so far need {needed}",
                quoted(&self.name)
            ));
        }
        if self.sizes.last() != Some(&size) {
            self.sizes.push(size);
        }
        Ok(())
    }

    /// The code of each label by its number. The labels were all taken in.
    fn codes(&self, numbers: &HashMap<String, u16>) -> Vec<u16> {
        let mut codes = vec![0; numbers.len()];
        for (label, &number) in numbers {
            codes[usize::from(number)] = self.code(label).expect("every label was taken in");
        }
        codes
    }
}
