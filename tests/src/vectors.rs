//! The vectors that the product runs too: one a line, fields parted by tabs,
//! hex, `-` for an empty field, the first line naming the columns. `trials.tsv` lists
//! what is tried on which columns.

use crate::aes::Block;

/// What a field holds, or what is wrong with it.
pub type Read<T> = Result<T, String>;

pub struct Row(Vec<String>);

impl Row {
    pub fn new(line: &str) -> Row {
        Row(line.split('\t').map(String::from).collect())
    }

    pub fn fields(&self) -> usize {
        self.0.len()
    }

    pub fn text(&self, column: usize) -> Read<&str> {
        let field = self.0.get(column).map(String::as_str);
        field.ok_or_else(|| format!("no field {column}"))
    }

    pub fn bytes(&self, column: usize) -> Read<Vec<u8>> {
        match self.text(column)? {
            "-" => Ok(Vec::new()),
            digits => hex(digits).ok_or_else(|| format!("field {column} is not hex: {digits}")),
        }
    }

    pub fn number(&self, column: usize) -> Read<usize> {
        let text = self.text(column)?;
        let number = text.parse();
        number.map_err(|_| format!("field {column} is no number: {text}"))
    }
}

fn hex(digits: &str) -> Option<Vec<u8>> {
    let values: Option<Vec<u32>> = digits.chars().map(|digit| digit.to_digit(16)).collect();
    let values = values.filter(|values| !values.is_empty() && values.len() % 2 == 0)?;
    Some(
        values
            .chunks(2)
            .map(|pair| (pair[0] * 16 + pair[1]) as u8)
            .collect(),
    )
}

/// An entry of the list: what is tried on the rows of a file, and the columns of key,
/// input and output.
pub struct Trial {
    pub file: String,
    pub what: String,
    pub key: usize,
    pub input: usize,
    pub output: usize,
}

fn trial(row: &Row) -> Read<Trial> {
    if row.fields() != 7 {
        return Err(format!("{} fields, not 7", row.fields()));
    }
    Ok(Trial {
        file: row.text(0)?.into(),
        what: row.text(1)?.into(),
        key: row.number(4)?,
        input: row.number(5)?,
        output: row.number(6)?,
    })
}

pub fn trials() -> Read<Vec<Trial>> {
    let rows = rows("trials.tsv");
    let entries = rows.iter().enumerate();
    entries
        .map(|(index, row)| trial(row).map_err(|why| at_line(index, &why)))
        .collect()
}

/// What is wrong with the row at an index: the line before the first names the columns.
pub fn at_line(index: usize, why: &str) -> String {
    format!("line {}: {why}", index + 2)
}

fn read(path: &str) -> String {
    let path = concat!(env!("CARGO_MANIFEST_DIR"), "/../crates/vectors/").to_string() + path;
    std::fs::read_to_string(&path).unwrap_or_else(|why| panic!("{path}: {why}"))
}

/// The rows of a file, never none.
pub fn rows(file: &str) -> Vec<Row> {
    let rows: Vec<Row> = read(&format!("data/{file}"))
        .lines()
        .filter(|line| !line.starts_with('#'))
        .map(Row::new)
        .collect();
    assert!(!rows.is_empty(), "{file} holds no vector");
    rows
}

pub fn block(bytes: &[u8]) -> Read<Block> {
    let block = bytes.try_into();
    block.map_err(|_| format!("{} bytes, not 16", bytes.len()))
}

#[cfg(test)]
mod tests {
    use super::*;
    use crate::aes::BLOCK;

    // A trial for each block of output, or for each place where the input can be divided.
    fn count(trial: &Trial, row: &Row) -> usize {
        if trial.what.ends_with("at every division") {
            row.bytes(trial.input).unwrap().len() + 1
        } else {
            row.bytes(trial.output).unwrap().chunks(BLOCK).count()
        }
    }

    #[test]
    fn the_output_expected_of_the_program_has_every_trial() {
        let (mut expected, mut all) = (String::new(), 0);
        for trial in trials().unwrap() {
            let n: usize = rows(&trial.file).iter().map(|row| count(&trial, row)).sum();
            expected += &format!("{} {}: {n} of {n}\n", trial.file, trial.what);
            all += n;
        }
        expected += &format!("vectors: all {all} trials as expected\n");
        assert_eq!(expected, read("stdout"));
    }

    #[test]
    fn every_file_is_tried() {
        let folder = concat!(env!("CARGO_MANIFEST_DIR"), "/../crates/vectors/data");
        let list = trials().unwrap();
        let tried: Vec<String> = list.into_iter().map(|trial| trial.file).collect();
        for entry in std::fs::read_dir(folder).expect("the folder of the vectors") {
            let file = entry.expect("an entry").file_name().into_string().unwrap();
            assert!(file == "trials.tsv" || tried.contains(&file), "{file}");
        }
    }

    #[test]
    fn an_entry_has_seven_fields_and_numbers_of_columns() {
        assert!(trial(&Row::new("f\ttag\t-\t6\t1\t3\t4")).is_ok());
        for (entry, why) in [
            ("f\ttag\t-\t6\t1\t3", "6 fields, not 7"),
            ("f\ttag\t-\t6\t1\t3\t4\t5", "8 fields, not 7"),
            ("f\ttag\t-\t6\tx\t3\t4", "field 4 is no number: x"),
            ("f\ttag\t-\t6\t1\t3\t", "field 6 is no number: "),
        ] {
            assert_eq!(trial(&Row::new(entry)).err().as_deref(), Some(why));
        }
    }

    #[test]
    fn a_field_of_bytes_is_hex_or_a_dash() {
        let row = Row::new("-\t0aFF\t\t0af\t+f\tähm");
        assert_eq!(row.bytes(0), Ok(Vec::new()));
        assert_eq!(row.bytes(1), Ok(vec![0x0a, 0xff]));
        assert!((2..7).all(|column| row.bytes(column).is_err()));
    }
}
