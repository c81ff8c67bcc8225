//! Tables: described once, written as aligned text, CSV or JSON.

use std::io::{self, Write};

use quotebook::Price;

use crate::svg::escape;

/// How a table is written.
#[derive(Clone, Copy, PartialEq, Eq, Debug)]
pub enum Form {
    /// Aligned columns under a heading.
    Text,
    /// An object for each row, one to a line, with the table's name as member `table`.
    Json,
    /// An object for each row, one to a line.
    Jsonl,
    /// A line of column names, then one for each row.
    Csv,
    /// A table of a page.
    Html,
}

/// What stands in a column of a row.
#[derive(Clone, PartialEq, Eq, Debug)]
pub enum Cell {
    /// Nothing.
    None,
    Text(String),
    Number(u64),
    /// A price in millionths.
    Price(u64),
}

impl Cell {
    /// As it is read by a person, or by a program that reads CSV.
    pub fn plain(&self) -> String {
        match self {
            Cell::None => String::new(),
            Cell::Text(text) => text.clone(),
            Cell::Number(number) => number.to_string(),
            Cell::Price(price) => Price(*price).to_string(),
        }
    }

    /// Prices are strings, since a JSON number may be rounded.
    fn json(&self) -> String {
        match self {
            Cell::None => "null".to_string(),
            Cell::Number(number) => number.to_string(),
            Cell::Text(_) | Cell::Price(_) => json_text(&self.plain()),
        }
    }

    fn csv(&self) -> String {
        let text = self.plain();
        if text.contains(['"', ',', '\n', '\r']) {
            return format!("\"{}\"", text.replace('"', "\"\""));
        }
        text
    }

    fn is_figure(&self) -> bool {
        matches!(self, Cell::Number(_) | Cell::Price(_))
    }
}

impl From<u64> for Cell {
    fn from(number: u64) -> Cell {
        Cell::Number(number)
    }
}

impl From<u32> for Cell {
    fn from(number: u32) -> Cell {
        Cell::Number(number.into())
    }
}

impl From<u8> for Cell {
    fn from(number: u8) -> Cell {
        Cell::Number(number.into())
    }
}

impl From<usize> for Cell {
    fn from(number: usize) -> Cell {
        Cell::Number(number as u64)
    }
}

impl From<&str> for Cell {
    fn from(text: &str) -> Cell {
        Cell::Text(text.to_string())
    }
}

impl From<String> for Cell {
    fn from(text: String) -> Cell {
        Cell::Text(text)
    }
}

impl From<Price> for Cell {
    fn from(price: Price) -> Cell {
        Cell::Price(price.0)
    }
}

impl<T: Into<Cell>> From<Option<T>> for Cell {
    fn from(value: Option<T>) -> Cell {
        value.map_or(Cell::None, T::into)
    }
}

/// A text as JSON writes it.
pub fn json_text(text: &str) -> String {
    let mut quoted = String::from("\"");
    for letter in text.chars() {
        match letter {
            '"' => quoted.push_str("\\\""),
            '\\' => quoted.push_str("\\\\"),
            '\n' => quoted.push_str("\\n"),
            // `<` too, so that JSON can stand in a page.
            letter if letter < ' ' || letter == '<' => {
                quoted.push_str(&format!("\\u{:04x}", letter as u32));
            }
            letter => quoted.push(letter),
        }
    }
    quoted.push('"');
    quoted
}

/// Cells of anything that is one.
#[macro_export]
macro_rules! row {
    ($($cell:expr),* $(,)?) => { vec![$($crate::table::Cell::from($cell)),*] };
}

/// Rows that are held back until the width of the columns is seen.
const HELD: usize = 200;

/// A table that is being written. Its rows may be as many as one likes.
pub struct Table<'a> {
    output: &'a mut dyn Write,
    form: Form,
    name: &'static str,
    columns: &'static [&'static str],
    held: Vec<Vec<Cell>>,
    /// Of each column its width and whether it stands at the right, once known.
    widths: Option<Vec<(usize, bool)>>,
    rows: u64,
}

impl<'a> Table<'a> {
    pub fn new(
        output: &'a mut dyn Write,
        form: Form,
        name: &'static str,
        columns: &'static [&'static str],
    ) -> io::Result<Table<'a>> {
        if form == Form::Csv {
            writeln!(output, "{}", columns.join(","))?;
        }
        Ok(Table {
            output,
            form,
            name,
            columns,
            held: Vec::new(),
            widths: None,
            rows: 0,
        })
    }

    pub fn row(&mut self, cells: Vec<Cell>) -> io::Result<()> {
        assert_eq!(cells.len(), self.columns.len(), "a cell for each column");
        self.rows += 1;
        match self.form {
            Form::Text => {
                if self.widths.is_some() {
                    return self.write_line(&cells);
                }
                self.held.push(cells);
                if self.held.len() == HELD {
                    self.write_held()?;
                }
                Ok(())
            }
            Form::Csv => {
                let cells: Vec<String> = cells.iter().map(Cell::csv).collect();
                writeln!(self.output, "{}", cells.join(","))
            }
            Form::Html => {
                if self.rows == 1 {
                    self.write_html_head()?;
                }
                let cells = cells.iter().map(|cell| match cell.is_figure() {
                    true => format!("<td class=\"n\">{}</td>", cell.plain()),
                    false => format!("<td>{}</td>", escape(&cell.plain())),
                });
                writeln!(self.output, "<tr>{}</tr>", cells.collect::<String>())
            }
            Form::Json | Form::Jsonl => {
                let mut members: Vec<String> = Vec::new();
                if self.form == Form::Json {
                    members.push(format!("\"table\":{}", json_text(self.name)));
                }
                for (column, cell) in self.columns.iter().zip(&cells) {
                    members.push(format!("{}:{}", json_text(column), cell.json()));
                }
                writeln!(self.output, "{{{}}}", members.join(","))
            }
        }
    }

    /// Writes what is held. Of a text table without rows says so.
    pub fn end(mut self) -> io::Result<()> {
        if self.form == Form::Text {
            if self.rows == 0 {
                writeln!(self.output, "{}: none", self.name)?;
            } else if self.widths.is_none() {
                self.write_held()?;
            }
            writeln!(self.output)?;
        }
        if self.form == Form::Html {
            match self.rows {
                0 => writeln!(self.output, "<p>{}: none</p>", self.name)?,
                _ => writeln!(self.output, "</tbody></table></div>")?,
            }
        }
        Ok(())
    }

    fn write_html_head(&mut self) -> io::Result<()> {
        let names = self.columns.iter().map(|name| format!("<th>{name}</th>"));
        writeln!(
            self.output,
            "<div class=\"table\"><table><caption>{}</caption><thead><tr>{}</tr></thead><tbody>",
            self.name,
            names.collect::<String>()
        )
    }

    fn write_held(&mut self) -> io::Result<()> {
        let held = std::mem::take(&mut self.held);
        let widths = self.columns.iter().enumerate().map(|(at, name)| {
            let cells = held.iter().map(|row| &row[at]);
            let widest = cells.clone().map(|cell| cell.plain().chars().count()).max();
            let figures = cells.clone().any(Cell::is_figure)
                && cells
                    .clone()
                    .all(|cell| cell.is_figure() || *cell == Cell::None);
            (widest.unwrap_or(0).max(name.len()), figures)
        });
        self.widths = Some(widths.collect());
        writeln!(self.output, "{}", self.name)?;
        let names: Vec<Cell> = self.columns.iter().map(|&name| name.into()).collect();
        self.write_line(&names)?;
        held.iter().try_for_each(|row| self.write_line(row))
    }

    fn write_line(&mut self, cells: &[Cell]) -> io::Result<()> {
        let widths = self.widths.as_deref().unwrap_or_default();
        let mut line = String::new();
        for (cell, &(width, at_right)) in cells.iter().zip(widths) {
            let text = cell.plain();
            let cell = match at_right {
                true => format!("  {text:>width$}"),
                false => format!("  {text:<width$}"),
            };
            line.push_str(&cell);
        }
        writeln!(self.output, "{}", line.trim_end())
    }
}

#[cfg(test)]
mod tests {
    use super::*;

    fn written(form: Form) -> String {
        let mut output = Vec::new();
        let columns = &["what", "price", "size"];
        let mut table = Table::new(&mut output, form, "best", columns).expect("a table");
        let bid = row!["a \"bid\", high", Price(10_020_000), 3u64];
        table.row(bid).expect("a row");
        table.row(row!["none", Cell::None, 0u64]).expect("a row");
        table.end().expect("an end");
        String::from_utf8(output).expect("text")
    }

    #[test]
    fn one_table_in_each_form() {
        let text = "best\n  what           price  size\n  a \"bid\", high  10.02     3\n  none                     0\n\n";
        assert_eq!(written(Form::Text), text);
        let csv = "what,price,size\n\"a \"\"bid\"\", high\",10.02,3\nnone,,0\n";
        assert_eq!(written(Form::Csv), csv);
        let jsonl = "{\"what\":\"a \\\"bid\\\", high\",\"price\":\"10.02\",\"size\":3}\n{\"what\":\"none\",\"price\":null,\"size\":0}\n";
        assert_eq!(written(Form::Jsonl), jsonl);
        let json = jsonl.replace("{\"what", "{\"table\":\"best\",\"what");
        assert_eq!(written(Form::Json), json);
    }
}
