//! Tables from CSV text.
mod cube;

use cube::Records;
use cube_archive::csv::{table_of, text_of, Fault, Reader, Sheet, RECORD_BYTES};
use cube_archive::TableError;
use std::io::{self, BufReader, Read};

/// The bytes of the table.
fn bytes(text: &str) -> Vec<u8> {
    table_of(text).unwrap().to_bytes()
}

/// The line, the fault and what is said of it.
fn fault(text: &str) -> (usize, Fault, String) {
    let error = table_of(text).unwrap_err();
    (error.line, error.fault.clone(), error.to_string())
}

#[track_caller]
fn refused(text: &str, line: usize, wanted: Fault, words: &str) {
    assert_eq!(fault(text), (line, wanted, format!("line {line}: {words}")));
}

#[test]
fn the_five_row_example() {
    let text = include_str!("../../examples/five-rows.csv");
    assert_eq!(bytes(text), Records::five().table());
    assert_eq!(bytes(text).len(), 108);
}

#[test]
fn line_ends_spaces_and_blank_lines() {
    let text = include_str!("../../examples/five-rows.csv");
    let wanted = Records::five().table();
    assert_eq!(bytes(text.trim_end()), wanted);
    assert_eq!(bytes(&text.replace('\n', "\r\n")), wanted);
    assert_eq!(bytes(text.replace('\n', "\r\n").trim_end()), wanted);
    assert_eq!(bytes(&text.replace('\n', "\n\n \t\r\n")), wanted);
    assert_eq!(bytes(&format!("\n\r\n{text}")), wanted);
    assert_eq!(bytes(&text.replace(',', " ,\t ").replace('\n', " \n ").replace(':', " : ")), wanted);
}

#[test]
fn sizes_are_given_or_found() {
    let sizes = |text: &str| table_of(text).unwrap().sizes().to_vec();
    assert_eq!(sizes("a,b,r\n0,5,1\n3,2,1\n"), [4, 6]);
    assert_eq!(sizes("a:9,b,r\n0,5,1\n3,2,1\n"), [9, 6]);
    assert_eq!(sizes("a,b:65535,r\n0,5,1\n3,2,1\n"), [4, 65_535]);
    assert_eq!(sizes("a,b:3,r\n"), [1, 3]);
    assert_eq!(sizes("a,r\n65534,1\n"), [65_535]);
    assert_eq!(sizes("a:b:4,r"), [4]);
}

#[test]
fn extreme_readings_and_signs() {
    let zeros = "0".repeat(100_000);
    assert_eq!(bytes(&format!("a:{zeros}9,r\n{zeros}8,-{zeros}7\n")), bytes("a:9,r\n8,-7\n"));
    let wanted = Records { sizes: vec![1], rows: [i32::MIN, i32::MAX, 7, 0].map(|reading| (vec![0], reading)).to_vec() };
    assert_eq!(bytes("a,r\n0,-2147483648\n0,2147483647\n00,+7\n0,-0\n"), wanted.table());
}

#[test]
fn no_header() {
    for text in ["", "\n", " \r\n\n"] {
        refused(text, 1, Fault::NoHeader, "there is no header: the first line names the columns");
    }
    refused(
        "\n0,1,50\n",
        2,
        Fault::Name("0".into()),
        "\"0\" is no column name: the header names each column, without '=' and commas, and not beginning with a number",
    );
    refused(
        "a,-5\n",
        1,
        Fault::Name("-5".into()),
        "\"-5\" is no column name: the header names each column, without '=' and commas, and not beginning with a number",
    );
    refused(
        "a,,r\n",
        1,
        Fault::Name("".into()),
        "\"\" is no column name: the header names each column, without '=' and commas, and not beginning with a number",
    );
    refused(
        "a,:5,r\n",
        1,
        Fault::Name("".into()),
        "\"\" is no column name: the header names each column, without '=' and commas, and not beginning with a number",
    );
}

#[test]
fn no_columns_or_too_many() {
    refused(
        "r\n5\n",
        1,
        TableError::Dimensions(0).into(),
        "there is one column only: commas part the columns, one to eight dimensions and the reading",
    );
    refused("\na,b,c,d,e,f,g,h,i,r\n", 2, TableError::Dimensions(9).into(), "9 dimensions: a table has 1 to 8");
    assert_eq!(table_of("a,b,c,d,e,f,g,h,r\n").unwrap().sizes().len(), 8);
}

#[test]
fn wrong_sizes() {
    for size in ["0", "65536", "-1", "+1", "x", "", "1.5", "99999999999999999999"] {
        let words = format!("{size:?} is no size: a size is a number from 1 to 65535");
        refused(&format!("a,b:{size},r\n0,0,1\n"), 1, Fault::Size(size.into()), &words);
    }
    refused("a,r:5\n0,1\n", 1, Fault::ReadingWithSize, "the reading's column has no size: only dimensions have one");
}

#[test]
fn wrong_numbers_of_fields() {
    let fields = |fields| Fault::Fields { fields, columns: 3 };
    refused("a,b,r\n0,0,1\n0,1\n", 3, fields(2), "expected 3 fields parted by commas, found 2");
    refused("a,b,r\n0,0,1,\n", 2, fields(4), "expected 3 fields parted by commas, found 4");
    refused("a,b,r\n\n0;0;1\n", 3, fields(1), "expected 3 fields parted by commas, found 1");
}

#[test]
fn wrong_codes() {
    for code in ["65535", "65536", "99999999999999999999", "-1", "+1", "x", "", "1.5", "1 2", "0x1"] {
        let words = format!("{code:?} is no code: a code is a number from 0 to 65534");
        refused(&format!("a,b,r\n0,0,1\n0,{code},1\n"), 3, Fault::Code(code.into()), &words);
    }
}

#[test]
fn codes_are_below_a_given_size() {
    let error = TableError::Code { dimension: 2, code: 7, size: 7 };
    refused("a,b:7,r\n0,6,1\n\n0,7,1\n0,x,1\n", 4, error.into(), "code 7 of dimension 2 is not below its size 7");
}

#[test]
fn wrong_readings() {
    for reading in ["2147483648", "-2147483649", "99999999999999999999", "x", "", "-", "1.0", "1e3", "--1"] {
        let words = format!("{reading:?} is no reading: a reading is a number from -2147483648 to 2147483647");
        refused(&format!("a,r\n0,1\n0,1\n0,{reading}\n"), 4, Fault::Reading(reading.into()), &words);
    }
}

#[test]
fn at_most_1024_rows() {
    let text = |rows| format!("a,r\r\n{}", "0,1\r\n".repeat(rows));
    assert_eq!(bytes(&text(1_024)).len(), 20 + 1_024 * 8);
    refused(&text(1_025), 1_026, TableError::Rows.into(), "a table has at most 1024 rows");
    refused(&text(2_000), 1_026, TableError::Rows.into(), "a table has at most 1024 rows");
}

/// The fields of the only record's dimensions.
fn fields(text: &str) -> Vec<String> {
    let sheet = Sheet::read(text, None).unwrap();
    assert_eq!(sheet.records.len(), 1);
    sheet.records[0].fields.clone()
}

#[test]
fn quoted_fields() {
    let text = include_str!("../../examples/five-rows.csv");
    let quoted: String = text.lines().map(|line| format!("\"{}\"\r\n", line.replace(',', "\" , \""))).collect();
    assert_eq!(bytes(&quoted), Records::five().table());
    assert_eq!(fields("a,b,r\n\"x, \"\"y\"\"\", \" z \" ,5\n"), ["x, \"y\"", " z "]);
    assert_eq!(fields("a,b,r\n\"\",,5\n"), ["", ""]);
    assert_eq!(fields("a,b,r\n\"\"\"\",\"\"\"\"\"\",5"), ["\"", "\"\""]);
    assert_eq!(fields("a,b,r\r\n\"one\r\ntwo\",\"\n\",\"5\"\r\n"), ["one\r\ntwo", "\n"]);
    assert_eq!(fields("\"a\",\"b:7\",\"r\"\n\tü ß\t,日本,5"), ["ü ß", "日本"]);
}

#[test]
fn lines_count_on_through_quoted_fields() {
    refused(
        "a,r\n\"0\n\",1\n0,x\n",
        4,
        Fault::Reading("x".into()),
        "\"x\" is no reading: a reading is a number from -2147483648 to 2147483647",
    );
    let records = Sheet::read("a,r\n\n\"x\ny\nz\",1\n\"v\",2\n", None).unwrap().records;
    assert_eq!(records.iter().map(|record| record.line).collect::<Vec<_>>(), [3, 6]);
}

#[test]
fn wrong_quotes() {
    for (field, shown) in [("a\"b", "a\"b"), ("a\"", "a\""), ("\"a\"b", "b"), ("\"a\" \"b\"", "\"b\"")] {
        let words = format!("a quote or text beside one, {shown:?}: put the whole field in quotes, and write each quote in it twice");
        refused(&format!("a,r\n0,1\n{field},1\n"), 3, Fault::Quote(shown.into()), &words);
    }
    refused("a,r\n0,1\n\"0,1\n0,1\n", 3, Fault::OpenQuote, "a quoted field has no closing quote");
    refused("a,\"r\n", 1, Fault::OpenQuote, "a quoted field has no closing quote");
}

/// Of a long field the error has the first 60 characters.
#[test]
fn long_fields_are_quoted_in_part() {
    for length in [60, 61, 200_000] {
        let field = "ä".repeat(length);
        let quoted = format!("\"{}\"{}", "ä".repeat(60), if length > 60 { ".." } else { "" });
        for (text, wanted) in [
            (format!("a,r\n{field},1\n"), format!("line 2: {quoted} is no code: ")),
            (format!("a,r\n0,{field}\n"), format!("line 2: {quoted} is no reading: ")),
            (format!("a,r\n\"0\"{field},1\n"), format!("line 2: a quote or text beside one, {quoted}: ")),
            (format!("a:{field},r\n"), format!("line 1: {quoted} is no size: ")),
            (format!("{field},{field},r\n"), format!("line 1: two columns are named {quoted}: ")),
        ] {
            let words = fault(&text).2;
            assert!(words.starts_with(&wanted), "{words}");
        }
    }
    let name = "=".repeat(61);
    assert!(fault(&format!("{name},r\n")).2.starts_with(&format!("line 1: {:?}.. is no column name: ", &name[..60])));
}

/// A header and a record of so many bytes, which ends with this.
fn long(beginning: &str, fill: &str, end: &str, length: usize) -> String {
    let room = length - beginning.len() - end.len();
    let fill = fill.repeat(room / fill.len()) + &"x".repeat(room % fill.len());
    format!("a,r\n{beginning}{fill}{end}")
}

#[test]
fn records_as_long_as_they_may_be() {
    for (beginning, fill, end) in [
        ("\"", "x", "\",5\n"),
        ("\"", "x", "\",5"),
        ("\"", "\n", "\",5\r\n"),
        ("\"", "0,1\n", "\",5\n"),
        ("\"", "\"\"", "\",5\n"),
        ("\"", "日本", "\",5\n"),
        ("", "x", ",5\n"),
        (" ", " ", "\"\",5\n"),
    ] {
        let length = fields(&long(beginning, fill, end, RECORD_BYTES))[0].len();
        assert!(fill == " " || length >= RECORD_BYTES / 2 - 10, "{beginning:?} {fill:?} {end:?}: {length}");
        let error = fault(&long(beginning, fill, end, RECORD_BYTES + 1));
        assert_eq!((error.0, error.1), (2, Fault::Long), "{beginning:?} {fill:?} {end:?}");
    }
    // Each record has its own bytes.
    let text = "a,r\n".to_string() + &long("\"", "x\n", "\",5\n", RECORD_BYTES)[4..].repeat(3);
    assert_eq!(Sheet::read(&text, None).unwrap().records.len(), 3);
}

#[test]
fn a_quote_that_is_not_closed_within_a_record() {
    let words = "a quoted field has no closing quote within the 1048576 bytes that a record may have";
    for fill in ["x", "\n", "0,1\n", "\"\"\n", "日本\n", "ä"] {
        for beginning in ["\"", " \"", "x,\"", "\"\",  \"", "\"x"] {
            let open = |length| long(beginning, fill, "y", length);
            refused(&open(RECORD_BYTES), 2, Fault::OpenQuote, "a quoted field has no closing quote");
            refused(&open(RECORD_BYTES + 1), 2, Fault::LongQuote, words);
            refused(&open(3 * RECORD_BYTES), 2, Fault::LongQuote, words);
        }
        refused(&(long("\"", fill, "y", RECORD_BYTES) + "\",5\n"), 2, Fault::LongQuote, words);
        refused(&long("\"\n\n\",\"", fill, "y", 2 * RECORD_BYTES), 4, Fault::LongQuote, words);
        refused(&long("\"\n\n\",\"", fill, "y", 2 * RECORD_BYTES)[4..], 3, Fault::LongQuote, words);
    }
}

/// The first fault is told as in a short record, and nothing is read behind it.
#[test]
fn other_faults_in_records_that_are_too_long() {
    let error = |beginning: &str, fill: &str| fault(&long(beginning, fill, "", 2 * RECORD_BYTES));
    for (beginning, shown) in [("5\" disk,1\n", "5\" disk"), ("\"\n\"b,\"", "b")] {
        let line = 2 + usize::from(shown == "b");
        assert_eq!((line, Fault::Quote(shown.into())), (error(beginning, "0,1\n").0, error(beginning, "0,1\n").1));
    }
    assert_eq!((2, Fault::CarriageReturn), (error("0,1\r", "0,1\r").0, error("0,1\r", "0,1\r").1));
    for fill in [" ", "x", ",", "\0"] {
        let words = "line 2: this record has more than the 1048576 bytes that a record may have";
        assert_eq!(error("", fill), (2, Fault::Long, words.into()));
    }
    let text = [b"a,r\n\"\n\xC3".to_vec(), vec![b'\n'; 2 * RECORD_BYTES]].concat();
    let mut reader = Reader::new(&text[..], None).unwrap();
    assert_eq!(reader.next().unwrap().unwrap_err().to_string(), "line 3: this is no UTF-8 text: save the records as CSV in UTF-8");
    assert!(reader.next().is_none());
}

#[test]
fn a_byte_order_mark() {
    let text = include_str!("../../examples/five-rows.csv");
    assert_eq!(bytes(&format!("\u{FEFF}{text}")), Records::five().table());
    assert_eq!(bytes(&format!("\u{FEFF}\r\n{}", text.replace('\n', "\r\n"))), Records::five().table());
}

#[test]
fn carriage_returns_are_no_line_ends() {
    let words = "a carriage return within a line: lines end with LF or CRLF";
    refused("a,r\r0,1\r0,2\r", 1, Fault::CarriageReturn, words);
    refused("a,r\n0\r1,1\n", 2, Fault::CarriageReturn, words);
}

#[test]
fn the_reading_in_any_column() {
    let table = |text: &str, reading| Sheet::read(text, reading).and_then(|sheet| sheet.table()).map(|table| table.to_bytes());
    let wanted = Ok(bytes("a:3,b,r\n1,2,-5\n2,0,7\n"));
    assert_eq!(table("r,a:3,b\n-5,1,2\n7,2,0\n", Some("r")), wanted);
    assert_eq!(table("a:3,r,b\n1,-5,2\n2,7,0\n", Some("r")), wanted);
    assert_eq!(table("a:3,b,r\n1,2,-5\n2,0,7\n", Some("r")), wanted);
    let error = table("a,b,r\n", Some("R")).unwrap_err();
    assert_eq!((error.line, error.fault), (1, Fault::NoColumn("R".into())));
    assert_eq!(table("a:3,b,r\n", Some("a")).unwrap_err().fault, Fault::ReadingWithSize);
}

#[test]
fn names_that_no_column_has() {
    for name in ["a=b", "\"a,b\"", "\"a\nb\"", "\"\"", "+", "7"] {
        assert!(matches!(fault(&format!("{name},r\n")), (1 | 2, Fault::Name(_), _)), "{name}");
    }
    refused("a,b,a:3,r\n", 1, Fault::Twice("a".into()), "two columns are named \"a\": give each a name of its own");
    refused("a,b,b\n", 1, Fault::Twice("b".into()), "two columns are named \"b\": give each a name of its own");
}

#[test]
fn bytes_that_are_no_text() {
    let error = text_of(b"a,r\n0,1\n\xFF,1\n").unwrap_err();
    assert_eq!(error.to_string(), "line 3: this is no UTF-8 text: save the records as CSV in UTF-8");
    assert_eq!(text_of(b"a,r\n"), Ok("a,r\n"));
}

/// A text that cannot be read on behind its end.
struct Broken(&'static [u8]);

impl Read for Broken {
    fn read(&mut self, lent: &mut [u8]) -> io::Result<usize> {
        match self.0.read(lent)? {
            0 => Err(io::Error::other("the cable is out")),
            length => Ok(length),
        }
    }
}

#[test]
fn what_cannot_be_read_on() {
    let error = |text: &'static str| {
        let reader = Reader::new(BufReader::with_capacity(3, Broken(text.as_bytes())), None);
        reader.and_then(|reader| reader.codes(|_| ())).unwrap_err()
    };
    for (text, line) in [("", 1), ("a,r", 1), ("a,r\n0,1\n\n0,", 4), ("a,r\n0,1\n\"0\n\n", 5)] {
        assert_eq!(error(text).to_string(), format!("line {line}: the cable is out"), "{text:?}");
        assert_eq!(error(text).fault, Fault::Unread("the cable is out".into()));
    }
}

/// Read in pieces of any length, a text gives the same.
#[test]
fn in_pieces() {
    let text = "\u{FEFF}\r\na,\"b:7\",r\r\n\"ä\n, \"\"日\"\"\" ,\tx\u{a0},5\n\n \n\"\",\"\n\n\",-7\n\u{3000}\ny,\"z\",+0";
    let whole = Sheet::read(text, None).unwrap();
    assert_eq!(whole.records.iter().map(|record| record.line).collect::<Vec<_>>(), [3, 7, 11]);
    for length in 1..20 {
        let reader = Reader::new(BufReader::with_capacity(length, text.as_bytes()), None).unwrap();
        assert_eq!((reader.line(), reader.dimensions()), (whole.line, &whole.dimensions[..]));
        assert_eq!(reader.collect::<Result<Vec<_>, _>>(), Ok(whole.records.clone()));
    }
}
