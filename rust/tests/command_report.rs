//! `cube report`: one page with the five points, what was asked and what came back, and the totals as bars.
mod command;
mod cube;

use command::{folder, Folder};
use cube::Records;

fn page(folder: &Folder, records: &Records) -> String {
    folder.write("x.cube", records.archive().into_bytes()).succeeds("report x.cube -o x.html");
    folder.text("x.html")
}

/// What was asked at a point, what came back, and whether that is right.
fn point(page: &str, number: usize) -> (String, String, bool) {
    let card = page.split("<li class=").nth(number).unwrap().split("</li>").next().unwrap();
    let answers: Vec<&str> = card.split("<dd>").skip(1).map(|part| part.split("</dd>").next().unwrap()).collect();
    (answers[0].into(), answers[1].into(), card.starts_with("\"right\"") && card.contains("&#10003; right"))
}

#[track_caller]
fn right(page: &str, number: usize, asked: &str, answer: &str) {
    assert_eq!(point(page, number), (asked.into(), answer.into(), true));
}

#[test]
fn the_five_points_of_the_five_rows() {
    let page = page(&folder("report_five"), &Records::five());
    let asked = "every field, the check word, and every list and normal entry against the base entries";
    let answer = "accepted: 5 base entries, 5 normal entries; the first four bytes are 43 55 42 45, the check word is 58 5b 4c 45";
    right(&page, 1, asked, answer);
    let answer = "dimension 1: 360 in 5 records; dimension 2: 360 in 5 records; dimension 3: 360 in 5 records";
    right(&page, 2, "the cells of each dimension added up, against 360 in 5 records", answer);
    right(&page, 3, "1=0, 2=3", "no record");
    right(&page, 4, "1=0", "50 in 1 record, entry 0; its record, 1=0, 2=1, 3=1: 50 in 1 record, entry 0");
    let answer = "5 base entries and 5 normal entries there; 5 and 5 needed: one for each base row, and one for each cell that two or more of them share";
    right(&page, 5, "how many entries there are, and how many are needed", answer);
    assert!(page.contains("All five points are right."));
    for line in [
        "<th scope=\"row\">5</th><td class=\"bar\"><span style=\"margin-left:0.00%;width:100.00%\"></span></td><td>150</td><td>2</td>",
        "<th scope=\"row\">3</th><td class=\"bar\"><span style=\"margin-left:0.00%;width:40.00%\"></span></td><td>60</td><td>1</td>",
    ] {
        assert!(page.contains(line), "{page}");
    }
    assert_eq!(page.matches("<tr><th scope=\"row\">").count(), 5 + 3 + 2);
    assert_eq!(page.matches("added up</th><td>360</td><td>5</td>").count(), 3);
    assert_eq!(page.matches("&#10003; equal</strong></th><td>360</td><td>5</td>").count(), 3);
}

/// Bars below zero go to the left of those above it.
#[test]
fn sums_below_zero() {
    let page = page(&folder("report_below"), &Records { sizes: vec![3], rows: vec![(vec![0], -30), (vec![1], 90), (vec![2], 0)] });
    assert!(page.contains("<span class=\"below\" style=\"margin-left:0.00%;width:25.00%\"></span></td><td>-30</td>"), "{page}");
    assert!(page.contains("<span style=\"margin-left:25.00%;width:75.00%\"></span></td><td>90</td>"), "{page}");
    assert!(page.contains("<span style=\"margin-left:25.00%;width:0.00%\"></span></td><td>0</td>"), "{page}");
}

#[test]
fn when_there_is_nothing_to_ask() {
    let folder = folder("report_nothing");
    let twice = Records { sizes: vec![1, 2], rows: vec![(vec![0, 0], 1), (vec![0, 1], 2), (vec![0, 0], 3), (vec![0, 1], 4)] };
    let met = page(&folder, &twice);
    right(&met, 3, "two codes that never met", "all have met: there is nothing to ask");
    right(&met, 4, "a cell that one record falls in", "each has more records: there is nothing to ask");
    let unused = page(&folder, &Records { sizes: vec![1, 3], rows: vec![(vec![0, 0], 1), (vec![0, 2], 2)] });
    right(&unused, 3, "2=1", "no record");
    let empty = page(&folder, &Records { sizes: vec![2, 2], rows: vec![] });
    right(
        &empty,
        2,
        "the cells of each dimension added up, against 0 in 0 records",
        "dimension 1: 0 in 0 records; dimension 2: 0 in 0 records",
    );
    right(&empty, 3, "1=0", "no record");
    assert!(point(&empty, 5).1.starts_with("0 base entries and 1 normal entry there; 0 and 1 needed"));
    let one = page(&folder, &Records { sizes: vec![1; 8], rows: vec![(vec![0; 8], i32::MIN)] });
    right(
        &one,
        4,
        "all records",
        "-2147483648 in 1 record, entry 0; its record, 1=0, 2=0, 3=0, 4=0, 5=0, 6=0, 7=0, 8=0: -2147483648 in 1 record, entry 0",
    );
}

#[test]
fn names_and_labels_are_text() {
    let folder = folder("report_labels");
    folder.write("x.csv", "<i>chip</i>,port,late\n<script>alert(1)</script>,\"a&b\"\"c\",5\n\"\",\"tab\tbed\",6\n");
    folder.succeeds("build x.csv --legend x.legend -o x.cube").succeeds("report x.cube -o x.html");
    let page = folder.text("x.html");
    for text in [
        "<h3>&lt;i&gt;chip&lt;/i&gt;</h3>",
        ">&lt;script&gt;alert(1)&lt;/script&gt;<",
        ">a&amp;b&quot;c<",
        "<i>empty label</i>",
        ">tab\\tbed<",
    ] {
        assert!(page.contains(text), "{text}: {page}");
    }
    assert!(!page.contains("<script"));
}

/// One file that asks for no other, whose tags are closed.
#[test]
fn the_page_stands_alone() {
    let page = page(&folder("report_alone"), &Records::five());
    assert!(page.starts_with("<!DOCTYPE html>\n<html lang=\"en\">"));
    assert!(page.contains("content=\"default-src 'none'; style-src 'unsafe-inline'\"") && page.contains("name=\"viewport\""));
    for word in ["<script", "<link", "<img", "src=", "href=", "url(", "@import", "http:", "https:"] {
        assert!(!page.contains(word), "{word}");
    }
    let mut open = vec![];
    for tag in page.split('<').skip(1).map(|part| part.split(['>', ' ', '\n']).next().unwrap()) {
        match tag.strip_prefix('/') {
            Some(name) => assert_eq!(open.pop(), Some(name)),
            None if tag != "!DOCTYPE" && tag != "meta" => open.push(tag),
            None => (),
        }
    }
    assert!(open.is_empty(), "{open:?}");
}
