//! Legends: labels in archives, legends that grow, and legends that do not fit.
mod command;
mod cube;

use command::{folder, Folder};
use cube::random::Random;
use cube::Records;
use cube_archive::csv::Sheet;
use std::fs;

const BENCH: &str = include_str!("../../examples/bench.csv");

/// The labels of the legend, a line for each dimension: name, sizes, labels.
fn labels(folder: &Folder, name: &str) -> Vec<String> {
    let text = folder.text(name);
    let dimensions = text.split("\ndimension ").skip(1);
    dimensions.map(|dimension| dimension.trim().replace('\n', " | ").replace('\t', " ")).collect()
}

fn bench(name: &str) -> Folder {
    let folder = folder(name);
    folder.write("bench.csv", BENCH).succeeds("build bench.csv --legend bench.legend -o bench.cube");
    folder
}

#[test]
fn labels_become_codes_in_their_order() {
    let folder = bench("legend_bench");
    let lines = [
        "chip | sizes 3 | 0 TC27 | 1 TC37 | 2 TC39",
        "port | sizes 3 | 0 P00 | 1 P02 | 2 P10",
        "priority | sizes 3 | 0 high | 1 low | 2 middle",
    ];
    assert_eq!(labels(&folder, "bench.legend"), lines);
    let rows = [
        ([1, 2, 0], 12),
        ([1, 2, 1], 48),
        ([1, 1, 0], 9),
        ([2, 2, 0], -3),
        ([2, 1, 1], 31),
        ([2, 1, 1], 28),
        ([0, 0, 0], 22),
        ([0, 2, 2], 35),
    ];
    let records = Records { sizes: vec![3, 3, 3], rows: rows.map(|(codes, reading)| (codes.to_vec(), reading)).to_vec() };
    assert_eq!(folder.read("bench.cube"), records.archive().as_bytes());
    assert_eq!(folder.files(), ["bench.csv", "bench.cube", "bench.legend"]);
}

#[test]
fn answers_have_names_and_labels() {
    let folder = bench("legend_answers");
    folder.answers("check bench.cube", "7 base entries, 11 normal entries\n");
    folder.answers("cell bench.cube chip=TC39 --csv", "chip,port,priority,sum,count,entry\nTC39,*,*,56,3,10\n");
    folder.answers("cell bench.cube 1=2 --csv", "chip,port,priority,sum,count,entry\nTC39,*,*,56,3,10\n");
    folder.answers("cell bench.cube priority=* port=P02 chip=TC27", "chip  port  priority\nTC27  P02   *         no record\n");
    folder.answers("cuboid bench.cube priority,chip", "chip  priority  sum  count\nTC27  high       22      1\nTC27  middle     35      1\nTC37  high       21      2\nTC37  low        48      1\nTC39  high       -3      1\nTC39  low        59      2\n");
    folder.answers(
        "cuboid bench.cube 3,chip --csv",
        "chip,priority,sum,count\nTC27,high,22,1\nTC27,middle,35,1\nTC37,high,21,2\nTC37,low,48,1\nTC39,high,-3,1\nTC39,low,59,2\n",
    );
    folder.answers("keys bench.cube", "key\nchip,port,priority\n");
    folder.answers("fixes bench.cube chip,port priority", "no\n");
    folder.answers("totals bench.cube port --csv", "dimension,cells,sum,count,sum in all,count in all,equal\nport,3,182,8,182,8,yes\n");
    folder.answers("fee bench.cube 1000 chip --csv", "chip,count,cents\nTC27,2,250\nTC37,3,375\nTC39,3,375\n");
    assert!(folder
        .run("expand bench.cube")
        .1
        .starts_with("chip  port  priority  sum  count\n*     *     *         182      8\nTC27  *     *          57      2\n"));
    assert!(folder.run("list bench.cube").1.starts_with("3 7 11\n0 0 0 22 1 : 2 5\n"));
    fs::rename(folder.path("bench.legend"), folder.path("other")).unwrap();
    folder.answers("cell bench.cube --legend other chip=TC39 --csv", "chip,port,priority,sum,count,entry\nTC39,*,*,56,3,10\n");
    folder.answers("cell bench.cube 1=2 --csv", "1,2,3,sum,count,entry\n2,*,*,56,3,10\n");
    folder.fails(
        "cell bench.cube chip=TC39",
        "bench.cube: there is no dimension \"chip\": the dimensions are 1 to 3; names are in a legend, --legend FILE",
    );
}

#[test]
fn words_that_the_legend_has_not() {
    let folder = bench("legend_words");
    folder.fails("cell bench.cube chip=TC99", "bench.legend: dimension \"chip\" has no label \"TC99\"; to ask for a code, write 1=CODE");
    folder.fails(
        "cell bench.cube Chip=TC39",
        "bench.cube: there is no dimension \"Chip\": the dimensions are chip, port, priority, or 1 to 3",
    );
    folder.fails(
        "cuboid bench.cube chip,task",
        "bench.cube: there is no dimension \"task\": the dimensions are chip, port, priority, or 1 to 3",
    );
    folder
        .wrong_usage("cell bench.cube 1=TC39", "\"TC39\" is no code: behind a dimension's number comes a number, behind its name a label");
}

/// The same records give the same archive and the same legend.
#[test]
fn records_and_columns_in_any_order() {
    let folder = bench("legend_order");
    let lines: Vec<&str> = BENCH.lines().collect();
    let random = &mut Random(5);
    for i in 0..10 {
        let mut records = lines[1..].to_vec();
        for k in (1..records.len()).rev() {
            records.swap(k, random.below(k as u64 + 1) as usize);
        }
        let name = format!("{i}");
        folder
            .write("x.csv", format!("{}\r\n{}", lines[0], records.join("\r\n")))
            .succeeds(&format!("build x.csv --legend {name}.legend -o {name}.cube"));
        assert_eq!(folder.read(&format!("{name}.cube")), folder.read("bench.cube"));
        assert_eq!(folder.read(&format!("{name}.legend")), folder.read("bench.legend"));
    }
    let turned = lines.iter().map(|line| line.split(',').collect::<Vec<_>>()).map(|f| format!("{},{},{},{}\n", f[2], f[3], f[0], f[1]));
    folder.write("x.csv", turned.collect::<String>()).succeeds("build x.csv --reading late --legend bench.legend -o turned.cube");
    assert_eq!(folder.read("turned.cube"), folder.read("bench.cube"));
}

/// Old codes keep their labels, and old archives their legend.
#[test]
fn a_legend_extended_twice() {
    let folder = bench("legend_extended");
    let before = folder.run("expand bench.cube");
    folder.write("2.csv", "chip,port,priority,late\nTC41,P02,low,1\nTC39,P02,low,2\nAB1,P02,top,3\n");
    let (status, out, news) = folder.run("build 2.csv --legend bench.legend -o 2.cube");
    assert_eq!((status, &out[..]), (Some(0), ""));
    let grown = "cube: bench.legend: new in chip: \"AB1\", \"TC41\"; its size was 3, now it is 5\ncube: bench.legend: new in priority: \"top\"; its size was 3, now it is 4\n";
    assert_eq!(news, grown);
    let lines = [
        "chip | sizes 3 5 | 0 TC27 | 1 TC37 | 2 TC39 | 3 AB1 | 4 TC41",
        "port | sizes 3 | 0 P00 | 1 P02 | 2 P10",
        "priority | sizes 3 4 | 0 high | 1 low | 2 middle | 3 top",
    ];
    assert_eq!(labels(&folder, "bench.legend"), lines);
    folder.write("3.csv", "chip,port,priority,late\nAA,P02,low,1\n").run("build 3.csv --legend bench.legend -o 3.cube");
    assert_eq!(labels(&folder, "bench.legend")[0], "chip | sizes 3 5 6 | 0 TC27 | 1 TC37 | 2 TC39 | 3 AB1 | 4 TC41 | 5 AA");
    assert_eq!(folder.run("expand bench.cube"), before);
    folder.answers("cuboid 2.cube --legend bench.legend chip --csv", "chip,sum,count\nTC39,2,1\nAB1,3,1\nTC41,1,1\n");
    folder.answers("cuboid 3.cube --legend bench.legend chip --csv", "chip,sum,count\nAA,1,1\n");
    folder.fails("cell bench.cube chip=AA", "bench.cube: label \"AA\" is newer than this archive, which has no record of it");
}

/// A legend without news stays as it is, byte for byte.
#[test]
fn a_legend_without_news_is_not_written() {
    let folder = bench("legend_same");
    let text = folder.text("bench.legend").replace('\n', "\r\n");
    folder.write("bench.legend", format!("\u{FEFF}{text}")).succeeds("build bench.csv --legend bench.legend -o bench.cube");
    assert_eq!(folder.text("bench.legend"), format!("\u{FEFF}{text}"));
}

#[test]
fn notes_above_the_first_dimension_stay() {
    let folder = bench("legend_notes");
    let text = folder.text("bench.legend").replacen("\n\ndimension", "\n\nTC27 left the bench in 2031.\n\ndimension", 1);
    folder
        .write("bench.legend", &text)
        .write("x.csv", "chip,port,priority,late\nTC41,P00,low,1\n")
        .run("build x.csv --legend bench.legend -o x.cube");
    let wanted = text.replace("chip\nsizes 3\n", "chip\nsizes 3 4\n").replace("2\tTC39\n", "2\tTC39\n3\tTC41\n");
    assert_eq!(folder.text("bench.legend"), wanted);
}

/// Sites whose archives shall be joined give the sizes, and leave room in them.
#[test]
fn a_size_with_room() {
    let folder = folder("legend_room");
    folder.write("a.csv", "chip:50,port,late\nA,x,1\n").succeeds("build a.csv --legend l -o a.cube");
    folder.write("b.csv", "chip,port,late\nC,x,1\nB,x,2\n").run("build b.csv --legend l -o b.cube");
    assert_eq!(labels(&folder, "l"), ["chip | sizes 50 | 0 A | 1 B | 2 C", "port | sizes 1 | 0 x"]);
    assert_eq!(folder.read("a.cube")[8..16], folder.read("b.cube")[8..16]);
    folder.write("c.csv", "chip:60,port,late\nA,x,1\n").succeeds("build c.csv --legend l -o c.cube");
    assert_eq!(labels(&folder, "l")[0], "chip | sizes 50 60 | 0 A | 1 B | 2 C");
    let what = "d.csv: line 1: the header gives dimension \"chip\" the size 59, but its labels and its size so far need 60";
    folder.write("d.csv", "chip:59,port,late\nA,x,1\n").fails("build d.csv --legend l -o d.cube", what);
    let what = "e.csv: line 1: the header gives dimension \"a\" the size 1, but its labels and its size so far need 2";
    folder.write("e.csv", "a:1,r\nx,1\ny,1\n").fails("build e.csv --legend new -o e.cube", what);
    assert_eq!(folder.answers("cell a.cube --legend l 1=49", "chip       port\n(code 49)  *     no record\n"), ());
}

#[test]
fn a_header_alone() {
    let folder = folder("legend_header");
    folder.write("a.csv", "chip,port,late\n").succeeds("build a.csv --legend l -o a.cube");
    assert_eq!(labels(&folder, "l"), ["chip | sizes 1", "port | sizes 1"]);
    folder.write("a.csv", "chip,port,late\nA,x,5\n").run("build a.csv --legend l -o a.cube");
    assert_eq!(labels(&folder, "l"), ["chip | sizes 1 | 0 A", "port | sizes 1 | 0 x"]);
}

/// Labels of every odd kind come back as they went in, through the legend and through CSV.
#[test]
fn odd_labels() {
    let odd = [
        "",
        " ",
        "  ",
        " a",
        "a ",
        "a b",
        "\t",
        "a\tb",
        "\"",
        "\"\"",
        "a\"b",
        ",",
        "a,b",
        "\n",
        "a\nb",
        "\r\n",
        "\\",
        "\\n",
        "\\\\",
        "a\\",
        "\u{0}",
        "\u{1b}[31m",
        "\u{a0}",
        "\u{2028}",
        "\u{feff}",
        "ü",
        "Ü",
        "日本語",
        "🦀",
        "0",
        "00",
        "-1",
        "1e5",
        "dimension x",
        "sizes 3",
        "# no",
        "<b>&amp;</b>",
        "**",
        "a=b",
        "'",
        "--csv",
        &"long ".repeat(200),
    ];
    let folder = folder("legend_odd");
    let quoted = |label: &str| format!("\"{}\"", label.replace('"', "\"\""));
    let text: String = odd.iter().enumerate().map(|(i, label)| format!("{},{i}\n", quoted(label))).collect();
    folder.write("x.csv", format!("odd,reading\n{text}")).succeeds("build x.csv --legend x.legend -o x.cube");
    let (_, printed, _) = folder.run("cuboid x.cube odd --csv");
    let back = Sheet::read(&printed.replacen("sum", "sum:1", 1), Some("count")).unwrap().records;
    let mut back: Vec<(String, usize)> =
        back.into_iter().map(|record| (record.fields[0].clone(), record.fields[1].parse().unwrap())).collect();
    back.sort_by_key(|(_, i)| *i);
    assert_eq!(back.iter().map(|(label, _)| label.as_str()).collect::<Vec<_>>(), odd);
    for (i, label) in odd.iter().enumerate() {
        let question = format!("odd={label}");
        if label.contains('\0') {
            continue;
        }
        let (status, out, error) = folder.run_words(&["cell", "x.cube", &question, "--csv"], &[]);
        assert_eq!((status, &error[..]), (Some(0), ""), "{label:?}");
        assert!(out.ends_with(&format!(",{i},1,{}\n", out.trim_end().rsplit(',').next().unwrap())), "{label:?}: {out}");
    }
    let legend = folder.text("x.legend");
    assert_eq!(legend.lines().count(), folder.text("x.legend").trim_end().lines().count());
    assert!(legend.chars().all(|c| c == '\n' || c == '\t' || !c.is_control()), "{legend}");
    folder.succeeds("build x.csv --legend x.legend -o x.cube");
    assert_eq!(folder.text("x.legend"), legend);
    let (_, people, _) = folder.run("cuboid x.cube odd");
    assert_eq!(people.lines().count(), odd.len() + 1);
    assert!(people.chars().all(|c| c == '\n' || !c.is_control()));
}

#[test]
fn labels_that_cannot_be() {
    let folder = folder("legend_star");
    folder
        .write("x.csv", "a,r\nx,0\n*,1\n")
        .fails("build x.csv --legend l -o x.cube", "x.csv: line 3: the label \"*\" stands for ALL: use another");
    let full: String = (0..65_535).map(|i| format!("{i}\tl{i}\n")).collect();
    folder.write("l", format!("Legend of condensed cube archives, form 1\n\ndimension a\nsizes 65535\n{full}"));
    folder.write("x.csv", "a,r\nl65534,1\n").succeeds("build x.csv --legend l -o x.cube");
    let what = "x.csv: line 1: dimension \"a\" has no code left for \"new\": it has 65535 labels";
    folder.write("x.csv", "a,r\nnew,1\n").fails("build x.csv --legend l -o x.cube", what);
    assert_eq!(folder.files(), ["l", "x.csv", "x.cube"]);
}

/// Each command refuses a legend that is not the archive's, whether it is named or stands beside it.
#[test]
fn a_legend_that_does_not_fit() {
    let folder = bench("legend_fit");
    let text = folder.text("bench.legend");
    let two = &text[..text.find("\ndimension priority").unwrap()];
    for (legend, what) in [
        (two.to_string(), "it has 2 dimensions, the archive 3"),
        (text.clone() + "\ndimension task\nsizes 3\n", "it has 4 dimensions, the archive 3"),
        (text.replace("port\nsizes 3", "port\nsizes 4"), "dimension \"port\" has never had the archive's size 3"),
        (text.replace("port\nsizes 3", "port\nsizes 4 7"), "dimension \"port\" has never had the archive's size 3"),
        (text.replace("2\tmiddle\n", ""), "dimension \"priority\" has no label for code 2"),
    ] {
        folder.write("bench.legend", &legend).write("l", &legend);
        for command in ["check", "cell", "cuboid", "expand", "keys", "totals", "report"] {
            folder.fails(
                &format!("{command} bench.cube"),
                &format!("bench.legend: not the legend of bench.cube: {what}; name its own with --legend"),
            );
            folder.fails(
                &format!("{command} bench.cube --legend l"),
                &format!("l: not the legend of bench.cube: {what}; name its own with --legend"),
            );
        }
    }
    let longer = text.replace("port\nsizes 3", "port\nsizes 2 3 4").replace("2\tP10\n", "2\tP10\n3\tP11\n");
    folder.write("bench.legend", longer).answers("check bench.cube", "7 base entries, 11 normal entries\n");
}

#[test]
fn what_is_no_legend() {
    let folder = bench("legend_wrong");
    let text = folder.text("bench.legend");
    let title = "line 1: a legend begins with the line \"Legend of condensed cube archives, form 1\"";
    let line = |part: &str| 1 + text[..text.find(part).unwrap()].matches('\n').count();
    for (legend, what) in [
        ("".into(), title.to_string()),
        (text.replace("form 1", "form 2"), title.into()),
        (BENCH.into(), title.into()),
        (text.lines().next().unwrap().into(), "there is no line with a dimension".into()),
        (text.replace("1\tTC37", "2\tTC37"), format!("line {}: expected code 1 and its label, found \"2\\tTC37\"", line("1\tTC37"))),
        (text.replace("1\tTC37", "01\tTC37"), format!("line {}: expected code 1 and its label, found \"01\\tTC37\"", line("1\tTC37"))),
        (text.replace("1\tTC37", "TC37"), format!("line {}: expected code 1 and its label, found \"TC37\"", line("1\tTC37"))),
        (text.replace("1\tTC37", "1\tTC27"), format!("line {}: label \"TC27\" is that of code 0 too", line("1\tTC37"))),
        (text.replace("1\tTC37", "1\t*"), format!("line {}: '*' stands for ALL and is no label", line("1\tTC37"))),
        (
            text.replace("1\tTC37", "1\t\\q"),
            format!("line {}: a backslash that begins none of the signs \\\\ \\t \\n \\r \\s \\u{{..}}", line("1\tTC37")),
        ),
        (
            text.replace("1\tTC37", "1\t\\u{+41}"),
            format!("line {}: a backslash that begins none of the signs \\\\ \\t \\n \\r \\s \\u{{..}}", line("1\tTC37")),
        ),
        (
            text.replace("chip\nsizes 3", "chip\nsizes 2"),
            format!("line {}: code 2 is not below the size of dimension \"chip\"", line("2\tTC39")),
        ),
        (text.replace("chip\nsizes 3", "chip\nsizes 3 3"), format!("line {}: sizes are rising numbers from 1 to 65535", line("sizes 3"))),
        (text.replace("chip\nsizes 3", "chip\nsizes 0 3"), format!("line {}: sizes are rising numbers from 1 to 65535", line("sizes 3"))),
        (text.replace("chip\nsizes 3", "chip\nsizes 65536"), format!("line {}: sizes are rising numbers from 1 to 65535", line("sizes 3"))),
        (
            text.replace("chip\nsizes 3\n", "chip\n"),
            format!("line {}: code 0 is not below the size of dimension \"chip\"", line("sizes 3")),
        ),
        (
            text.replace("dimension port", "dimension chip"),
            format!("line {}: a second dimension \"chip\": take one of them out", line("dimension port")),
        ),
        (text.replace("dimension port", "dimension 7"), format!("line {}: \"7\" is no name of a dimension", line("dimension port"))),
        (text.replace("dimension port", "dimension a=b"), format!("line {}: \"a=b\" is no name of a dimension", line("dimension port"))),
        (text.clone() + "\ndimension task\n", "dimension \"task\" has no line with its sizes".into()),
    ] {
        folder.write("l", legend);
        folder.fails("cell bench.cube --legend l", &format!("l: {what}"));
        folder.fails("build bench.csv --legend l -o x.cube", &format!("l: {what}"));
    }
    folder.write("l", b"\xFF").fails("cell bench.cube --legend l", "l: this is no UTF-8 text, and so no legend");
    assert!(folder.run("cell bench.cube --legend none").2.starts_with("cube: none: No such file"));
    assert_eq!(folder.files(), ["bench.csv", "bench.cube", "bench.legend", "l"]);
}

#[test]
fn columns_that_are_not_the_legends() {
    let folder = bench("legend_columns");
    for header in ["chip,port,late", "chip,port,task,late", "chip,port,priority,task,late"] {
        let fields = header.split(',').map(|_| "1").collect::<Vec<_>>().join(",");
        let columns = header.rsplit_once(',').unwrap().0.replace(',', "\", \"");
        let dimensions = "\"chip\", \"port\", \"priority\"";
        let what = format!("x.csv: line 1: the columns are \"{columns}\", but the legend's dimensions are {dimensions}");
        folder.write("x.csv", format!("{header}\n{fields}\n")).fails("build x.csv --legend bench.legend -o x.cube", &what);
    }
}

/// A legend beside a new archive would be taken for its legend.
#[test]
fn an_archive_beside_another_legend() {
    let folder = bench("legend_beside");
    let (archive, legend) = (folder.read("bench.cube"), folder.read("bench.legend"));
    folder.write("five.csv", include_str!("../../examples/five-rows.csv"));
    let what = "bench.legend: it would be taken for the legend of the new archive: give it with --legend, or give the archive another name";
    folder.fails("build five.csv -o bench.cube", what);
    folder.write("x.csv", "chip,port,priority,late\nQ,P00,low,1\n").succeeds("build x.csv --legend q -o x.cube");
    let what = "bench.legend: it stands beside the new archive, but has other labels: give the archive another name";
    folder.fails("build x.csv --legend q -o bench.cube", what);
    folder.fails("build bench.csv --legend both -o both", "both: this file is an input and stays as it is: write to another one");
    assert_eq!((folder.read("bench.cube"), folder.read("bench.legend")), (archive, legend));
}

/// Builds at the same time take turns: no label is lost, and each archive has its own.
#[test]
fn many_builds_at_once() {
    let folder = &folder("legend_at_once");
    std::thread::scope(|threads| {
        for i in 0..16 {
            threads.spawn(move || {
                folder.write(&format!("{i}.csv"), format!("chip,late\nall,1\nown{i},{i}\n"));
                assert_eq!(folder.run(&format!("build {i}.csv --legend l -o {i}.cube")).0, Some(0));
            });
        }
    });
    for i in 0..16 {
        folder.answers(&format!("cell {i}.cube --legend l chip=own{i} --csv"), &format!("chip,sum,count,entry\nown{i},{i},1,1\n"));
    }
}
