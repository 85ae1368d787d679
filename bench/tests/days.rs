//! Days that both books have to answer as the documents say: the small day of docs/DAYFILE.md, the nine worked prices of
//! docs/RULES.md, each refusal and each fault.

use bench::terms::{LAST_ORDER_NUMBER, MAX_FILE};
use bench::{fast, plain};

/// Both books answer a day so.
fn answered(day: &[u8], answers: &str) {
    for (book, answer_day) in [("plain", plain::answer_day as fn(&[u8]) -> Vec<u8>), ("fast", fast::answer_day)] {
        let given = answer_day(day);
        assert_eq!(String::from_utf8_lossy(&given), answers, "the {book} book");
    }
}

/// Lines after the header line, and all answer lines after the first.
fn day(lines: &[&str], answers: &[&str]) {
    let day = format!("call,who,side,kind,price,offset,shares,ref\n{}\n", lines.join("\n"));
    let answers: String = answers.iter().map(|answer| format!("{answer}\n")).collect();
    answered(day.as_bytes(), &format!("line,code,ref,price,shares\n{answers}"));
}

/// A day of member 1, with what the lines from line 4 on are answered.
fn open(lines: &[&str], answers: &[&str]) {
    let lines = [&["A,1,,,,,,", "P,,,O,,,,"], lines].concat();
    let answers = [&["2,A,,,", "3,P,,,"], answers].concat();
    day(&lines, &answers);
}

/// One line of a day before the opening, and its answer without the line's number.
fn line(line: &str, answer: &str) {
    day(&[line], &[&format!("2,{answer}")]);
}

#[test]
fn the_small_day() {
    let page = include_str!("../../docs/DAYFILE.md");
    let example = include_str!("../../examples/day.csv");
    let table = page.split("| Line | Written | Answered | Why |").nth(1).unwrap().split("\n\n").next().unwrap();
    let (mut written, mut answers) = (String::new(), String::from("line,code,ref,price,shares\n"));
    for row in table.lines().skip(2) {
        let cells: Vec<&str> = row.split('|').map(|cell| cell.trim().trim_matches('`')).collect();
        for (text, cell) in [(&mut written, cells[2]), (&mut answers, cells[3])] {
            if !cell.is_empty() {
                text.push_str(cell);
                text.push('\n');
            }
        }
    }
    assert_eq!(written, example);
    assert_eq!(written.lines().count(), 28);
    answered(example.as_bytes(), &answers);
}

// The day of the front page: the columns of the day file and of its answers, before the remarks.
#[test]
fn the_first_day() {
    let page = include_str!("../../README.md");
    let example = include_str!("../../examples/first.csv");
    let (_, block) = page.split_once("    the day file").unwrap();
    let (mut written, mut answers) = (String::new(), String::new());
    for row in block.lines().skip(1).take_while(|row| !row.is_empty()) {
        let (file, told) = row.split_at(50);
        for (text, cell) in [(&mut written, file.trim()), (&mut answers, told.split("  ").next().unwrap().trim())] {
            if !cell.is_empty() {
                text.push_str(cell);
                text.push('\n');
            }
        }
    }
    assert_eq!(written, example);
    answered(example.as_bytes(), &answers);
}

#[test]
fn worked_price_1() {
    open(
        &[
            "T,0,B,,10000,,100,",
            "E,2,B,R,10015,,500,",
            "E,3,B,R,10020,,500,",
            "E,4,B,R,10035,,500,",
            "R,1,S,1,10000,,1000,",
        ],
        &["4,T,,,", "5,E,1,,500", "6,E,2,,500", "7,E,3,,500", "8,F,3,10035,500", "8,F,2,10020,500", "8,R,4,,1000"],
    );
}

#[test]
fn worked_price_2() {
    open(
        &[
            "T,0,B,,10000,,100,",
            "E,2,B,R,10015,,500,",
            "E,3,B,R,10020,,100,",
            "E,4,B,R,10035,,500,",
            "R,1,S,1,10000,,1000,",
            "C,2,,,,,,1",
        ],
        &[
            "4,T,,,",
            "5,E,1,,500",
            "6,E,2,,100",
            "7,E,3,,500",
            "8,F,3,10035,500",
            "8,F,2,10020,100",
            "8,F,1,10015,400",
            "8,R,4,,1000",
            "9,C,1,,100",
        ],
    );
}

#[test]
fn worked_price_3() {
    open(
        &["T,0,S,,10050,,100,", "E,2,S,R,10020,15,10,", "R,1,B,1,10050,,10,"],
        &["4,T,,,", "5,E,1,,10", "6,F,1,10035,10", "6,R,2,,10"],
    );
}

#[test]
fn worked_price_4() {
    open(
        &["T,0,B,,10020,,100,", "E,2,B,R,10040,15,10,", "E,3,B,R,10036,,10,", "R,1,S,1,10000,,20,"],
        &["4,T,,,", "5,E,1,,10", "6,E,2,,10", "7,F,2,10036,10", "7,F,1,10035,10", "7,R,3,,20"],
    );
}

#[test]
fn worked_prices_5_and_6() {
    open(
        &["E,2,B,R,10040,15,10,", "T,0,B,,10040,,100,", "R,1,S,1,990,,5,", "T,0,B,,10039,,100,", "R,1,S,1,990,,5,"],
        &["4,E,1,,10", "5,T,,,", "6,R,2,,0", "6,K,2,,5", "7,T,,,", "8,F,1,10040,5", "8,R,3,,5"],
    );
}

#[test]
fn worked_prices_7_and_8() {
    open(
        &[
            "E,2,B,R,1020,1,10,",
            "E,3,B,H,990,,9,",
            "T,0,B,,990,,100,",
            "R,1,S,1,990,,3,",
            "R,1,S,2,990,,3,",
            "R,1,S,3,990,,3,",
            "T,0,B,,999,,100,",
            "R,1,S,1,990,,4,",
        ],
        &[
            "4,E,1,,10",
            "5,E,2,,9",
            "6,T,,,",
            "7,R,3,,0",
            "7,K,3,,3",
            "8,F,2,990,3",
            "8,R,4,,3",
            "9,F,2,990,3",
            "9,R,5,,3",
            "10,T,,,",
            "11,F,1,1000,4",
            "11,R,6,,4",
        ],
    );
}

#[test]
fn worked_price_9() {
    open(
        &["E,2,B,H,9000,,10,", "R,1,S,1,9000,,5,", "R,1,S,2,9000,,4,", "R,1,S,3,9000,,7,", "S,,,,,,0,4"],
        &[
            "4,E,1,,10",
            "5,R,2,,0",
            "5,K,2,,5",
            "6,F,1,9000,4",
            "6,R,3,,4",
            "7,F,1,9000,6",
            "7,R,4,,6",
            "7,S,4,,1",
            "8,B,4,,0",
            "8,K,4,,1",
        ],
    );
}

#[test]
fn out_of_range() {
    for (good, bad) in [
        ("E,1,B,R,1,1,1,", "E,0,B,R,1,1,1,"),
        ("E,64,B,R,1,1,1,", "E,65,B,R,1,1,1,"),
        ("E,1,S,H,1,,1,", "E,1,S,H,0,,1,"),
        ("E,1,S,D,10000000,,1,", "E,1,S,D,10000001,,1,"),
        ("E,1,B,R,1,100000,1,", "E,1,B,R,1,100001,1,"),
        ("E,1,B,R,1,000000001,1,", "E,1,B,R,1,0,1,"),
    ] {
        line(good, "E,1,,1");
        line(bad, "N,1,,");
    }
    line("E,1,B,R,1,,1000000,", "E,1,,1000000");
    line("E,1,B,R,1,,0,", "N,1,,");
    line("E,1,B,R,1,,1000001,", "N,1,,");
    for call in ['A', 'W'] {
        line(&format!("{call},1,,,,,,"), &format!("{call},,,"));
        line(&format!("{call},64,,,,,,"), &format!("{call},,,"));
        line(&format!("{call},0,,,,,,"), "N,1,,");
        line(&format!("{call},65,,,,,,"), "N,1,,");
    }
    for call in ['X', 'L'] {
        line(&format!("{call},0,,,,,,"), &format!("{call},,,"));
        line(&format!("{call},31,,,,,,"), &format!("{call},,,"));
        line(&format!("{call},32,,,,,,"), "N,1,,");
        line(&format!("{call},999999999,,,,,,"), "N,1,,");
    }
    line("C,0,,,,,,1", "N,1,,");
    line("C,65,,,,,,1", "N,1,,");
    for (told, answer) in [
        ("T,0,B,,1,,1,", "T,,,"),
        ("T,31,S,,10000000,,1000000,", "T,,,"),
        ("T,32,S,,1,,1,", "N,1,,"),
        ("T,0,S,,1,,1000001,", "N,1,,"),
        ("T,0,S,,0,,1,", "N,1,,"),
        ("T,0,S,,,,1,", "N,1,,"),
        ("T,0,S,,10000001,,1,", "N,1,,"),
        ("T,0,S,,,,0,", "T,,,"),
        ("T,0,S,,999999999,,0,", "T,,,"),
        ("T,32,S,,,,0,", "N,1,,"),
    ] {
        line(told, answer);
    }
    for bad in ["R,0,B,1,1,,1,", "R,65,B,1,1,,1,", "R,1,B,1,0,,1,", "R,1,B,1,10000001,,1,", "R,1,B,1,1,,0,"] {
        line(bad, "N,1,,");
    }
    line("R,1,B,1,1,,1000001,", "N,1,,");
}

#[test]
fn not_whole_cent() {
    line("E,1,B,H,1001,,1,", "N,2,,");
    line("E,1,B,D,10005,,1,", "N,2,,");
    line("E,1,B,D,1005,7,1,", "N,2,,");
    line("E,1,B,H,999,,1,", "E,1,,1");
    line("E,1,B,D,1000,,1,", "E,1,,1");
    line("E,1,B,R,1001,,1,", "E,1,,1");
}

#[test]
fn offset_not_rpi() {
    line("E,1,B,H,1000,7,1,", "N,3,,");
    line("E,1,S,D,1000,7,1,", "N,3,,");
    line("E,1,S,D,1000,0,1,", "N,1,,");
    day(&["P,,,C,,,,", "E,1,B,H,1000,7,1,"], &["2,P,,,", "3,N,3,,"]);
}

#[test]
fn wrong_phase() {
    line("R,1,B,1,1,,1,", "N,4,,");
    line("P,,,H,,,,", "N,4,,");
    day(
        &[
            "P,,,O,,,,",
            "P,,,O,,,,",
            "P,,,H,,,,",
            "P,,,H,,,,",
            "E,1,B,R,5,,1,",
            "R,1,B,1,1,,1,",
            "P,,,O,,,,",
            "P,,,C,,,,",
        ],
        &["2,P,,,", "3,N,4,,", "4,P,,,", "5,N,4,,", "6,E,1,,1", "7,N,4,,", "8,P,,,", "9,P,,,"],
    );
    day(
        &[
            "E,1,B,R,5,,1,",
            "P,,,C,,,,",
            "P,,,O,,,,",
            "P,,,H,,,,",
            "P,,,C,,,,",
            "E,1,B,R,5,,1,",
            "C,1,,,,,,1",
            "A,1,,,,,,",
        ],
        &["2,E,1,,1", "3,P,,,", "4,N,4,,", "5,N,4,,", "6,N,4,,", "7,N,4,,", "8,C,1,,1", "9,A,,,"],
    );
    day(&["P,,,O,,,,", "P,,,H,,,,", "P,,,C,,,,"], &["2,P,,,", "3,P,,,", "4,P,,,"]);
}

#[test]
fn not_approved() {
    open(
        &["R,2,B,1,1,,1,", "R,1,B,1,1,,1,", "W,1,,,,,,", "R,1,B,1,1,,1,", "A,1,,,,,,", "A,1,,,,,,", "R,1,B,1,1,,1,"],
        &["4,N,5,,", "5,R,1,,0", "5,K,1,,1", "6,W,,,", "7,N,5,,", "8,A,,,", "9,A,,,", "10,R,2,,0", "10,K,2,,1"],
    );
}

#[test]
fn book_full() {
    let mut lines = vec!["E,1,B,H,1000,,1,"; 257];
    lines.extend(["C,1,,,,,,256", "E,2,S,H,1000,,2,", "E,2,S,H,1000,,2,", "R,1,S,2,1000,,1,", "E,2,S,H,1000,,2,"]);
    let mut answers: Vec<String> = (1..=256).map(|number| format!("{},E,{number},,1", number + 3)).collect();
    let behind =
        ["260,N,7,,", "261,C,256,,1", "262,E,257,,2", "263,N,7,,", "264,F,1,1000,1", "264,R,258,,1", "265,E,259,,2"];
    answers.extend(behind.map(str::to_string));
    open(&lines, &answers.iter().map(String::as_str).collect::<Vec<_>>());
}

#[test]
fn no_such_order() {
    line("C,1,,,,,,0", "N,9,,");
    day(
        &["E,1,B,R,5,,1,", "C,2,,,,,,1", "C,1,,,,,,2", "C,1,,,,,,001", "C,1,,,,,,1", "C,1,,,,,,999999999"],
        &["2,E,1,,1", "3,N,9,,", "4,N,9,,", "5,C,1,,1", "6,N,9,,", "7,N,9,,"],
    );
    open(
        &["E,1,B,H,1000,,1,", "R,1,S,2,1,,2,", "C,1,,,,,,1", "C,1,,,,,,2"],
        &["4,E,1,,1", "5,F,1,1000,1", "5,R,2,,1", "5,K,2,,1", "6,N,9,,", "7,N,9,,"],
    );
}

#[test]
fn slips_full() {
    let mut lines = vec!["R,1,B,3,1,,7,"; 33];
    lines.extend(["E,1,S,H,1,,9,", "R,1,B,3,1,,9,", "R,1,B,2,1,,4,", "S,,,,,,3,32", "R,1,B,3,1,,5,", "R,1,B,3,1,,5,"]);
    let mut answers = Vec::new();
    for number in 1..=32 {
        answers.push(format!("{},R,{number},,0", number + 3));
        answers.push(format!("{},S,{number},,7", number + 3));
    }
    let behind = [
        "36,N,10,,",
        "37,E,33,,9",
        "38,N,10,,",
        "39,F,33,1,4",
        "39,R,34,,4",
        "40,B,32,,3",
        "40,K,32,,4",
        "41,F,33,1,5",
        "41,R,35,,5",
        "42,R,36,,0",
        "42,S,36,,5",
    ];
    answers.extend(behind.map(str::to_string));
    open(&lines, &answers.iter().map(String::as_str).collect::<Vec<_>>());
}

#[test]
fn no_waiting_slip_and_more_than_slip() {
    open(
        &["R,1,B,3,1,,7,", "S,,,,,,0,2", "S,,,,,,8,1", "S,,,,,,999999999,1", "P,,,C,,,,", "S,,,,,,7,1", "S,,,,,,0,1"],
        &["4,R,1,,0", "4,S,1,,7", "5,N,11,,", "6,N,13,,", "7,N,13,,", "8,P,,,", "9,B,1,,7", "10,N,11,,"],
    );
}

#[test]
fn numbers_do_not_run_out_in_a_file() {
    assert!(MAX_FILE < LAST_ORDER_NUMBER as usize);
}

#[test]
fn display_comes_before_number_and_price_before_both() {
    open(
        &[
            "E,2,B,R,1010,,1,",
            "E,2,B,H,1010,,1,",
            "E,2,B,D,1010,,1,",
            "E,2,B,R,1011,,1,",
            "E,2,B,R,1050,10,1,",
            "E,2,B,R,1010,90,1,",
            "T,0,B,,1000,,100,",
            "R,1,S,1,1,,9,",
        ],
        &[
            "4,E,1,,1",
            "5,E,2,,1",
            "6,E,3,,1",
            "7,E,4,,1",
            "8,E,5,,1",
            "9,E,6,,1",
            "10,T,,,",
            "11,F,4,1011,1",
            "11,F,3,1010,1",
            "11,F,1,1010,1",
            "11,F,2,1010,1",
            "11,F,5,1010,1",
            "11,F,6,1010,1",
            "11,R,7,,6",
            "11,K,7,,3",
        ],
    );
}

#[test]
fn identifier_and_shown_quotes() {
    day(
        &[
            "E,2,B,R,1020,15,1,",
            "E,2,S,R,1020,15,1,",
            "E,2,B,H,5000,,1,",
            "I,,,,,,,",
            "T,3,B,,1000,,99,",
            "I,,,,,,,",
            "T,3,B,,1000,,100,",
            "I,,,,,,,",
            "T,4,S,,1021,,100,",
            "I,,,,,,,",
            "X,3,,,,,,",
            "I,,,,,,,",
            "X,4,,,,,,",
            "I,,,,,,,",
            "L,3,,,,,,",
            "L,4,,,,,,",
            "T,5,S,,1020,,100,",
            "T,5,B,,984,,100,",
            "I,,,,,,,",
            "T,3,B,,,,0,",
            "I,,,,,,,",
        ],
        &[
            "2,E,1,,1", "3,E,2,,1", "4,E,3,,1", "5,I,0,,", "6,T,,,", "7,I,0,,", "8,T,,,", "9,I,1,,", "10,T,,,",
            "11,I,3,,", "12,X,,,", "13,I,2,,", "14,X,,,", "15,I,0,,", "16,L,,,", "17,L,,,", "18,T,,,", "19,T,,,",
            "20,I,1,,", "21,T,,,", "22,I,0,,",
        ],
    );
}

#[test]
fn a_floor_decides_where_the_offset_is_larger_than_the_offer() {
    open(
        &["E,2,S,R,1500,100000,5,", "T,0,S,,2000,,100,", "R,1,B,1,2000,,5,"],
        &["4,E,1,,5", "5,T,,,", "6,F,1,1500,5", "6,R,2,,5"],
    );
}

#[test]
fn file_without_names_line() {
    let fault = "line,code,ref,price,shares\n1,N,20,,0\n";
    for day in [
        "",
        "\n",
        "call,who,side,kind,price,offset,shares,re\n",
        "call,who,side,kind,price,offset,shares,refs\n",
        "call,who,side,kind,price,offset,shares,ref\r\nI,,,,,,,\r\n",
        "\ncall,who,side,kind,price,offset,shares,ref\n",
        "Call,who,side,kind,price,offset,shares,ref\nI,,,,,,,\n",
    ] {
        answered(day.as_bytes(), fault);
    }
    for day in ["call,who,side,kind,price,offset,shares,ref", "call,who,side,kind,price,offset,shares,ref\n"] {
        answered(day.as_bytes(), "line,code,ref,price,shares\n");
    }
}

#[test]
fn file_too_long() {
    let mut day = b"call,who,side,kind,price,offset,shares,ref\nI,,,,,,,\n".to_vec();
    day.resize(MAX_FILE, b'I');
    answered(&day, "line,code,ref,price,shares\n2,I,0,,\n3,N,21,,0\n");
    day.push(b'\n');
    answered(&day, "line,code,ref,price,shares\n1,N,25,,0\n");
    answered(&vec![b'\n'; MAX_FILE + 1], "line,code,ref,price,shares\n1,N,25,,0\n");
    answered(&vec![b'\n'; MAX_FILE], "line,code,ref,price,shares\n1,N,20,,0\n");
}

#[test]
fn a_last_line_may_lack_its_end() {
    answered(
        b"call,who,side,kind,price,offset,shares,ref\n\nI,,,,,,,",
        "line,code,ref,price,shares\n2,N,21,,0\n3,I,0,,\n",
    );
}

#[test]
fn not_a_line() {
    for not_a_line in ["", "I", "I,,,,,,", "I,,,,,,,,", ",,,,,,,,", "Q,,,,,,", "A,x,,,,,"] {
        day(&[not_a_line, "I,,,,,,,"], &["2,N,21,,0", "3,I,0,,"]);
    }
    line(&format!("I,,,,,,,{}", "x".repeat(112)), "N,22,,9");
    line(&format!("I,,,,,,,{}", "x".repeat(113)), "N,21,,0");
    line(&format!("E,{},B,R,1,,1,", "0".repeat(107)), "N,24,,3");
    line(&format!("E,{},B,R,1,,1,", "0".repeat(108)), "N,24,,3");
    line(&format!("E,{},B,R,1,,1,", "0".repeat(109)), "N,21,,0");
}

#[test]
fn blank_or_filled() {
    for (wrong, place) in [
        (",1,,,,,,", 1),
        (",,,,,,,", 1),
        ("E,,B,R,1,,1,", 3),
        ("E,1,,R,1,,1,", 5),
        ("E,12,B,,1,,1,", 8),
        ("E,1,B,R,,,1,", 9),
        ("E,1,B,R,1,,,", 12),
        ("E,1,B,R,1,,1,7", 14),
        ("C,1,,,,,,", 10),
        ("C,1,B,,,,,1", 5),
        ("R,1,B,1,1,1,1,", 11),
        ("T,1,B,D,1,,1,", 7),
        ("T,1,B,,1,,,", 11),
        ("P,,,,,,,", 5),
        ("P,1,,O,,,,", 3),
        ("P,,,O,,,1,", 9),
        ("A,,,,,,,", 3),
        ("W,1,,,,1,,", 8),
        ("X,1,,,,,,1", 10),
        ("L,1,,x,,,,", 6),
        ("S,,,,,,,", 8),
        ("S,,,,,,1,", 10),
        ("S,,,,,1,1,1", 7),
        ("I,,,,,,,0", 9),
        ("I,\r,,,,,,", 3),
    ] {
        line(wrong, &format!("N,22,,{place}"));
    }
}

#[test]
fn not_a_letter() {
    for (wrong, place) in [
        ("Q,,,,,,,", 1),
        ("e,1,B,R,1,,1,", 1),
        ("EE,1,B,R,1,,1,", 1),
        ("1,x,y,z,,,,", 1),
        ("E,1,b,R,1,,1,", 5),
        ("E,1,BS,R,1,,1,", 5),
        ("E,1,B,1,1,,1,", 7),
        ("E,1,B,O,1,,1,", 7),
        ("R,1,B,H,1,,1,", 7),
        ("R,1,B,4,1,,1,", 7),
        ("R,1,B,01,1,,1,", 7),
        ("T,1,O,,1,,1,", 5),
        ("P,,,D,,,,", 5),
        ("P,,,OO,,,,", 5),
    ] {
        line(wrong, &format!("N,23,,{place}"));
    }
}

#[test]
fn not_a_number() {
    for (wrong, place) in [
        ("E,x,B,R,1,,1,", 3),
        ("E,-1,B,R,1,,1,", 3),
        ("E,1,B,R,1.5,,1,", 9),
        ("E,1,B,R,1, ,1,", 11),
        ("E,1,B,R,1,1x,1,", 11),
        ("E,1,B,R,1,,+1,", 12),
        ("E,1,B,R,1,,0000000001,", 12),
        ("C,1,,,,,,1\r", 10),
        ("T,1,B,,x,,1,", 8),
        ("S,,,,,,1,:", 10),
        ("S,,,,,,/,1", 8),
    ] {
        line(wrong, &format!("N,24,,{place}"));
    }
    line("E,000000001,B,R,000000001,000000001,000000001,", "E,1,,1");
}

#[test]
fn the_leftmost_wrong_field_decides() {
    line("E,x,b,,,,,1", "N,24,,3");
    line("E,1,b,,x,,,1", "N,23,,5");
    line("E,1,B,,x,,,1", "N,22,,7");
    line("R,1,B,1,1,9,x,", "N,22,,11");
    line("C,1,,,,,x,x", "N,22,,9");
}
