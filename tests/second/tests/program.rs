//! The programs, their contour text and their reports.

mod common;

use common::*;
use second::{program, report};
use std::io::Write;
use std::process::{Command, Stdio};

/// The output for the example, whole.
const CONTOURS: &str = "contours=1\nstyle=straight\nlevel=5\nlines=1\nkind=open\nvertices=2\n\
    x=504\ny=0\nx=0\ny=504\n";

/// The report of the example, whole; its figures are worked out in served.rs.
const REPORT: &str = "served=1\nstyle=straight\nlevel=5\nserved=794560\nunserved=254016\n";

fn output(text: impl AsRef<[u8]>) -> String {
    output_of_kind(text, second::SWEPT)
}

/// What the program writes over the mesh of one kind.
fn output_of_kind(text: impl AsRef<[u8]>, kind: u32) -> String {
    String::from_utf8(program(text.as_ref(), kind)).expect("plain text")
}

/// The report over the mesh of one kind.
fn report_of_kind(text: impl AsRef<[u8]>, kind: u32) -> String {
    String::from_utf8(report(text.as_ref(), kind)).expect("plain text")
}

fn refusal(number: u32, at: u32) -> String {
    format!("refused={number}\nat={at}\n")
}

/// Survey text of a survey with tags of its station numbers.
fn text_of(s: &Survey, style: &str, levels: &[i32]) -> String {
    let mut text = format!("survey=1\nstyle={style}\npoints={}\n", s.n());
    for i in 0..s.n() {
        text += &format!("tag=T-{i}\nx={}\ny={}\nz={}\n", s.x[i], s.y[i], s.z[i]);
    }
    text += &format!("levels={}\n", levels.len());
    for level in levels {
        text += &format!("level={level}\n");
    }
    text
}

#[test]
fn the_example_gives_its_contour_text_byte_for_byte() {
    assert_eq!(output(EXAMPLE), CONTOURS);
}

/// T8: its smooth lines equal its straight ones.
#[test]
fn the_style_line_is_the_surveys() {
    let smooth = EXAMPLE.replace("straight", "smooth");
    assert_eq!(output(smooth), CONTOURS.replace("straight", "smooth"));
}

/// T3, T4 and T5 in one text, T5's level without a line; further levels repeat from the level line.
#[test]
fn levels_follow_one_another_and_a_level_without_lines_says_so() {
    let text = text_of(&q([0, 10, 10, 0]), "straight", &[0, 5, 10, 11]);
    let expected = "contours=1\nstyle=straight\n\
        level=0\nlines=0\n\
        level=5\nlines=2\n\
        kind=open\nvertices=2\nx=504\ny=0\nx=0\ny=504\n\
        kind=open\nvertices=2\nx=1024\ny=520\nx=520\ny=1024\n\
        level=10\nlines=2\n\
        kind=open\nvertices=2\nx=1016\ny=0\nx=0\ny=1016\n\
        kind=open\nvertices=2\nx=1024\ny=8\nx=8\ny=1024\n\
        level=11\nlines=0\n";
    assert_eq!(output(text), expected);
}

/// T6, and a level below zero.
#[test]
fn a_closed_line_says_its_kind() {
    let text = text_of(&q5([0, 0, 0, 0, 10]), "straight", &[-1, 5]);
    let expected = "contours=1\nstyle=straight\nlevel=-1\nlines=0\nlevel=5\nlines=1\n\
        kind=closed\nvertices=4\nx=252\ny=252\nx=252\ny=772\nx=772\ny=772\nx=772\ny=252\n";
    assert_eq!(output(text), expected);
}

#[test]
fn a_refused_text_gives_only_its_number_and_line() {
    assert_eq!(output(""), refusal(7, 1));
    assert_eq!(output(&EXAMPLE[..EXAMPLE.len() - 1]), refusal(7, 17));
    assert_eq!(output(format!("{EXAMPLE}\n")), refusal(7, 18));
    assert_eq!(output(EXAMPLE.replace('\n', "\r\n")), refusal(7, 1));
    assert_eq!(
        output(EXAMPLE.replace("points=3", "points=5000")),
        refusal(7, 3)
    );
    assert_eq!(output(EXAMPLE.replace("a7", "A7")), refusal(8, 8));
    assert_eq!(output("\n".repeat(65535)), refusal(7, 1));
    assert_eq!(output("\n".repeat(65536)), refusal(7, 0));
}

/// The reader leaves 3 and 4 to the jobs; the answer is the same two lines, with nothing before them.
#[test]
fn a_survey_that_the_jobs_refuse_gives_only_its_number_and_station() {
    let double = Survey::of(&[(1, 1), (2, 5), (4, 4), (2, 5)], &[0; 4]);
    assert_eq!(output(text_of(&double, "smooth", &[0, 1])), refusal(3, 3));
    let line = Survey::of(&[(1, 1), (2, 2), (4, 4)], &[0; 3]);
    assert_eq!(output(text_of(&line, "straight", &[0])), refusal(4, 0));
    let both = Survey::of(&[(1, 1), (2, 2), (1, 1)], &[0; 3]);
    assert_eq!(output(text_of(&both, "straight", &[0])), refusal(3, 2));
}

#[test]
fn the_example_gives_its_report_byte_for_byte() {
    let smooth = EXAMPLE.replace("straight", "smooth");
    for kind in KINDS {
        assert_eq!(report_of_kind(EXAMPLE, kind), REPORT);
        assert_eq!(
            report_of_kind(&smooth, kind),
            REPORT.replace("straight", "smooth")
        );
    }
}

/// Levels below all heights, between them and above all; the figures are worked out in served.rs.
#[test]
fn levels_of_a_report_follow_one_another() {
    let text = text_of(&q([0, 10, 10, 0]), "straight", &[-7, 5, 10, 11]);
    let expected = "served=1\nstyle=straight\n\
        level=-7\nserved=2097152\nunserved=0\n\
        level=5\nserved=1589120\nunserved=508032\n\
        level=10\nserved=32640\nunserved=2064512\n\
        level=11\nserved=0\nunserved=2097152\n";
    assert_eq!(report_of_kind(text, 0), expected);
}

/// A report is refused just as the contour text of its survey is.
#[test]
fn a_refused_survey_has_no_report() {
    let double = Survey::of(&[(1, 1), (2, 5), (4, 4), (2, 5)], &[0; 4]);
    let line = Survey::of(&[(1, 1), (2, 2), (4, 4)], &[0; 3]);
    for text in [
        String::new(),
        EXAMPLE.replace("a7", "A7"),
        EXAMPLE.replace("level=5", "level=32768"),
        "\n".repeat(65536),
        text_of(&double, "smooth", &[0, 1]),
        text_of(&line, "straight", &[0]),
    ] {
        for kind in KINDS {
            let refused = report_of_kind(&text, kind);
            assert!(refused.starts_with("refused="));
            assert_eq!(refused, output_of_kind(&text, kind));
        }
    }
}

/// A level of a report holds the figures of its own count.
#[test]
fn a_report_holds_the_ground_of_each_level() {
    let mut random = Random::new(26);
    for s in random.surveys(80) {
        let mut levels = vec![-32767, 0, 1, s.z[0], 32767];
        levels.sort();
        levels.dedup();
        for (kind, style) in [(0, 0), (0, 1), (1, 0), (1, 1)] {
            let word = ["straight", "smooth"][style as usize];
            let mut expected = format!("served=1\nstyle={word}\n");
            for &level in &levels {
                let (served, unserved) = served(&s, kind, level, style);
                expected += &format!("level={level}\nserved={served}\nunserved={unserved}\n");
            }
            let text = text_of(&s, word, &levels);
            assert_eq!(report_of_kind(text, kind), expected, "{kind}");
        }
    }
}

/// A level of the program holds the lines of the lines job.
#[test]
fn contour_text_holds_the_lines_of_the_lines_job() {
    let mut random = Random::new(25);
    for s in random.surveys(80) {
        let mut levels = vec![-32767, 0, 1, s.z[0], 32767];
        levels.sort();
        levels.dedup();
        for (kind, style) in [(0, 0), (0, 1), (1, 0), (1, 1)] {
            let word = ["straight", "smooth"][style as usize];
            let mut expected = format!("contours=1\nstyle={word}\n");
            for &level in &levels {
                let lines = lines(&s, kind, level, style);
                expected += &format!("level={level}\nlines={}\n", lines.len());
                for (closed, vertices) in lines {
                    let kind = if closed { "closed" } else { "open" };
                    expected += &format!("kind={kind}\nvertices={}\n", vertices.len());
                    for (x, y) in vertices {
                        expected += &format!("x={x}\ny={y}\n");
                    }
                }
            }
            let text = text_of(&s, word, &levels);
            assert_eq!(output_of_kind(text, kind), expected, "{kind}");
        }
    }
}

/// The programs themselves, of kind 0 and of kind 1.
const PROGRAMS: [&str; 2] = [
    env!("CARGO_BIN_EXE_second"),
    env!("CARGO_BIN_EXE_second_fatter"),
];

/// Those that write a report, of kind 0 and of kind 1.
const REPORTERS: [&str; 2] = [
    env!("CARGO_BIN_EXE_second_served"),
    env!("CARGO_BIN_EXE_second_served_fatter"),
];

/// What a program writes for what stands on its standard input.
fn run(program: &str, text: &[u8]) -> Vec<u8> {
    let mut child = Command::new(program)
        .stdin(Stdio::piped())
        .stdout(Stdio::piped())
        .spawn()
        .expect("the program starts");
    let mut stdin = child.stdin.take().expect("its standard input");
    stdin.write_all(text).expect("it reads everything");
    drop(stdin);
    let output = child.wait_with_output().expect("it ends");
    assert!(output.status.success());
    output.stdout
}

#[test]
fn standard_input_goes_to_standard_output() {
    for program in PROGRAMS {
        assert_eq!(run(program, EXAMPLE.as_bytes()), CONTOURS.as_bytes());
    }
    for program in REPORTERS {
        assert_eq!(run(program, EXAMPLE.as_bytes()), REPORT.as_bytes());
    }
    for program in [PROGRAMS, REPORTERS].concat() {
        assert_eq!(run(program, b""), refusal(7, 1).as_bytes());
        assert_eq!(run(program, &[b'\n'; 65536]), refusal(7, 0).as_bytes());
        assert_eq!(run(program, &[b'\n'; 1 << 20]), refusal(7, 0).as_bytes());
    }
}

/// A kite on its tip, which has (10,0) and (10,20) joined in the mesh of kind 0, and (5,10) and (15,10) in
/// that of kind 1.
#[test]
fn each_program_draws_over_its_own_kind() {
    let kite = Survey::of(&[(5, 10), (15, 10), (10, 0), (10, 20)], &[0, 10, 0, 10]);
    let text = text_of(&kite, "straight", &[5]);
    let contours = |middle: &str| {
        let head = "contours=1\nstyle=straight\nlevel=5\nlines=1\nkind=open\nvertices=3\n";
        format!("{head}x=955\ny=1910\n{middle}\nx=1595\ny=630\n")
    };
    let [swept, fatter] = PROGRAMS.map(|program| run(program, text.as_bytes()));
    assert_eq!(swept, contours("x=1280\ny=1260").as_bytes());
    assert_eq!(fatter, contours("x=1270\ny=1280").as_bytes());
}

/// The same kite with heights for which the figures differ; they are worked out in served.rs.
#[test]
fn each_report_is_over_its_own_kind() {
    let kite = Survey::of(&[(5, 10), (15, 10), (10, 0), (10, 20)], &[0, 0, 10, 10]);
    let text = text_of(&kite, "straight", &[5]);
    let [swept, fatter] = REPORTERS.map(|program| run(program, text.as_bytes()));
    let report = |figures: &str| format!("served=1\nstyle=straight\nlevel=5\n{figures}\n");
    assert_eq!(swept, report("served=2483000\nunserved=793800").as_bytes());
    assert_eq!(fatter, report("served=845000\nunserved=2431800").as_bytes());
}
