//! Readers of texts: single cases.

use reference::lists::Refusal;
use reference::random::{self, Rng};
use reference::text::*;

fn refused<T>(number: u32, place: u64) -> Result<T, Refusal> {
    Err(Refusal { number, place })
}

#[test]
fn numbers() {
    assert_eq!(number(b"0"), Some(0));
    assert_eq!(number(b"4294967295"), Some(u32::MAX));
    for bad in [&b""[..], b"00", b"01", b"4294967296", b"9999999999", b"12345678901", b"+1", b"-1", b" 1", b"1 ", b"1.0", b"\xb2"] {
        assert_eq!(number(bad), None);
    }
}

#[test]
fn lines() {
    assert_eq!(gr_lines(b"").len(), 0);
    assert_eq!(gr_lines(b"\n"), vec![b""]);
    assert_eq!(gr_lines(b"c\n\nc"), vec![&b"c"[..], b"", b"c"]);
    assert_eq!(csv_lines(b"").len(), 0);
    assert_eq!(csv_lines(b"\r\n"), vec![b""]);
    assert_eq!(csv_lines(b"a\r\nb"), vec![b"a", b"b"]);
    assert_eq!(csv_lines(b"a\r\r\nb\n\r\nc\r"), vec![&b"a\r"[..], b"b\n", b"c\r"]);
}

#[test]
fn network_texts() {
    let read = |text: &str| parse_network(text.as_bytes());
    assert!(read("c\nc \nc x\np sp 2 2\nc  \na 1 2 3\nc\na 2 1 3\nc end").is_ok());
    assert_eq!(read(""), refused(5, 1));
    assert_eq!(read("\n"), refused(3, 1));
    assert_eq!(read("c\n"), refused(5, 2));
    assert_eq!(read("c"), refused(5, 2));
    assert_eq!(read("cx\n"), refused(3, 1));
    assert_eq!(read("c\r\n"), refused(3, 1));
    assert_eq!(read(" c\n"), refused(3, 1));
    assert_eq!(read("a 0 0 0\n"), refused(5, 1));
    assert_eq!(read("a 1 1\n"), refused(3, 1));
    assert_eq!(read("p sp 2  2\n"), refused(3, 1));
    assert_eq!(read("p sp 2 2 \n"), refused(3, 1));
    assert_eq!(read("p sp 2 2\r\n"), refused(3, 1));
    assert_eq!(read("p  sp 2 2\n"), refused(3, 1));
    assert_eq!(read("p max 2 2\n"), refused(3, 1));
    for head in ["0 2", "513 2", "2 0", "2 1", "2 3", "2 2049", "2 2050", "4294967295 2", "2 4294967295"] {
        assert_eq!(read(&format!("p sp {head}\n")), refused(6, 1), "{head}");
    }
    assert_eq!(read("p sp 2 2\np sp 0 1\n"), refused(5, 2));
    assert_eq!(read("p sp 2 2\np sp 0 x\n"), refused(3, 2));
    assert_eq!(read("p sp 2 2\n"), refused(11, 2));
    assert_eq!(read("p sp 2 2"), refused(11, 2));
    assert_eq!(read("p sp 2 2\na 3 3 0\n"), refused(7, 2));
    assert_eq!(read("p sp 2 2\na 0 1 0\n"), refused(7, 2));
    assert_eq!(read("p sp 2 2\na 2 2 0\n"), refused(9, 2));
    assert_eq!(read("p sp 2 2\na 1 2 0\n"), refused(9, 2));
    assert_eq!(read("p sp 2 2\na 1 2 1\n"), refused(11, 3));
    assert_eq!(read("p sp 2 2\na 1 2 1\na 1 2 1\n"), refused(10, 3));
    assert_eq!(read("p sp 2 2\na 1 2 1\na 2 1 2\n"), refused(10, 3));
    assert_eq!(read("p sp 2 2\na 1 2 1\na 2 1 0\n"), refused(9, 3));
    assert_eq!(read("p sp 2 2\na 1 2 1\na 2 2 1\n"), refused(10, 3));
    assert_eq!(read("p sp 2 2\na 1 2 1\na 3 1 1\n"), refused(7, 3));
    assert_eq!(read("p sp 2 2\na 1 2 1\na 2 1 1\na 1 2 1\n"), refused(11, 4));
    assert_eq!(read("p sp 2 2\na 1 2 1\na 2 1 1\na 1 2 0\n"), refused(9, 4));
    assert_eq!(read("p sp 2 2\na 1 2 1\na 2 1 1\na 1 2 1\nx"), refused(11, 4));
    assert_eq!(read("p sp 2 2\na 1 2 1\na 2 1 1\n\n"), refused(3, 4));
    assert_eq!(read("p sp 2 2\na 1 2 01\n"), refused(3, 2));
}

/// A leg from a node to itself is the same line twice.
#[test]
fn loops_in_texts() {
    let read = |text: &str| parse_network(text.as_bytes());
    let lists = |nodes: u32, firsts: &[u32], seconds: &[u32], lengths: &[u32]| {
        Ok(NetworkLists { nodes, firsts: firsts.to_vec(), seconds: seconds.to_vec(), lengths: lengths.to_vec() })
    };
    assert_eq!(read("p sp 1 2\na 1 1 1000000\na 1 1 1000000\n"), lists(1, &[1], &[1], &[1_000_000]));
    let basin = "p sp 2 6\na 1 1 10\nc\na 1 1 10\na 1 2 4\na 2 1 4\na 1 1 10\na 1 1 10";
    assert_eq!(read(basin), lists(2, &[1, 1, 1], &[1, 2, 1], &[10, 4, 10]));
    assert_eq!(read("p sp 2 2\na 1 1 10\na 1 1 9\n"), refused(10, 3));
    assert_eq!(read("p sp 2 2\na 1 1 10\na 2 2 10\n"), refused(10, 3));
    assert_eq!(read("p sp 2 2\na 1 1 10\na 1 2 10\n"), refused(10, 3));
    assert_eq!(read("p sp 1 2\na 1 1 10\na 2 2 10\n"), refused(7, 3));
    assert_eq!(read("p sp 1 2\na 1 1 10\n"), refused(11, 3));
    assert_eq!(read("p sp 1 2\na 1 1 10\na 1 1 10\na 1 1 10\n"), refused(11, 4));
}

#[test]
fn report_texts() {
    let read = |text: &str| parse_reports(text.as_bytes(), 2, &[1, 1], &[2, 2], &[5, 9]);
    assert_eq!(read("set,leg,offset").map(|lists| lists.sets.len()), Ok(0));
    assert_eq!(read("set,leg,offset\r\n0,1,5\r\n").map(|lists| lists.offsets), Ok(vec![5]));
    assert_eq!(read(""), refused(4, 1));
    assert_eq!(read("set,leg,offset\n0,1,5\r\n"), refused(4, 1));
    assert_eq!(read("set,leg,offset\r"), refused(4, 1));
    assert_eq!(read("\"set\",leg,offset\r\n"), refused(4, 1));
    assert_eq!(read("set,leg,offset\r\n\r\n"), refused(3, 2));
    assert_eq!(read("set,leg,offset\r\n0,1\r\n"), refused(3, 2));
    assert_eq!(read("set,leg,offset\r\n0,1,1,\r\n"), refused(3, 2));
    assert_eq!(read("set,leg,offset\r\n0,1,1\n0,1,1\r\n"), refused(3, 2));
    assert_eq!(read("set,leg,offset\r\n0,1,1\r"), refused(3, 2));
    assert_eq!(read("set,leg,offset\r\n0,\"1\",1\r\n"), refused(3, 2));
    assert_eq!(read("set,leg,offset\r\n0, 1,1\r\n"), refused(3, 2));
    assert_eq!(read("set,leg,offset\r\n0,1,1\r\n32,9,99\r\n"), refused(12, 3));
    assert_eq!(read("set,leg,offset\r\n31,0,99\r\n"), refused(13, 2));
    assert_eq!(read("set,leg,offset\r\n31,3,0\r\n"), refused(13, 2));
    assert_eq!(read("set,leg,offset\r\n31,1,6\r\n"), refused(14, 2));
    // Sets 1 to 30 are as empty as set 0; the lowest that differs is 31.
    assert_eq!(read("set,leg,offset\r\n31,1,5\r\n"), refused(16, 31));
    assert_eq!(read("set,leg,offset\r\n0,1,5\r\n1,1,5\r\n3,1,5\r\n"), refused(16, 2));
    let many = |count: usize, last: &str| format!("set,leg,offset\r\n{}{last}", "0,1,0\r\n".repeat(count));
    assert_eq!(read(&many(8_192, "")).map(|lists| lists.sets.len()), Ok(8_192));
    assert_eq!(read(&many(8_192, "0,1,0\r\n")), refused(15, 8_194));
    assert_eq!(read(&many(8_192, "1,1,0\r\n")), refused(15, 8_194));
    assert_eq!(read(&many(8_192, "1,1,6\r\n")), refused(14, 8_194));
    assert_eq!(read(&many(8_192, "0,1,0\r\nx")), refused(15, 8_194));
    // The lists' faults come before those of lines, but not before 1.
    let bad = |text: &[u8]| parse_reports(text, 2, &[1, 1], &[2, 1], &[5, 0]);
    assert_eq!(bad(b""), refused(9, 1));
    assert_eq!(bad(&[b'x'; 60_001]), refused(1, 0));
    assert_eq!(parse_reports(b"", 2, &[1, 1], &[2, 2], &[5]), refused(2, 0));
}

#[test]
fn threshold_texts() {
    let read = |text: &str| parse_thresholds(text.as_bytes());
    assert_eq!(read("threshold\r\n0\r\n4294967295"), Ok(vec![0, u32::MAX]));
    assert_eq!(read(""), refused(4, 1));
    assert_eq!(read("threshold"), refused(18, 2));
    assert_eq!(read("threshold\r\n"), refused(18, 2));
    assert_eq!(read("threshold\r\n\r\n"), refused(3, 2));
    assert_eq!(read("threshold\r\n4294967296\r\n"), refused(3, 2));
    assert_eq!(read("threshold\r\n5\r\n5\r\n"), refused(19, 3));
    assert_eq!(read("threshold\r\n5\r\n4\r\nx"), refused(19, 3));
    let rows: String = (1..=64).map(|k| format!("{k}\r\n")).collect();
    assert_eq!(read(&format!("threshold\r\n{rows}1")), refused(18, 66));
    assert_eq!(read(&format!("threshold\r\n{rows}01")), refused(3, 66));
    assert_eq!(read(&format!("threshold\r\n{rows}\r\n")), refused(3, 66));
}

#[test]
fn sizes_near_the_limit() {
    let mut rng = Rng::new(31);
    let input = random::network_of(&mut rng, 40, 60, 1_000_000);
    let text = random::network_text(&mut rng, &input);
    for size in 59_990..60_010 {
        let text = random::stretch_gr(&text, size);
        assert_eq!(text.len(), size);
        let told = parse_network(&text);
        assert_eq!(told.err(), (size > 60_000).then_some(Refusal { number: 1, place: 0 }));
        let rows = random::long_reports(&mut rng, 1_000_000, size);
        assert_eq!(rows.len(), size);
        let told = parse_reports(&rows, 2, &[1], &[2], &[1_000_000]);
        assert_eq!(told.err(), (size > 60_000).then_some(Refusal { number: 1, place: 0 }));
    }
}

#[test]
fn answer_lists() {
    let mut short = [7; 1];
    let (mut b, mut c) = ([7; 3], [7; 3]);
    let text = b"p sp 2 4\na 1 2 3\na 2 1 3\na 2 1 4\na 1 2 4\n";
    assert_eq!(read_network(text, &mut short, &mut b, &mut c), refused(2, 0));
    assert_eq!((short, b, c), ([7; 1], [7; 3], [7; 3]));
    let mut a = [7; 2];
    // A bad line comes before a short answer list.
    assert_eq!(read_network(&text[..39], &mut short, &mut b, &mut c).map_err(|r| r.number), Err(3));
    assert_eq!(read_network(text, &mut a, &mut b, &mut c), Ok((2, 2)));
    assert_eq!((a, b, c), ([1, 2], [2, 1, 7], [3, 4, 7]));
    let rows = b"set,leg,offset\r\n0,1,1\r\n1,1,2\r\n";
    let (mut s, mut l, mut o) = ([9; 3], [9; 3], [9; 1]);
    let net = (2, [1], [2], [3]);
    assert_eq!(read_reports(rows, net.0, &net.1, &net.2, &net.3, &mut s, &mut l, &mut o), refused(2, 0));
    assert_eq!((s, l, o), ([9; 3], [9; 3], [9; 1]));
    let unlike = b"set,leg,offset\r\n0,1,1\r\n2,1,2\r\n";
    assert_eq!(read_reports(unlike, net.0, &net.1, &net.2, &net.3, &mut s, &mut l, &mut o), refused(16, 1));
    let mut o = [9; 2];
    assert_eq!(read_reports(rows, net.0, &net.1, &net.2, &net.3, &mut s, &mut l, &mut o), Ok((2, 2)));
    assert_eq!((s, l, o), ([0, 1, 9], [1, 1, 9], [1, 2]));
    let mut t = [9; 2];
    assert_eq!(read_thresholds(b"threshold\r\n1\r\n2\r\n3\r\n", &mut t), refused(2, 0));
    assert_eq!(read_thresholds(b"threshold\r\n1", &mut t), Ok(1));
    assert_eq!(t, [1, 9]);
}
