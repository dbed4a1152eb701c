//! The edges of 02, No. 6: nights with what they print, written by hand.

/// A name for it, the night, and what is printed.
pub type Edge = (String, Vec<u8>, Vec<u8>);

const KEY: &str = "000102030405060708090a0b0c0d0e0f";
const IV: &str = "0001020304050607";
const BAD: &str = "15\t\n";

fn edge(name: &str, night: impl AsRef<[u8]>, printed: impl AsRef<[u8]>) -> Edge {
    (
        name.into(),
        night.as_ref().to_vec(),
        printed.as_ref().to_vec(),
    )
}

/// A first line with two places, and a newline behind this line and each other.
fn with_two_places(lines: &[impl AsRef<[u8]>]) -> Vec<u8> {
    let mut night = format!("{KEY}\t2\n").into_bytes();
    for line in lines {
        night.extend(line.as_ref());
        night.push(b'\n');
    }
    night
}

/// The line, and a get of "a" to see what it left.
fn seen(name: &str, line: impl AsRef<[u8]>, number: u32, held: &str) -> Edge {
    let night = with_two_places(&[line.as_ref(), b"get\ta"]);
    let got = if held.is_empty() { 6 } else { 0 };
    edge(name, night, format!("{number}\t\n{got}\t{held}\n"))
}

/// A set of "a" with these fields behind its name.
fn set(flags: &str, iv: &str, data: &str) -> String {
    format!("set\ta\t{flags}\t{iv}\t{data}")
}

/// A readable set of "a" of that length, by zeros in front of its flags.
fn set_of_length(length: usize, data: &str) -> String {
    let rest = set("", IV, data).len();
    set(&"0".repeat(length - rest), IV, data)
}

/// What the first line of a night may not be.
fn bad_first_lines() -> Vec<Edge> {
    let long = |length: usize| format!("{KEY}\t{}1", "0".repeat(length - 34));
    let bad: Vec<(&str, String)> = vec![
        ("no place", format!("{KEY}\t0")),
        ("no place, in zeros", format!("{KEY}\t000")),
        ("65 places", format!("{KEY}\t65")),
        ("65 places after zeros", format!("{KEY}\t00065")),
        ("257 places", format!("{KEY}\t257")),
        ("2^32 + 1 places", format!("{KEY}\t4294967297")),
        ("2^64 + 1 places", format!("{KEY}\t18446744073709551617")),
        ("places without digits", format!("{KEY}\t")),
        ("places with a sign", format!("{KEY}\t+1")),
        ("places below none", format!("{KEY}\t-1")),
        ("places in hex", format!("{KEY}\ta")),
        ("a space before places", format!("{KEY}\t 1")),
        ("a space after places", format!("{KEY}\t1 ")),
        ("CR after places", format!("{KEY}\t1\r")),
        ("NUL after places", format!("{KEY}\t1\0")),
        ("no key", "\t1".into()),
        ("key of 30 digits", format!("{}\t1", &KEY[2..])),
        ("key of 31 digits", format!("{}\t1", &KEY[1..])),
        ("key of 33 digits", format!("0{KEY}\t1")),
        ("key of 34 digits", format!("00{KEY}\t1")),
        ("key with a g", format!("g{}\t1", &KEY[1..])),
        ("key with a space", format!(" {}\t1", &KEY[1..])),
        ("key with 0x", format!("0x{}\t1", &KEY[2..])),
        (
            "key with colons",
            "00:11:22:33:44:55:66:77:88:99:aa\t1".into(),
        ),
        ("key alone", KEY.into()),
        ("places alone", "1".into()),
        ("key and places in disorder", format!("1\t{KEY}")),
        ("a third field", format!("{KEY}\t1\t")),
        ("tab in front", format!("\t{KEY}\t1")),
        ("two tabs", format!("{KEY}\t\t1")),
        ("space for tab", format!("{KEY} 1")),
        ("no field", String::new()),
        ("a line that sets", set("0", IV, "41")),
        ("first line of 1,101 bytes", long(1_101)),
        ("first line of 70,000 bytes", long(70_000)),
    ];
    let mut edges = Vec::new();
    for (name, line) in bad {
        // Nothing behind it is answered.
        let night = format!("{line}\n{KEY}\t1\n{}\nget\ta\n", set("0", IV, "41"));
        edges.push(edge(name, night, BAD));
        edges.push(edge(&format!("{name}, at the end"), line, BAD));
    }
    edges
}

fn first_lines() -> Vec<Edge> {
    let mut edges = vec![
        edge("empty input", "", BAD),
        edge("a newline alone", "\n", BAD),
        edge("newlines alone", "\n\n\n", BAD),
        edge("an empty line first", format!("\n{KEY}\t1\nget\ta\n"), BAD),
        edge("no line behind the first", format!("{KEY}\t1"), ""),
        edge("no line behind its newline", format!("{KEY}\t1\n"), ""),
    ];
    let upper = KEY.to_uppercase();
    let long = format!("{KEY}\t{}1", "0".repeat(1_066));
    assert_eq!(long.len(), 1_100);
    for (name, line) in [
        ("zeros before places", format!("{KEY}\t0001")),
        ("64 places", format!("{KEY}\t64")),
        (
            "64 places after zeros",
            format!("{KEY}\t{}64", "0".repeat(40)),
        ),
        ("key in upper case", format!("{upper}\t1")),
        ("first line of 1,100 bytes", long),
    ] {
        let night = format!("{line}\n{}\nget\ta", set("6", IV, "4142"));
        edges.push(edge(name, night, "0\t\n0\t4142\n"));
    }
    edges
}

fn numbers() -> Vec<Edge> {
    let mut edges = vec![
        seen("flags 4294967295", set("4294967295", IV, "41"), 4, ""),
        seen("flags 4294967296", set("4294967296", IV, "41"), 15, ""),
        seen("flags 2^64", set("18446744073709551616", IV, "41"), 15, ""),
        seen(
            "flags 2^64 + 4",
            set("18446744073709551620", IV, "41"),
            15,
            "",
        ),
        seen("flags 42949672950", set("42949672950", IV, "41"), 15, ""),
        seen("flags 16", set("16", IV, "41"), 4, ""),
        seen("flags 8", set("8", IV, "41"), 4, ""),
        seen("flags 012", set("012", IV, "41"), 0, "41"),
        seen("flags 00", set("00", IV, "41"), 0, "41"),
    ];
    let zeros = "0".repeat(1_000);
    for (name, flags, number, held) in [
        ("a thousand zeros", zeros.clone(), 0, "41"),
        ("a thousand zeros and 15", format!("{zeros}15"), 0, "41"),
        (
            "a thousand zeros and 4294967295",
            format!("{zeros}4294967295"),
            4,
            "",
        ),
        (
            "a thousand zeros and 4294967296",
            format!("{zeros}4294967296"),
            15,
            "",
        ),
        ("a thousand nines", "9".repeat(1_000), 15, ""),
    ] {
        edges.push(seen(name, set(&flags, IV, "41"), number, held));
    }
    for flags in [
        "", "+0", "-0", " 0", "0 ", "0x0", "0.", "1e0", "a", "/", ":", "0\r", "0\0", "\u{660}",
    ] {
        let name = format!("flags {flags:?}");
        edges.push(seen(&name, set(flags, IV, "41"), 15, ""));
    }
    edges
}

fn hex() -> Vec<Edge> {
    let full = "5a".repeat(480);
    let mut edges = vec![
        seen(
            "hex in upper case",
            set("6", "00010203040506FF", "ABCDEF"),
            0,
            "abcdef",
        ),
        seen(
            "hex in both cases",
            set("6", "00010203040506fF", "aBCdEf"),
            0,
            "abcdef",
        ),
        edge(
            "no data",
            with_two_places(&[set("0", IV, ""), "get\ta".into()]),
            "0\t\n0\t\n",
        ),
        seen("data of 480 bytes", set("14", IV, &full), 0, &full),
        seen(
            "data of 481 bytes",
            set("14", IV, &format!("{full}00")),
            5,
            "",
        ),
        seen(
            "data of 481 bytes and one digit",
            set("0", IV, &format!("{full}000")),
            15,
            "",
        ),
        seen("no IV", set("0", "", "41"), 1, ""),
        seen("IV of 7 bytes", set("0", &IV[2..], "41"), 1, ""),
        seen("IV of 9 bytes", set("0", &format!("{IV}08"), "41"), 1, ""),
        seen("IV of 500 bytes", set("0", &"00".repeat(500), "41"), 1, ""),
        seen("IV of 15 digits", set("0", &IV[1..], "41"), 15, ""),
        seen("IV of 17 digits", set("0", &format!("{IV}0"), "41"), 15, ""),
        seen("one digit of data", set("0", IV, "4"), 15, ""),
        seen("three digits of data", set("0", IV, "414"), 15, ""),
        seen("data before IV", set("0", "41", IV), 1, ""),
        seen("IV before flags", format!("set\ta\t{IV}\t0\t41"), 15, ""),
    ];
    for bad in ["g", "G", "/", ":", "@", "`", " ", "-", "\r", "\0", "\u{7f}"] {
        for data in [format!("{bad}1"), format!("4{bad}")] {
            let name = format!("data {data:?}");
            edges.push(seen(&name, set("0", IV, &data), 15, ""));
        }
        let name = format!("IV with {bad:?}");
        edges.push(seen(
            &name,
            set("0", &format!("{bad}{}", &IV[1..]), "41"),
            15,
            "",
        ));
    }
    edges
}

fn fields() -> Vec<Edge> {
    let right = set("0", IV, "41");
    let mut edges = vec![
        seen("tab at the end of a set", format!("{right}\t"), 15, ""),
        seen("tab in front of a set", format!("\t{right}"), 15, ""),
        seen("two tabs in a set", right.replacen('\t', "\t\t", 1), 15, ""),
        seen("set without data", format!("set\ta\t0\t{IV}"), 15, ""),
        seen("set without an IV", "set\ta\t0", 15, ""),
        seen("set alone", "set", 15, ""),
        seen("set of six fields", format!("{right}\t41"), 15, ""),
        seen("CR at the end of a set", format!("{right}\r"), 15, ""),
        seen("spaces for tabs", right.replace('\t', " "), 15, ""),
    ];
    let lines: [(&str, &[u8], u32); 32] = [
        ("empty line", b"", 15),
        ("tab alone", b"\t", 15),
        ("four tabs alone", b"\t\t\t\t", 15),
        ("CR alone", b"\r", 15),
        ("NUL alone", b"\0", 15),
        ("0xff alone", b"\xff", 15),
        ("Get", b"Get\ta", 15),
        ("SET", b"SET\ta\t0\t0001020304050607\t42", 15),
        ("REMOVE", b"REMOVE\ta", 15),
        ("gets", b"gets\ta", 15),
        ("ge", b"ge\ta", 15),
        ("removed", b"removed\ta", 15),
        ("remov", b"remov\ta", 15),
        ("space before get", b" get\ta", 15),
        ("space after get", b"get \ta", 15),
        ("NUL after get", b"get\0\ta", 15),
        ("info", b"info\ta", 15),
        ("reset", b"reset", 15),
        ("get alone", b"get", 15),
        ("get of three fields", b"get\ta\ta", 15),
        ("tab at the end of a get", b"get\ta\t", 15),
        ("tab at the end of a remove", b"remove\ta\t", 15),
        ("get of five fields", b"get\ta\t0\t\t", 15),
        ("get of no name", b"get\t", 3),
        ("remove of no name", b"remove\t", 3),
        ("set of no name", b"set\t\t0\t0001020304050607\t", 3),
        ("get of a name with CR", b"get\ta\r", 3),
        ("get of a name with NUL", b"get\ta\0", 3),
        ("get of a name with 0x7f", b"get\ta\x7f", 3),
        ("get of a name with 0xff", b"get\ta\xff", 6),
        ("get of a space", b"get\t ", 6),
        ("remove of a name with 0x80", b"remove\t\x80", 6),
    ];
    for (name, line, number) in lines {
        // "a" is there, and stays as it was.
        let night = with_two_places(&[right.as_bytes(), line, b"get\ta"]);
        edges.push(edge(name, night, format!("0\t\n{number}\t\n0\t41\n")));
    }
    let name = "n".repeat(64);
    for (length, number) in [(64, 6), (65, 3), (200, 3), (1_000, 3)] {
        let name = "n".repeat(length);
        let night = with_two_places(&[format!("get\t{name}")]);
        edges.push(edge(
            &format!("get of {length} bytes"),
            night,
            format!("{number}\t\n"),
        ));
    }
    let night = with_two_places(&[
        format!("set\t{name}\t7\t{IV}\t00ff"),
        format!("get\t{name}"),
    ]);
    edges.push(edge("set of 64 bytes", night, "0\t\n0\t00ff\n"));
    edges
}

fn long_lines() -> Vec<Edge> {
    let mut edges = Vec::new();
    for (length, number) in [
        (1_099, 0),
        (1_100, 0),
        (1_101, 15),
        (1_102, 15),
        (70_000, 15),
    ] {
        let held = if number == 0 { "4142" } else { "" };
        let line = set_of_length(length, "4142");
        assert_eq!(line.len(), length);
        edges.push(seen(&format!("set of {length} bytes"), &line, number, held));
        let mut night = format!("{KEY}\t2\n{line}").into_bytes();
        edges.push(edge(
            &format!("set of {length} bytes at the end"),
            &night,
            format!("{number}\t\n"),
        ));
        // CR counts.
        night.extend(b"\r\n");
        edges.push(edge(
            &format!("set of {length} bytes and CR"),
            night,
            "15\t\n",
        ));
        for word in ["get", "remove"] {
            let name = "n".repeat(length - word.len() - 1);
            let number = if number == 0 { 3 } else { 15 };
            let line = format!("{word}\t{name}");
            edges.push(seen(&format!("{word} of {length} bytes"), line, number, ""));
        }
        // Whole pairs, by a zero in front of the flags where need be.
        let digits = length - set("0", IV, "").len();
        let flags = ["0", "00"][digits % 2];
        let line = set(flags, IV, &"0".repeat(digits - digits % 2));
        assert_eq!(line.len(), length);
        let number = if number == 0 { 5 } else { 15 };
        edges.push(seen(&format!("data in {length} bytes"), line, number, ""));
    }
    // What stands behind the 1,100 bytes is no line of its own.
    let junk = "x".repeat(1_100);
    for tail in ["get\ta", "\tget\ta", "a", "\r"] {
        let night =
            with_two_places(&[set("0", IV, "41"), format!("{junk}{tail}"), "get\ta".into()]);
        edges.push(edge(
            &format!("long line with {tail:?} behind"),
            night,
            "0\t\n15\t\n0\t41\n",
        ));
    }
    let night = with_two_places(&[
        junk.clone(),
        format!("{junk}x"),
        junk.repeat(3),
        "get\ta".into(),
    ]);
    edges.push(edge(
        "long lines in a row",
        night,
        "15\t\n15\t\n15\t\n6\t\n",
    ));
    edges
}

/// What a night leaves from line to line.
fn stories() -> Vec<Edge> {
    let one = |lines: &str| format!("{KEY}\t1\n{lines}");
    vec![
        edge(
            "the example of 02",
            one("set\ta\t0\t0000000000000000\t4142\nget\ta\nremove\tb\n"),
            "0\t\n0\t4142\n6\t\n",
        ),
        edge(
            "the example of 02 without its last newline",
            one("set\ta\t0\t0000000000000000\t4142\nget\ta\nremove\tb"),
            "0\t\n0\t4142\n6\t\n",
        ),
        edge(
            "an empty line before the end",
            one("get\ta\n\n"),
            "6\t\n15\t\n",
        ),
        edge(
            "empty lines between",
            one("\n\nget\ta\n\n\nget\ta"),
            "15\t\n15\t\n6\t\n15\t\n15\t\n6\t\n",
        ),
        edge(
            "one place is taken and freed",
            one(&format!(
                "set\ta\t12\t{IV}\t41\nset\tb\t12\t{IV}\t42\nremove\ta\nget\ta\nset\tb\t12\t{IV}\t42\nget\tb\n"
            )),
            "0\t\n10\t\n0\t\n6\t\n0\t\n0\t42\n",
        ),
        edge(
            "as many entries as places",
            with_two_places(&[
                format!("set\ta\t14\t{IV}\t41"),
                format!("set\tb\t14\t{IV}\t42"),
                format!("set\tc\t0\t{IV}\t43"),
                "get\ta".into(),
                "get\tb".into(),
                "remove\ta".into(),
                format!("set\tc\t15\t{IV}\t43"),
                "get\tc".into(),
            ]),
            "0\t\n0\t\n10\t\n0\t41\n0\t42\n0\t\n0\t\n0\t43\n",
        ),
        edge(
            "names that do not arrive in their order",
            {
                let [low, high] = ["\u{80}", "\u{ff}"];
                let night = format!(
                    "{KEY}\t3\nset\t{high}\t12\t{IV}\t41\nset\t~\t0\t{IV}\t42\nset\t{low}\t12\t{IV}\t43\n\
                     get\t{high}\nget\t~\nget\t{low}\nset\ta\t0\t{IV}\t\nremove\t~\nget\t{low}\nget\t{high}\n\
                     set\ta\t14\t{IV}\t44\nget\ta\nget\t{high}\nremove\ta\nremove\t{high}\nget\t{low}\n"
                );
                // Each letter is one byte.
                night.chars().map(|letter| letter as u8).collect::<Vec<u8>>()
            },
            "0\t\n0\t\n0\t\n0\t41\n0\t42\n0\t43\n10\t\n0\t\n0\t43\n0\t41\n0\t\n0\t44\n0\t41\n0\t\n0\t\n0\t43\n",
        ),
        edge(
            "64 places are full",
            {
                let lines = (0..65).map(|at| format!("set\t{at}\t12\t{IV}\t\n"));
                format!("{KEY}\t64\n{}", lines.collect::<String>())
            },
            format!("{}10\t\n", "0\t\n".repeat(64)),
        ),
        edge(
            "write once",
            one(&format!(
                "set\ta\t1\t{IV}\t41\nset\ta\t1\t{IV}\t42\nset\ta\t0\t{IV}\t42\nremove\ta\nget\ta\n"
            )),
            "0\t\n7\t\n7\t\n7\t\n0\t41\n",
        ),
        edge(
            "write once over another",
            one(&format!("set\ta\t0\t{IV}\t41\nset\ta\t1\t{IV}\t42\nget\ta\n")),
            "0\t\n7\t\n0\t41\n",
        ),
        edge(
            "other flags",
            one(&format!("set\ta\t2\t{IV}\t41\nset\ta\t6\t{IV}\t42\nget\ta\n")),
            "0\t\n9\t\n0\t41\n",
        ),
        edge(
            "a shorter set after a longer one",
            one(&format!("set\ta\t2\t{IV}\t414243\nset\ta\t2\t{IV}\t44\nget\ta\n")),
            "0\t\n0\t\n0\t44\n",
        ),
        edge(
            "a refused line in between",
            one(&format!("set\ta\t2\t{IV}\t41\nset\ta\t2\t{IV}\t4\nset\ta\t2\t\t42\nget\ta\n")),
            "0\t\n15\t\n1\t\n0\t41\n",
        ),
        edge(
            "1 before 3, 3 before 4, 4 before 5",
            one(&format!(
                "set\t\t16\t\t{0}\nset\t\t16\t{IV}\t{0}\nset\ta\t16\t{IV}\t{0}\nset\ta\t0\t{IV}\t{0}\n",
                "00".repeat(481)
            )),
            "1\t\n3\t\n4\t\n5\t\n",
        ),
        edge(
            "a name in UTF-8 and one in Latin-1",
            [
                &format!("{KEY}\t2\nset\tFl\u{f6}te\t6\t{IV}\t01\n").into_bytes()[..],
                format!("set\tCello 3\t6\t{IV}\t02\n").as_bytes(),
                b"get\tFl\xc3\xb6te\nget\tFl\xf6te\nget\tCello 3",
            ]
            .concat(),
            "0\t\n0\t\n0\t01\n6\t\n0\t02\n",
        ),
        edge(
            "names of either case",
            with_two_places(&[
                format!("set\ta\t0\t{IV}\t01"),
                format!("set\tA\t4\t{IV}\t02"),
                "get\ta".into(),
                "get\tA".into(),
            ]),
            "0\t\n0\t\n0\t01\n0\t02\n",
        ),
        edge(
            "CR in a name",
            format!("{KEY}\t1\nset\ta\r\t0\t{IV}\t\nget\ta\r\nget\ta\n"),
            "3\t\n3\t\n6\t\n",
        ),
    ]
}

pub fn table() -> Vec<Edge> {
    let parts = [
        stories(),
        first_lines(),
        bad_first_lines(),
        numbers(),
        hex(),
        fields(),
        long_lines(),
    ];
    parts.into_iter().flatten().collect()
}
