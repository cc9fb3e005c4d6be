//! Inputs for CharIn and IntIn, as records: a byte with the length, then so many bytes.

pub fn records() -> Vec<u8> {
    let record = |input: Vec<u8>| {
        let length = u8::try_from(input.len()).expect("an input fits a record");
        [vec![length], input].concat()
    };
    questions().into_iter().flat_map(record).collect()
}

pub fn read(mut bytes: &[u8]) -> Result<Vec<&[u8]>, String> {
    let mut inputs = vec![];
    while let Some((&length, rest)) = bytes.split_first() {
        let cut = || format!("record {} is cut", inputs.len());
        let (input, rest) = rest.split_at_checked(length as usize).ok_or_else(cut)?;
        inputs.push(input);
        bytes = rest;
    }
    Ok(inputs)
}

fn questions() -> Vec<Vec<u8>> {
    let mut all = vec![vec![]];
    all.extend((0..=u8::MAX).map(|b| vec![b]));
    all.extend(line_ends());
    all.extend(edges_of_a_line());
    all.extend(numbers());
    all.extend(code_points());
    all.extend(forbidden());
    all.extend(sequences());
    all.extend(cut_sequences());
    all.extend(long_lines());
    all.extend(mistakable());
    all
}

/// Where a line ends, and what stands after it.
fn line_ends() -> Vec<Vec<u8>> {
    let inputs: [&[u8]; 20] = [
        b"\n\n", b"\r\n", b"\r\r\n", b" \n", b" \t\r\n", b"5\n", b"5\r\n", b"5\r", b"\r5\n",
        b"x\r\n", b" x\n", b"5\n6\n", b"x\ny\n", b"\n5\n", b"x\n\xFF", b"5\n\xFF\n", b"5\xFF\n",
        b"5 \xFF", b"\xFF5\n", b"\xFF\n5\n",
    ];
    inputs.map(Vec::from).into()
}

/// Each white space character, and each one just outside a run of them, before and after a number.
fn edges_of_a_line() -> Vec<Vec<u8>> {
    let is_white = |c: &char| c.is_whitespace();
    let white: Vec<char> = ('\0'..=char::MAX).filter(is_white).collect();
    let beside = |&c: &char| [c as u32 - 1, c as u32 + 1].map(char::from_u32);
    let outside = white.iter().flat_map(beside).flatten().filter(|c| !is_white(c));
    // No white space for Rust, though it is for others or looks it: file to record separators, the
    // Mongolian vowel separator, the zero width joiner and the byte order mark.
    let alike = "\u{1C}\u{1D}\u{1E}\u{180E}\u{200D}\u{FEFF}".chars();
    let mut all = vec![];
    for c in white.iter().copied().chain(outside).chain(alike) {
        all.push(format!("{c}7\n").into());
        all.push(format!("-7{c}").into());
    }
    let blank: String = white.iter().filter(|&&c| c != '\n').collect();
    all.push(format!("{blank}\n").into());
    all.push(format!("{blank}-42{blank}\n").into());
    all
}

fn numbers() -> Vec<Vec<u8>> {
    let signs = [
        "0", "00", "-0", "+0", "007", "-007", "+5", "-5", "+", "-", "++5", "--5", "+-5", "-+5",
        "5+", "5-", "+ 5", "- 5",
    ];
    let spoiled =
        ["4 2", "4\t2", "4\u{A0}2", "5x", "x5", "5.0", "1e3", "0x10", "1_000", "1,000", "5\0"];
    // Digits and signs of other scripts.
    let foreign = [
        "\u{2212}5", "\u{FF0B}5", "\u{FF0D}5", "\u{FF15}", "\u{665}", "\u{B2}", "\u{2164}",
        "\u{1D7D3}",
    ];
    // Beside the limits of i64 and u64, and past them by the last digit's sum or product.
    let large = [
        "922337203685477580", "9223372036854775806", "9223372036854775807", "9223372036854775808",
        "9223372036854775809", "9223372036854775810", "9999999999999999999",
        "10000000000000000000", "18446744073709551615", "18446744073709551616",
        "92233720368547758070",
    ];
    let signed =
        large.iter().flat_map(|n| ["", "+", "-"].map(|sign| format!("{sign}{n}\n").into()));
    let small = signs.iter().chain(&spoiled).chain(&foreign).map(|n| format!("{n}\n").into());
    small.chain(signed).collect()
}

/// The first and the last code point of each length, and those beside what is no scalar.
fn code_points() -> Vec<Vec<u8>> {
    let chars =
        "\0\u{7F}\u{80}\u{7FF}\u{800}\u{D7FF}\u{E000}\u{FFFD}\u{FFFE}\u{FFFF}\u{10000}\u{10FFFF}";
    chars.chars().map(|c| format!("{c}x\n").into()).collect()
}

/// The first and the last of the forms that UTF-8 leaves out.
fn forbidden() -> Vec<Vec<u8>> {
    let overlong: [&[u8]; 6] = [
        b"\xC0\x80", b"\xC1\xBF", b"\xE0\x80\x80", b"\xE0\x9F\xBF", b"\xF0\x80\x80\x80",
        b"\xF0\x8F\xBF\xBF",
    ];
    let surrogates: [&[u8]; 5] = [
        b"\xED\xA0\x80",
        b"\xED\xAF\xBF",
        b"\xED\xB0\x80",
        b"\xED\xBF\xBF",
        b"\xED\xA0\x80\xED\xB0\x80",
    ];
    let too_large: [&[u8]; 6] = [
        b"\xF4\x90\x80\x80",
        b"\xF7\xBF\xBF\xBF",
        b"\xF8\x88\x80\x80\x80",
        b"\xFB\xBF\xBF\xBF\xBF",
        b"\xFC\x84\x80\x80\x80\x80",
        b"\xFD\xBF\xBF\xBF\xBF\xBF",
    ];
    let forms = overlong.iter().chain(&surrogates).chain(&too_large);
    forms.map(|form| [form, &b"\n"[..]].concat()).collect()
}

/// Leading bytes with a second byte on either side of each limit that one of them sets, and then the
/// later bytes.
fn sequences() -> Vec<Vec<u8>> {
    const LEADING: [u8; 8] = [0xC2, 0xE0, 0xE1, 0xED, 0xEE, 0xF0, 0xF4, 0xF5];
    const SECOND: [u8; 8] = [0x7F, 0x80, 0x8F, 0x90, 0x9F, 0xA0, 0xBF, 0xC0];
    const LATER: [u8; 4] = [0x7F, 0x80, 0xBF, 0xC0];
    let mut all = vec![];
    for first in LEADING {
        for second in SECOND {
            let mut sequence = vec![0x80; length(first)];
            sequence[..2].copy_from_slice(&[first, second]);
            all.push(sequence);
        }
    }
    for later in LATER {
        all.push(vec![0xE1, 0x80, later]);
        all.push(vec![0xF1, 0x80, later, 0x80]);
        all.push(vec![0xF1, 0x80, 0x80, later]);
    }
    all
}

/// The length that a leading byte asks for, were it allowed.
fn length(leading: u8) -> usize {
    match leading {
        0..0xE0 => 2,
        0xE0..0xF0 => 3,
        _ => 4,
    }
}

/// Sequences that end too early or never began.
fn cut_sequences() -> Vec<Vec<u8>> {
    let mut all: Vec<Vec<u8>> = vec![];
    for whole in ["\u{E9}", "\u{20AC}", "\u{1F600}"] {
        for cut in 1..whole.len() {
            let start = &whole.as_bytes()[..cut];
            all.push([b"5", start].concat());
            all.push([start, b"x\n"].concat());
            // The rest comes after the newline, where it belongs to no line that is read.
            all.push([start, b"\n", &whole.as_bytes()[cut..]].concat());
        }
        all.push(format!("{whole}{whole}\n").into());
    }
    let lone: [&[u8]; 6] =
        [b"\x80\n", b"\xBF\n", b"\x80\x80", b"x\x80\n", b"5\xBF\n", b"\xC3\xA9\xA9"];
    all.extend(lone.map(Vec::from));
    all
}

/// Lines as long as a record allows.
fn long_lines() -> Vec<Vec<u8>> {
    let full = u8::MAX as usize;
    vec![
        vec![b' '; full],
        format!("{:>1$}\n", "-8", full - 1).into(),
        format!("{:<1$}", "8", full).into(),
        format!("{:0>1$}\n", "9223372036854775807", full - 1).into(),
        format!("{:0>1$}", "9223372036854775808", full).into(),
        vec![b'9'; full],
        "\u{3000}".repeat(full / 3).into(),
    ]
}

/// Lines that are skipped for another reason than a hasty reader would name, or are not skipped at all.
fn mistakable() -> Vec<Vec<u8>> {
    const ZEROS: &str = "0000000000000000000000000000";
    const DIGITS: &str = "123456789012345678901234567890";
    let large_and_spoiled = [
        "9223372036854775808x\n",
        "-9223372036854775809x\n",
        "9223372036854775808 x\n",
        "9223372036854775808-",
        &format!("{DIGITS}x\n"),
        &format!("{DIGITS} 1\n"),
        &format!("-{DIGITS}\u{FF15}\n"),
    ];
    let large = [
        "9223372036854775808 ",
        "\u{3000}-9223372036854775809\u{3000}\r\n",
        &format!("{DIGITS}\n"),
        &format!("-{DIGITS}"),
    ];
    let zeros = [
        &format!("{ZEROS}5\n"),
        &format!("+{ZEROS}\n"),
        "-0009223372036854775808\n",
        "-0009223372036854775809\n",
        "0009223372036854775807\n",
        "0009223372036854775808\n",
    ];
    let blank = [" \r\n", "\u{3000}\n", "\u{3000}\r\n", "\r\n5\n", "  ", " \u{3000}\t"];
    let no_digits = ["1 2\n", "- 5", "+-5", "+\r\n", " - \n"];
    let bad: [&[u8]; 4] =
        [b"99999999999999999999\xFF\n", b"9223372036854775808 \xFF", b" \xFF\n", b"x\xFF\n"];
    let good = [&large_and_spoiled[..], &large, &zeros, &blank, &no_digits].concat();
    good.into_iter().map(str::as_bytes).chain(bad).map(Vec::from).collect()
}
