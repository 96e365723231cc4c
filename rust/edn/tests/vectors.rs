//! Known answers: the examples of the customer's document and of the rulings on it, and RFC 8949 appendix A, by the text and by the bytes.
//! Both the library and the plain model must give them.
mod model;

fn hex(s: &str) -> Vec<u8> {
    let s: Vec<u8> = s.bytes().filter(|b| !b.is_ascii_whitespace()).collect();
    s.chunks(2).map(|d| u8::from_str_radix(std::str::from_utf8(d).unwrap(), 16).unwrap()).collect()
}

#[track_caller]
fn reads(text: &str, bytes: &str) {
    let want = hex(bytes);
    assert_eq!(edn::read(text), Ok(want.clone()), "{text}");
    assert_eq!(model::encode(text.as_bytes()), Ok(want), "model: {text}");
}

#[track_caller]
fn refused(text: &str, number: u8, place: usize) {
    let e = edn::read(text).expect_err(text);
    assert_eq!((e.number(), e.place()), (number, place), "{text}");
    let e = model::encode(text.as_bytes()).expect_err(text);
    assert_eq!((e.number, e.place), (number, place), "model: {text}");
}

#[track_caller]
fn prints(bytes: &str, text: &str) {
    let b = hex(bytes);
    assert_eq!(edn::print(&b).as_deref(), Ok(text), "{bytes}");
    assert_eq!(model::text_of(&b).as_deref(), Ok(text.as_bytes()), "model: {bytes}");
    assert_eq!(edn::check(&b), Ok(()), "{bytes}");
}

#[track_caller]
fn bad(bytes: &str, number: u8, place: usize) {
    let b = hex(bytes);
    for e in [edn::check(&b).expect_err(bytes), edn::print(&b).expect_err(bytes), edn::look_up(&b, &[0]).expect_err(bytes)] {
        assert_eq!((e.number(), e.place()), (number, place), "{bytes}");
    }
    let e = model::check(&b).expect_err(bytes);
    assert_eq!((e.number, e.place), (number, place), "model: {bytes}");
}

/// Reads so, and prints as the same line.
#[track_caller]
fn both(text: &str, bytes: &str) {
    reads(text, bytes);
    prints(bytes, &format!("{text}\n"));
}

#[test]
fn document() {
    reads("", "");
    assert_eq!(edn::print([]).as_deref(), Ok(""));
    both("24", "1818");
    both("23", "17");
    both("-18446744073709551616", "3bffffffffffffffff");
    refused("-18446744073709551617", 7, 0);
    both("5_1", "190005");
    refused("24_i", 9, 0);
    reads("h'03 / cat / 01'", "420301");
    reads("b64'AQI'", "420102");
    refused("b64'AQJ='", 8, 0);
    both("65(h'0102')", "d841420102");
    refused("65(h'010203')", 13, 0);
    refused("[_ 1, ...]", 5, 6);
    both("{1: true, 2: [_ ]}", "a201f5029fff");
    refused("(_ h'01', \"a\")", 12, 10);
    both("''_", "5fff");
    refused("'a'_", 9, 0);
    reads("<<1, 2>>", "420102");
    reads(&("[".repeat(16) + &"]".repeat(16)), &("81".repeat(15) + "80"));
    refused(&("[".repeat(17) + &"]".repeat(17)), 10, 16);
    bad("9bffffffffffffffff", 15, 9);
    bad("f818", 16, 0);
    reads("{1: 64(h'07'), 2: 64(h'03')}", "a201d840410702d8404103");
    assert_eq!(edn::correct(&hex("82016161"), &[0, 1], "h'0203'"), Ok(hex("8201420203")));
    // the slips
    reads("[_1]", "990000");
    bad("bb8000000000000000", 15, 9);
    both("65((_ h'01', h'02'))", "d8415f41014102ff");
}

#[rustfmt::skip]
#[test]
fn rulings_on_tokens() {
    for (text, number, place) in [
        ("01", 11, 1), ("0x", 4, 1), ("0xg", 4, 1), ("0b2", 4, 1), ("0o78", 11, 3), ("0b1e5", 4, 3), ("<<<1>>", 3, 2), ("-0", 3, 0), ("-0x0", 3, 0), ("-05", 3, 0),
        ("-0.5", 6, 0), ("-00.5", 6, 0), ("00.5", 6, 0), ("1.", 6, 0), ("5e", 6, 0), ("0x1p", 6, 0), ("1...", 6, 0), ("0x.8p0", 4, 1), (".5", 3, 0), ("+1", 3, 0),
        ("-NaN", 3, 0), ("NaN", 6, 0), ("Infinity", 6, 0), ("-Infinityx", 6, 0), ("NaN'a'", 6, 0), ("NaN1", 4, 0), ("Infinityx", 4, 0), ("[__]", 3, 2), ("1__", 9, 0),
        ("1 _1", 3, 2), ("1_1.5", 3, 3), ("(_1)", 11, 2), ("true_0", 3, 4), ("65(_ h'01')", 3, 3), ("0x41(1)", 3, 4), ("1_(2)", 9, 0), ("x'abc", 4, 0),
        ("true'a'", 4, 0), ("H'01'", 4, 0), ("h", 4, 0), ("h'01", 3, 0), ("simple(24)", 8, 0), ("simple(01)", 4, 0), ("simple", 4, 0), ("h'\\'", 3, 0),
        ("h'zz\u{1}'", 3, 0), ("h'/c'", 8, 0), ("h'ü'", 8, 0), ("h'...'", 8, 0), ("b64'/c/ '", 8, 0), ("\"\\x\"", 3, 0), ("\"\\ud800\"", 3, 0), ("\"\n\"", 3, 0),
        ("\"", 3, 0), ("# x", 3, 0), ("1 /\u{1}/", 3, 2), ("'\\\"'", 3, 0), ("\"\\'\"", 3, 0),
    ] {
        refused(text, number, place);
    }
    refused(&format!("simple({})", "9".repeat(60_000)), 8, 0);
    refused(&"9".repeat(60_000), 7, 0);
    reads("-0x01", "20");
    reads("0x1e5", "1901e5");
    reads("[_ 1]", "9f01ff");
    reads("b64'A Q = ='", "4101");
    reads("\"\u{7f}\"", "617f");
}

#[rustfmt::skip]
#[test]
fn rulings_on_refusals() {
    for (text, number, place) in [
        ("1 ...", 5, 2), ("1 24_i", 9, 2), ("<<1,>>_x", 9, 4), ("1>>_1", 11, 1), ("(_ ''_)", 9, 3), ("(_ \"a\", ''_)", 9, 8), ("(_ 'a' ''_)", 11, 7), ("(_ <<1>>)", 11, 3),
        ("76(h'')", 13, 0), ("64(1(h''))", 13, 0), ("1,", 11, 2), ("[1", 11, 2), (",", 11, 0), ("{1}", 11, 2), ("<<1>>_x", 9, 0), ("1_x(2)", 9, 0), ("[_i ", 11, 4),
    ] {
        refused(text, number, place);
    }
    let deep = "[".repeat(16);
    refused(&format!("{deep}1 ["), 10, 18);
    refused(&format!("{deep}(_ ["), 10, 19);
    reads("64(<<1>>)", "d8404101");
    reads("65(''_)", "d8415fff");
    bad("f8", 15, 0);
    bad("f9", 6, 0);
    bad("5f01ff", 16, 1);
    bad("ff", 16, 0);
    bad("9bffffffffffffffff1c", 16, 9);
    bad("7f61c3ff", 2, 1);
    bad(&"81".repeat(17), 10, 16);
}

#[rustfmt::skip]
#[test]
fn rulings_on_corrections() {
    let sheet = hex("820102");
    for (text, number, place) in [
        (" 2", 11, 0), ("2 ", 11, 1), ("2/c/", 11, 1), ("2,3", 11, 1), ("", 11, 0), ("2foo", 4, 1), ("[]...", 5, 2), ("2/c", 3, 1), ("2 ...", 11, 1), ("/c/2", 11, 0), ("...", 5, 0),
    ] {
        let e = edn::correct(&sheet, &[0, 1], text).expect_err(text);
        assert_eq!((e.number(), e.place(), e.counted()), (number, place, edn::Place::Text), "{text}");
    }
    // the order: used length, bytes, path, text, room
    let mut buffer = hex("ff01");
    let e = edn::correct_in(&mut buffer, 3, &[], b"...").unwrap_err();
    assert_eq!((e.number(), e.place()), (1, 0));
    let e = edn::correct_in(&mut buffer, 2, &[], b"...").unwrap_err();
    assert_eq!((e.number(), e.place(), e.counted()), (16, 0, edn::Place::Bytes));
    let mut buffer = hex("8101");
    let e = edn::correct_in(&mut buffer, 2, &[0, 1], b"...").unwrap_err();
    assert_eq!((e.number(), e.place(), e.counted()), (17, 1, edn::Place::Step));
    let e = edn::correct_in(&mut buffer, 2, &[], b"...").unwrap_err();
    assert_eq!((e.number(), e.place()), (17, 0));
    let e = edn::correct_in(&mut buffer, 2, &[0, 0], b"...").unwrap_err();
    assert_eq!((e.number(), e.place()), (5, 0));
    let e = edn::correct_in(&mut buffer, 2, &[0, 0], b"24").unwrap_err();
    assert_eq!((e.number(), e.place(), e.counted()), (14, 0, edn::Place::Whole));
    assert_eq!(buffer, hex("8101"));
    // a correction that shortens zeroes up to the old end, and no further
    let mut buffer = hex("811818ee");
    assert_eq!(edn::correct_in(&mut buffer, 3, &[0, 0], b"1"), Ok(2));
    assert_eq!(buffer, hex("810100ee"));
    // at the level of the path
    let deep = hex(&("81".repeat(16) + "00"));
    assert_eq!(edn::correct(&deep, &[0; 17], "[]").unwrap_err().number(), 10);
    assert_eq!(edn::correct(&deep, &[0; 16], "[]"), Ok(hex(&("81".repeat(15) + "80"))));
}

#[test]
fn too_long() {
    refused(&" ".repeat(65_536), 1, 0);
    reads(&" ".repeat(65_535), "");
    bad(&"00".repeat(65_536), 1, 0);
    assert_eq!(edn::check(&vec![0; 65_535]), Ok(()));
}

#[rustfmt::skip]
#[test]
fn rfc_8949_appendix_a() {
    for (text, bytes) in [
        ("0", "00"), ("1", "01"), ("10", "0a"), ("23", "17"), ("24", "1818"), ("25", "1819"), ("100", "1864"), ("1000", "1903e8"), ("1000000", "1a000f4240"),
        ("1000000000000", "1b000000e8d4a51000"), ("18446744073709551615", "1bffffffffffffffff"), ("-18446744073709551616", "3bffffffffffffffff"), ("-1", "20"),
        ("-10", "29"), ("-100", "3863"), ("-1000", "3903e7"), ("false", "f4"), ("true", "f5"), ("null", "f6"), ("undefined", "f7"), ("simple(16)", "f0"),
        ("simple(255)", "f8ff"), ("0(\"2013-03-21T20:04:00Z\")", "c074323031332d30332d32315432303a30343a30305a"), ("1(1363896240)", "c11a514b67b0"),
        ("23(h'01020304')", "d74401020304"), ("24(h'6449455446')", "d818456449455446"),
        ("32(\"http://www.example.com\")", "d82076687474703a2f2f7777772e6578616d706c652e636f6d"), ("h''", "40"), ("h'01020304'", "4401020304"), ("\"\"", "60"),
        ("\"a\"", "6161"), ("\"IETF\"", "6449455446"), ("\"\\\"\\\\\"", "62225c"), ("[]", "80"), ("[1, 2, 3]", "83010203"), ("[1, [2, 3], [4, 5]]", "8301820203820405"),
        ("[1, 2, 3, 4, 5, 6, 7, 8, 9, 10, 11, 12, 13, 14, 15, 16, 17, 18, 19, 20, 21, 22, 23, 24, 25]", "98190102030405060708090a0b0c0d0e0f101112131415161718181819"),
        ("{}", "a0"), ("{1: 2, 3: 4}", "a201020304"), ("{\"a\": 1, \"b\": [2, 3]}", "a26161016162820203"), ("[\"a\", {\"b\": \"c\"}]", "826161a161626163"),
        ("{\"a\": \"A\", \"b\": \"B\", \"c\": \"C\", \"d\": \"D\", \"e\": \"E\"}", "a56161614161626142616361436164614461656145"),
        ("(_ h'0102', h'030405')", "5f42010243030405ff"), ("(_ \"strea\", \"ming\")", "7f657374726561646d696e67ff"), ("[_ ]", "9fff"),
        ("[_ 1, [2, 3], [_ 4, 5]]", "9f018202039f0405ffff"), ("[_ 1, [2, 3], [4, 5]]", "9f01820203820405ff"), ("[1, [2, 3], [_ 4, 5]]", "83018202039f0405ff"),
        ("[1, [_ 2, 3], [4, 5]]", "83019f0203ff820405"),
        ("[_ 1, 2, 3, 4, 5, 6, 7, 8, 9, 10, 11, 12, 13, 14, 15, 16, 17, 18, 19, 20, 21, 22, 23, 24, 25]", "9f0102030405060708090a0b0c0d0e0f101112131415161718181819ff"),
        ("{_ \"a\": 1, \"b\": [_ 2, 3]}", "bf61610161629f0203ffff"), ("[\"a\", {_ \"b\": \"c\"}]", "826161bf61626163ff"), ("{_ \"Fun\": true, \"Amt\": -2}", "bf6346756ef563416d7421ff"),
    ] {
        both(text, bytes);
    }
    // by escapes, which the printed text does not have
    reads("\"\\u00fc\"", "62c3bc");
    prints("62c3bc", "\"ü\"\n");
    reads("\"\\u6c34\"", "63e6b0b4");
    prints("63e6b0b4", "\"水\"\n");
    reads("\"\\ud800\\udd51\"", "64f0908591");
    prints("64f0908591", "\"𐅑\"\n");
    // big numbers are tags over bytes
    refused("18446744073709551616", 7, 0);
    prints("c249010000000000000000", "2(h'010000000000000000')\n");
    refused("-18446744073709551617", 7, 0);
    prints("c349010000000000000000", "3(h'010000000000000000')\n");
    // floats are left out, on both sides
    for (text, bytes) in [
        ("0.0", "f90000"), ("-0.0", "f98000"), ("1.0", "f93c00"), ("1.1", "fb3ff199999999999a"), ("1.5", "f93e00"), ("65504.0", "f97bff"), ("100000.0", "fa47c35000"),
        ("3.4028234663852886e+38", "fa7f7fffff"), ("1.0e+300", "fb7e37e43c8800759c"), ("5.960464477539063e-8", "f90001"), ("0.00006103515625", "f90400"), ("-4.0", "f9c400"),
        ("-4.1", "fbc010666666666666"), ("Infinity", "f97c00"), ("NaN", "f97e00"), ("-Infinity", "f9fc00"), ("Infinity", "fa7f800000"), ("NaN", "fa7fc00000"),
        ("-Infinity", "faff800000"), ("Infinity", "fb7ff0000000000000"), ("NaN", "fb7ff8000000000000"), ("-Infinity", "fbfff0000000000000"),
    ] {
        refused(text, 6, 0);
        bad(bytes, 6, 0);
    }
    refused("1(1363896240.5)", 6, 2);
    bad("c1fb41d452d9ec200000", 6, 1);
}

#[test]
fn printed_layout() {
    prints("0102", "1,\n2\n");
    prints("1800", "0_0\n");
    prints("980100", "[_0 0]\n");
    prints("9800", "[_0 ]\n");
    prints("b8010203", "{_0 2: 3}\n");
    prints("bfff", "{_ }\n");
    prints("7fff", "\"\"_\n");
    prints("5f590001aaff", "(_ h'aa'_1)\n");
    prints("d90001f6", "1_1(null)\n");
    prints("64001f7f22", "\"\\u0000\\u001f\u{7f}\\\"\"\n");
    prints("e0", "simple(0)\n");
}
