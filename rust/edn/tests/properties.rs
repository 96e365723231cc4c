//! What the library promises of its operations together, on random sheets: correcting against reading the edited text, printing against
//! reading, reading against checking.
mod both;
mod gen;
mod model;

use both::literal;
use gen::Rng;

/// For an accepted text, an item of it, two blanks and a new text of the form of one item: correcting the bytes at the item's path and
/// reading the edited text succeed together, with the same bytes. `true` where the premises held.
fn corrects_as_read(rng: &mut Rng, text: &[u8], new: &[u8]) -> Option<bool> {
    let bytes = edn::read(text).ok()?;
    let spans = model::spans(text).expect("what the library accepts the model accepts");
    if spans.is_empty() {
        return None;
    }
    let item = &spans[rng.below(spans.len())];
    match model::encode_one(new, item.path.len() - 1) {
        Err(e) if e.number == 3 || e.number == 11 => return None,
        _ => {}
    }
    let blanks = [b'\t', b'\n', b'\r', b' '];
    let mut edited = text[..item.start].to_vec();
    edited.push(blanks[rng.below(4)]);
    edited.extend_from_slice(new);
    edited.push(blanks[rng.below(4)]);
    edited.extend_from_slice(&text[item.end..]);
    if edited.len() > edn::MOST {
        return None;
    }
    // a buffer that holds the old bytes, with anything behind them
    let extra = rng.below(2 * new.len() + 2);
    let mut buffer = bytes.clone();
    buffer.extend((0..extra).map(|_| rng.next() as u8));
    let room = buffer.len();
    let corrected = edn::correct_in(&mut buffer, bytes.len(), &item.path, new);
    let mut afresh = vec![0; room];
    let read = edn::read_into(&edited, &mut afresh);
    let agree = match (corrected, read) {
        (Ok(m), Ok(n)) => m == n && buffer[..m] == afresh[..n],
        (Err(_), Err(_)) => true,
        _ => false,
    };
    assert!(
        agree,
        "correcting: {corrected:?}, reading the edited text: {read:?}\nold text: {}\nitem {}..{} at {:?}\nnew text: {}\nroom {room}",
        literal(text),
        item.start,
        item.end,
        item.path,
        literal(new)
    );
    Some(corrected.is_ok())
}

#[test]
fn correcting_is_reading_the_edited_text() {
    let mut rng = Rng::new(11);
    let (mut succeeded, mut failed) = (0, 0);
    for i in 0..150_000 {
        let text = gen::text(&mut rng, true, 300);
        let mut new = match i % 6 {
            0 => gen::soup(&mut rng),
            _ => gen::item_text(&mut rng, i % 2 == 0, 3),
        };
        if rng.once(8) {
            gen::damage(&mut rng, &mut new, true);
        }
        match corrects_as_read(&mut rng, &text, &new) {
            Some(true) => succeeded += 1,
            Some(false) => failed += 1,
            None => {}
        }
    }
    assert!(succeeded > 20_000 && failed > 5_000, "{succeeded} corrections succeeded, {failed} failed");
}

#[test]
fn correcting_long_sheets_is_reading_the_edited_text() {
    let mut rng = Rng::new(12);
    let mut succeeded = 0;
    for _ in 0..500 {
        let text = gen::long_text(&mut rng);
        let new = gen::item_text(&mut rng, true, 3);
        if corrects_as_read(&mut rng, &text, &new) == Some(true) {
            succeeded += 1;
        }
    }
    assert!(succeeded > 50, "{succeeded}");
}

#[test]
fn reading_what_was_printed_restores_the_bytes() {
    let mut rng = Rng::new(13);
    let mut done = 0;
    for i in 0..150_000 {
        let bytes = if i % 100 == 0 { gen::long_bytes(&mut rng) } else { gen::bytes(&mut rng, true, 400) };
        let Ok(text) = edn::print(&bytes) else { continue };
        assert_eq!(edn::read(&text).as_deref(), Ok(&bytes[..]), "{} printed as {text:?}", literal(&bytes));
        done += 1;
    }
    assert!(done > 100_000, "{done}");
}

#[test]
fn what_is_read_checks_and_is_printed_and_found() {
    let mut rng = Rng::new(14);
    for _ in 0..100_000 {
        let text = gen::text(&mut rng, true, 300);
        let Ok(bytes) = edn::read(&text) else { continue };
        assert_eq!(edn::check(&bytes), Ok(()), "{}", literal(&text));
        // each item of the text is found at its path, as the bytes of its own text
        let spans = model::spans(&text).unwrap();
        for s in spans.iter().take(12) {
            let part = edn::look_up(&bytes, &s.path).unwrap();
            assert_eq!(edn::read(&text[s.start..s.end]).as_deref(), Ok(part), "{} at {:?}", literal(&text), s.path);
        }
    }
}
