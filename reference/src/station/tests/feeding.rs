//! Bytes as a line brings them: document 02, R-1.

use super::*;

/// The scene of most tests: lines 0 and 1 open, with a held area for each line. Each call checks what holds of all.
struct Feeding {
    setting: Setting,
    held: Vec<Vec<u8>>,
}

/// A feed's answer (or 255), its used bytes, and the line's count and shut mark after it.
type Seen = (u8, usize, u16, bool);

impl Feeding {
    fn new() -> Feeding {
        Feeding { setting: Setting::new(32, &[0, 1]), held: vec![vec![0; HELD]; LINES] }
    }

    fn state(&mut self) -> &mut State {
        &mut self.setting.state
    }

    /// A call with so many bytes of the line's held area.
    fn fed_with(&mut self, line: usize, bytes: &[u8], length: usize) -> Fed {
        let (at, before) = (line % LINES, self.state().clone());
        let (route, held) = (self.setting.route.clone(), self.held.clone());
        let Setting { state, out, route: lent, own, clock } = &mut self.setting;
        out.fill(0xDD);
        let fed = state.feed(line, *clock, own, bytes, &mut self.held[at][..length], out, lent);
        let (expected, area) = expected(&fed, &before, at, bytes, &held[at]);
        assert!(self.held[at] == area, "the held area is as it was, or has the bytes behind those held");
        let message = [&held[at][..HELD.min(before.lines[at].held.into())], bytes].concat();
        assert_eq!(fed.handled.after, age_of_message(&before, &message, fed.handled.answer));
        let counts = counts_after_message(&before, &message, fed.handled.answer);
        assert!(self.setting.state.hits == counts, "other counts of hits");
        if fed.handled.answer != 0 {
            let Handled { answer, used, after, .. } = fed.handled;
            assert_eq!(fed.handled, Handled { answer, used, after, ..QUIET });
            assert!(self.setting.state == expected && self.setting.route == route);
        }
        for (now, then) in self.setting.state.lines.iter().zip(&expected.lines) {
            assert_eq!((now.held, now.shut), (then.held, then.shut));
        }
        assert_eq!(self.setting.state.in_order(), before.in_order());
        assert!(self.setting.out[fed.handled.written..].iter().all(|&byte| byte == 0xDD));
        fed
    }

    fn fed(&mut self, line: usize, bytes: &[u8]) -> Fed {
        self.fed_with(line, bytes, HELD)
    }

    fn seen(&mut self, line: usize, bytes: &[u8]) -> Seen {
        let Handled { answer, used, .. } = self.fed(line, bytes).handled;
        let record = &self.setting.state.lines[line % LINES];
        (answer, used, record.held, record.shut)
    }

    fn set(&mut self, line: usize, held: u16, shut: bool) {
        (self.state().lines[line].held, self.state().lines[line].shut) = (held, shut);
    }
}

/// What document 02 says of the state and of the held area of line `at` after this answer, but for what answer 0 does.
fn expected(fed: &Fed, before: &State, at: usize, bytes: &[u8], held: &[u8]) -> (State, Vec<u8>) {
    let (mut state, mut area) = (before.clone(), held.to_vec());
    let line = &mut state.lines[at];
    let count = usize::from(line.held);
    match fed.handled.answer {
        1 | 2 | 3 | SHUT => assert_eq!(*fed, Fed::of(fed.handled.answer, 0)),
        WAITS => {
            assert_eq!(*fed, Fed { waits: true, ..Fed::of(WAITS, bytes.len()) });
            line.held += bytes.len() as u16;
            area[count..count + bytes.len()].copy_from_slice(bytes);
        }
        5 => {
            assert_eq!(*fed, Fed::of(5, header::BYTES - count));
            (line.held, line.shut) = (0, true);
        }
        answer => {
            assert!((6..=16).contains(&answer) || [0, 21].contains(&answer));
            assert_eq!((fed.within, fed.waits), (count > 0, false));
            line.held = 0;
            if (14..=16).contains(&answer) {
                line.table.mark = BROKEN;
            }
            if count > 0 {
                area[count..count + fed.handled.used].copy_from_slice(&bytes[..fed.handled.used]);
            }
        }
    }
    (state, area)
}

impl Fed {
    fn of(answer: u8, used: usize) -> Fed {
        Fed { handled: Handled { answer, used, ..QUIET }, within: false, waits: false }
    }
}

/// A ping for this station alone, and document 01's query.
fn probe() -> Vec<u8> {
    ping(1, 1, 0)
}

fn q1() -> Vec<u8> {
    query(7, 3, 1, "eb ebckl")
}

/// A header of this type, whose payload would have so many bytes.
fn over(kind: u8, payload: u32) -> Vec<u8> {
    let mut bytes = message(2, kind, 1, 0, b"");
    bytes[19..].copy_from_slice(&payload.to_le_bytes());
    bytes
}

#[test]
fn one_message_a_call() {
    let mut feeding = Feeding::new();
    let stream = [probe(), q1(), probe()].concat();
    assert_eq!(feeding.seen(0, &stream[..10]), (WAITS, 10, 10, false));
    let fed = feeding.fed(0, &stream[10..]);
    assert_eq!((fed.handled.answer, fed.handled.used, fed.within), (0, 13, true));
    assert_eq!((&feeding.held[0][..23], feeding.held[0][23]), (&probe()[..], 0));
    let fed = feeding.fed(0, &stream[23..]);
    assert_eq!((fed.handled.answer, fed.handled.used, fed.within), (0, 34, false));
    assert!(fed.handled.search && fed.handled.to == 2);
    assert_eq!((fed.handled.text_start, fed.handled.text_length), (25, 8));
    assert_eq!(feeding.seen(0, &stream[57..]), (0, 23, 0, false));
    assert_eq!(feeding.seen(0, b""), (WAITS, 0, 0, false));
}

/// 5 uses the header that is left, and shuts the line until it is closed and opened.
#[test]
fn too_long_a_payload() {
    for (kind, payload, first) in [(QUERY, 4_097, 20), (0x02, 5_000, 22), (PING, u32::MAX, 1), (UPDATE, 65_536, 0)] {
        let mut feeding = Feeding::new();
        let bytes = [over(kind, payload), vec![0; 100]].concat();
        assert_eq!(feeding.seen(0, &bytes[..first]), (WAITS, first, first as u16, false));
        assert_eq!(feeding.seen(0, &bytes[first..22]), (WAITS, 22 - first, 22, false));
        assert_eq!(feeding.seen(0, &bytes[22..]), (5, 1, 0, true));
        for scrap in [&bytes[..], &bytes[..5], b"", &probe()] {
            assert_eq!(feeding.seen(0, scrap), (SHUT, 0, 0, true));
        }
        assert_eq!((feeding.state().open(0), feeding.state().close(8)), (3, 3));
        assert_eq!(feeding.seen(0, &probe()), (SHUT, 0, 0, true));
        assert_eq!(feeding.seen(1, &probe()), (0, 23, 0, false));
        assert_eq!((feeding.state().close(0), feeding.state().open(0)), (0, 0));
        assert_eq!(feeding.seen(0, &probe()), (0, 23, 0, false));
    }
    let mut feeding = Feeding::new();
    assert_eq!(feeding.seen(0, &over(QUERY, 4_097)), (5, 23, 0, true));
}

/// The calls of document 01 read and change neither held bytes nor marks, whatever these are.
#[test]
fn whole_messages_are_blind() {
    let mut feeding = Feeding::new();
    assert_eq!(feeding.seen(0, &over(QUERY, 4_097)), (5, 23, 0, true));
    assert_eq!(feeding.setting.answer(0, &probe()), 0);
    assert_eq!(feeding.setting.answer(1, &over(QUERY, 4_097)), 5);
    assert_eq!(feeding.seen(1, &probe()), (0, 23, 0, false));
    feeding.set(5, 65_535, true);
    assert!(feeding.state().in_order());
    assert_eq!(feeding.setting.answer(0, &q1()), 0);
    assert_eq!(feeding.setting.ask(9, b"lake").answer, 0);
    assert_eq!(feeding.state().lines[5].held, 65_535);
    // A whole message between two scraps of its line: the held bytes wait on.
    assert_eq!(feeding.seen(1, &hit(9, 2, 0)[..40]), (WAITS, 40, 40, false));
    assert_eq!(feeding.setting.answer(1, &probe()), 0);
    let fed = feeding.fed(1, &hit(9, 2, 0)[40..]);
    assert_eq!((fed.handled.answer, fed.handled.used, fed.handled.delivered), (0, 10, true));
}

/// A line's next owner does not inherit a scrap; a refused closing drops nothing.
#[test]
fn opening_and_closing_drop() {
    let mut feeding = Feeding::new();
    assert_eq!(feeding.seen(0, &q1()[..20]), (WAITS, 20, 20, false));
    assert_eq!((feeding.state().open(0), feeding.state().close(2)), (3, 3));
    assert_eq!(feeding.state().lines[0].held, 20);
    assert_eq!((feeding.state().close(0), feeding.state().lines[0].held), (0, 0));
    assert_eq!(feeding.state().open(0), 0);
    assert_eq!(feeding.seen(0, &probe()), (0, 23, 0, false));
    feeding.set(3, 17, true);
    assert_eq!(feeding.state().open(3), 0);
    assert_eq!(feeding.seen(3, &probe()), (0, 23, 0, false));
}

/// A refused message is dropped; 1 to 3 and 19 drop and use nothing.
#[test]
fn what_refusals_drop() {
    let mut feeding = Feeding::new();
    for answer in [0, 9] {
        assert_eq!(feeding.seen(0, &q1()[..30]), (WAITS, 30, 30, false));
        assert_eq!(feeding.seen(0, &q1()[30..]), (answer, 4, 0, false));
    }
    assert_eq!(feeding.seen(0, &probe()), (0, 23, 0, false));
    assert_eq!(feeding.seen(0, &query(8, 3, 1, "eb")[..26]), (WAITS, 26, 26, false));
    for length in [0, 4_118] {
        assert_eq!(feeding.fed_with(0, &query(8, 3, 1, "eb")[26..], length), Fed::of(2, 0));
    }
    assert_eq!(feeding.seen(0, &query(8, 3, 1, "eb")[26..]), (0, 2, 0, false));
    // A type that is not known is no reason until the message is whole.
    let bye = message(1, 0x02, 1, 0, &[0; 10]);
    assert_eq!(feeding.seen(1, &bye[..32]), (WAITS, 32, 32, false));
    assert_eq!(feeding.seen(1, &bye[32..]), (7, 1, 0, false));
    assert_eq!(feeding.seen(1, &update(P1)), (0, 29, 0, false));
    assert_eq!(feeding.seen(1, &update(P4)[..29]), (WAITS, 29, 29, false));
    assert_eq!(feeding.seen(1, &update(P4)[29..]), (16, 1, 0, false));
    assert_eq!(feeding.setting.mark(1), BROKEN);
}

/// 1, 2, 3, 19, 1, whatever the bytes are.
#[test]
fn order_of_refusals() {
    let mut feeding = Feeding::new();
    feeding.set(0, 23, true);
    assert_eq!(feeding.fed_with(0, &probe(), 4_118), Fed::of(2, 0));
    assert_eq!(feeding.fed(0, &probe()), Fed::of(SHUT, 0));
    feeding.setting.out.truncate(OUTPUT - 1);
    assert_eq!(feeding.fed(0, &probe()), Fed::of(2, 0));
    feeding.setting.out.push(0);
    assert_eq!(feeding.fed(8, &probe()), Fed::of(3, 0));
    feeding.set(0, 23, false);
    assert_eq!(feeding.fed(0, b""), Fed::of(1, 0));
    assert_eq!(feeding.fed(8, &probe()), Fed::of(3, 0));
    feeding.set(2, 9, true);
    assert_eq!(feeding.fed(2, &probe()), Fed::of(3, 0));
    feeding.state().next = 512;
    assert_eq!(feeding.fed_with(2, &probe(), 0), Fed::of(1, 0));
    // Nothing held and a whole message: the area counts all the same.
    assert_eq!(Feeding::new().fed_with(0, &probe(), 0), Fed::of(2, 0));
    assert_eq!(Feeding::new().fed_with(0, b"", HELD - 1), Fed::of(2, 0));
}

/// Held bytes that start no message are 1: whole ones, and headers with too long a payload.
#[test]
fn held_bytes_that_start_none() {
    let mut feeding = Feeding::new();
    for (count, answer) in [(0, WAITS), (22, WAITS), (23, 1), (4_118, 1), (4_119, 1), (65_535, 1)] {
        feeding.set(0, count, false);
        assert_eq!(feeding.seen(0, b""), (answer, 0, count, false));
    }
    feeding.held[0][..23].copy_from_slice(&over(PING, 4_096));
    for (count, answer) in [(23, WAITS), (4_118, WAITS), (4_119, 1), (4_120, 1), (65_535, 1)] {
        feeding.set(0, count, false);
        assert_eq!(feeding.seen(0, b""), (answer, 0, count, false));
    }
    feeding.set(0, 4_118, false);
    assert_eq!(feeding.seen(0, &[5, 6, 7]), (0, 1, 0, false));
    feeding.held[0][..23].copy_from_slice(&over(PING, 4_097));
    for (count, answer) in [(22, 5), (23, 1), (4_118, 1)] {
        feeding.set(0, count, false);
        assert_eq!(feeding.fed(0, &[0x10; 9]).handled.answer, answer);
    }
    // A longer area is lent: what stands behind its 4,119th byte starts nothing either.
    feeding.held[0] = vec![0x41; 70_000];
    feeding.held[0][19..23].copy_from_slice(&4_096u32.to_le_bytes());
    feeding.set(0, 65_535, false);
    assert_eq!(feeding.fed_with(0, b"x", 70_000), Fed::of(1, 0));
}

/// A message has the clock of its last byte, and its place among those of other lines by it.
#[test]
fn the_last_byte_counts() {
    let mut feeding = Feeding::new();
    assert_eq!(feeding.seen(0, &ping(1, 7, 0)[..9]), (WAITS, 9, 9, false));
    feeding.setting.clock = 5_000;
    assert_eq!(feeding.seen(0, &ping(1, 7, 0)[9..]), (0, 14, 0, false));
    for (clock, answer) in [(5_999, 13), (6_000, 0)] {
        feeding.setting.clock = clock;
        assert_eq!(feeding.seen(0, &ping(1, 7, 0)), (answer, 23, 0, false));
    }
    assert_eq!(feeding.seen(0, &q1()[..30]), (WAITS, 30, 30, false));
    assert_eq!(feeding.seen(1, &q1()), (0, 34, 0, false));
    assert_eq!(feeding.seen(0, &q1()[30..]), (9, 4, 0, false));
}

#[test]
fn the_longest_message_by_its_last_byte() {
    let mut feeding = Feeding::new();
    let bytes = message(3, QUERY, 3, 1, &[vec![b'x'; 4_095], vec![0]].concat());
    assert_eq!(feeding.seen(0, &bytes[..4_118]), (WAITS, 4_118, 4_118, false));
    let fed = feeding.fed(0, &bytes[4_118..]);
    assert_eq!((fed.handled.answer, fed.handled.used, fed.handled.written, fed.within), (0, 1, 4_119, true));
    assert_eq!(&feeding.held[0][25..][..fed.handled.text_length], &[b'x'; 4_093][..]);
}

/// Streams of random messages, cut at random and interleaved: what whole messages do in the order of their last bytes.
#[test]
fn however_it_is_cut() {
    let mut seed = 99u64;
    let mut random = move |below: usize| {
        seed = seed.wrapping_mul(6_364_136_223_846_793_005).wrapping_add(1_442_695_040_888_963_407);
        (seed >> 33) as usize % below
    };
    let messages: Vec<Vec<u8>> = (0..12).map(|n| query(n, 3, 1, "eb")).chain((0..12).map(|n| hit(n, 4, 1))).collect();
    let others = [ping(1, 7, 0), ping(1, 1, 0), pong(4, 2), message(1, 0x02, 1, 0, b"bye")];
    let all = [messages, others.to_vec(), [P1, P2, P4].map(update).to_vec()].concat();
    let mut met = [0; 17];
    for _ in 0..150 {
        let (mut feeding, mut whole) = (Feeding::new(), Setting::new(32, &[0, 1]));
        let mut stream = || (0..12).flat_map(|_| all[random(all.len())].clone()).collect::<Vec<u8>>();
        let mut streams = [stream(), stream()];
        while streams.iter().any(|stream| !stream.is_empty()) {
            let (line, most) = (random(2), [2, 20, 90][random(3)]);
            let scrap: Vec<u8> = streams[line].iter().copied().take(1 + random(most)).collect();
            feeding.setting.clock += random(600) as u32;
            whole.clock = feeding.setting.clock;
            let count = usize::from(feeding.state().lines[line].held);
            let begun = feeding.held[line][..count].to_vec();
            let fed = feeding.fed(line, &scrap);
            let message = [begun, scrap[..fed.handled.used].to_vec()].concat();
            streams[line].drain(..fed.handled.used);
            if !fed.waits {
                let expected = whole.send(line, &message);
                assert_eq!(fed.handled, Handled { used: fed.handled.used, ..expected });
                assert_eq!(expected.used, message.len());
                assert!(feeding.setting.out == whole.out && feeding.setting.route == whole.route);
                met[usize::from(fed.handled.answer)] += 1;
            }
            let mut bare = feeding.setting.state.clone();
            bare.lines.iter_mut().for_each(|line| line.held = 0);
            assert!(bare == whole.state);
        }
    }
    for answer in [0, 7, 9, 10, 13, 15, 16] {
        assert!(met[answer] > 0, "no message was answered {answer}: {met:?}");
    }
}
