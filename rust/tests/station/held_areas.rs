//! Held areas as C lends them: too short, longer than needed, and to the byte what each call leaves there.

use crate::{message, query, PING, QUERY};
use lunozhar::raw::{self, Fed, Own, Pending};

const OWN: Own = Own { port: 6346, address: [127, 0, 0, 1], files: 0, kilobytes: 0, calls: true };

/// A station with lines 0 and 1 open, and the areas that are lent for its line 0.
struct Scene {
    station: Box<raw::Station>,
    held: Vec<u8>,
    out: Vec<u8>,
    route: Vec<u8>,
}

impl Scene {
    fn new() -> Scene {
        let mut station = Box::<raw::Station>::default();
        // SAFETY: the station is whole and lent to nobody else.
        unsafe {
            assert_eq!(raw::lunozhar_fresh(&mut *station, 32), 0);
            assert_eq!((raw::lunozhar_open(&mut *station, 0), raw::lunozhar_open(&mut *station, 1)), (0, 0));
        }
        Scene { station, held: vec![0xAA; raw::HELD], out: vec![0xDD; raw::OUTPUT], route: vec![0xEE; 32] }
    }

    fn feed(&mut self, line: u32, bytes: &[u8]) -> Fed {
        let Scene { station, held, out, route } = self;
        let (len, held_len, out_len, route_len) = (bytes.len(), held.len(), out.len(), route.len());
        let (at, held, out, route) = (bytes.as_ptr(), held.as_mut_ptr(), out.as_mut_ptr(), route.as_mut_ptr());
        let station: *mut raw::Station = &mut **station;
        // SAFETY: each pointer goes with the length of its own vector, and they do not overlap.
        unsafe { raw::lunozhar_feed(station, line, 0, OWN, at, len, held, held_len, out, out_len, route, route_len) }
    }

    /// The answer and the bytes used.
    fn answer(&mut self, line: u32, bytes: &[u8]) -> (u8, usize) {
        let Fed { told, waits, .. } = self.feed(line, bytes);
        assert_eq!(waits, told.answer == raw::WAITING);
        (told.answer, told.used)
    }

    fn set(&mut self, line: usize, count: u16, shut: bool) {
        self.station.lines[line].pending = Pending { count, shut };
    }
}

#[test]
fn a_short_area_is_refused_and_nothing_is_lost() {
    let mut scene = Scene::new();
    let bytes = query(7, "eb");
    assert_eq!(scene.answer(0, &bytes[..20]), (255, 20));
    scene.held.pop();
    let before = (scene.station.clone(), scene.held.clone());
    assert_eq!((scene.answer(0, &bytes[20..]), scene.answer(0, b"")), ((2, 0), (2, 0)));
    assert!((scene.station.clone(), scene.held.clone()) == before);
    scene.held.push(0xAA);
    let fed = scene.feed(0, &bytes[20..]);
    assert_eq!((fed.told.answer, fed.told.used, fed.within, fed.told.textat, fed.told.textlen), (0, 8, true, 25, 2));
    assert_eq!((&scene.held[..28], &scene.held[28..]), (&bytes[..], &[0xAA; raw::HELD - 28][..]));
    // Also where nothing is held and the message is whole.
    let mut scene = Scene::new();
    scene.held.clear();
    assert_eq!(scene.answer(0, &bytes), (2, 0));
    scene.held = vec![0xAA; 70_000];
    let fed = scene.feed(0, &bytes);
    assert_eq!((fed.told.answer, fed.told.used, fed.within), (0, 28, false));
    assert!(scene.held.iter().all(|&byte| byte == 0xAA));
}

#[test]
fn held_bytes_that_start_no_message_are_refused() {
    let header = |length: u32| [&message(1, QUERY, 3, 1, b"")[..19], &length.to_le_bytes()].concat();
    let zero = [(0, 255), (22, 255), (23, 1), (4_118, 1), (4_119, 1), (65_535, 1)];
    let longest = [(23, 255), (4_118, 255), (4_119, 1), (4_120, 1), (65_535, 1)];
    let too_long = [(22, 255), (23, 1), (4_118, 1)];
    for (length, counts) in [(0, &zero[..]), (4_096, &longest[..]), (4_097, &too_long[..])] {
        for &(count, answer) in counts {
            let mut scene = Scene::new();
            scene.held[..23].copy_from_slice(&header(length));
            scene.set(0, count, false);
            let before = (scene.station.clone(), scene.held.clone());
            assert_eq!(scene.answer(0, b""), (answer, 0), "{count} bytes held");
            assert!((scene.station, scene.held) == before);
        }
    }
}

#[test]
fn refusals_come_in_their_order() {
    let probe = message(1, PING, 1, 0, b"");
    let mut scene = Scene::new();
    scene.set(0, 23, true);
    scene.held[..23].copy_from_slice(&probe);
    scene.out.pop();
    assert_eq!(scene.answer(0, &probe), (2, 0));
    scene.out.push(0);
    assert_eq!((scene.answer(0, &probe), scene.answer(8, &probe)), ((19, 0), (3, 0)));
    scene.set(0, 23, false);
    assert_eq!((scene.answer(0, &probe), scene.answer(8, &probe)), ((1, 0), (3, 0)));
    scene.set(2, 0, true);
    assert_eq!(scene.answer(2, &probe), (3, 0));
    scene.station.next = 512;
    scene.held.clear();
    assert_eq!(scene.answer(2, &probe), (1, 0));
}

#[test]
fn the_area_has_what_the_line_brought_and_nothing_else() {
    let mut scene = Scene::new();
    let bytes = [query(7, "eb"), message(2, QUERY, 3, 1, &[0; 4_096])].concat();
    let mut expected = vec![0xAA; raw::HELD];
    assert_eq!(scene.answer(0, &bytes[..10]), (255, 10));
    assert_eq!(scene.answer(0, &bytes[10..19]), (255, 9));
    expected[..19].copy_from_slice(&bytes[..19]);
    assert_eq!((scene.answer(0, b""), &scene.held), ((255, 0), &expected));
    // Completed: the message in one piece, its TTL and Hops as they came, and nothing of the next one.
    assert_eq!(scene.answer(0, &bytes[19..]), (0, 9));
    expected[..28].copy_from_slice(&bytes[..28]);
    assert_eq!(scene.held, expected);
    // A header that is too long: the bytes that shut the line are not kept.
    let long = [&message(1, PING, 1, 0, b"")[..19], &4_097u32.to_le_bytes(), b"more"].concat();
    assert_eq!(scene.answer(0, &long[..20]), (255, 20));
    expected[..20].copy_from_slice(&long[..20]);
    assert_eq!((scene.answer(0, &long[20..]), &scene.held), ((5, 3), &expected));
    assert_eq!(scene.station.lines[0].pending, Pending { count: 0, shut: true });
    assert!(scene.out.len() == raw::OUTPUT && scene.route.iter().all(|&byte| byte == 0xEE));
}
