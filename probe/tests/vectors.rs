//! Replays the test vectors of `vectors.tsv` at an endpoint of the crate, and holds the two files to what `--vectors` makes.

use gotsavena::{Dir, Endpoint, PeerLimits, Read, ReceiveFault, Role, Settings, StreamId};
use gotsavena_probe::vectors;
use gotsavena_probe::wire::unhex;

const TSV: &str = include_str!("../vectors.tsv");
const JSON: &str = include_str!("../vectors.json");

#[test]
fn the_files_are_those_that_the_cases_make() {
    let all = vectors::all();
    assert!(
        all.json() == JSON && all.tsv() == TSV,
        "gotsavena-probe --vectors probe makes them anew"
    );
}

fn endpoint(role: Role) -> Endpoint {
    let own = Settings::default()
        .conn_window(20_000)
        .stream_windows(8192)
        .streams(16, 1 << 21);
    let peer = PeerLimits::default()
        .max_data(1 << 20)
        .stream_data(1 << 18)
        .streams_bidi(100)
        .streams_uni(100);
    let mut end = Endpoint::new(role, own, peer).unwrap();
    for dir in [Dir::Bidi, Dir::Uni] {
        let stream = end.open(dir).unwrap();
        assert_eq!(end.write(stream, b"hi"), Ok(2));
    }
    assert!(end.make_packet(&mut [0; 1200]).unwrap().is_some());
    end
}

fn read_all(end: &mut Endpoint) {
    let mut from = StreamId::new(0);
    while let Some(stream) = from.and_then(|from| end.next_readable(from)) {
        while let Ok(Read::Bytes(_)) = end.read(stream, &mut [0; 4096]) {}
        from = stream.next();
    }
}

// What came of a payload, as the file has it.
fn verdict(end: &mut Endpoint, number: u64, payload: &[u8]) -> String {
    match end.receive(number, payload) {
        Ok(_) => "on".to_owned(),
        Err(ReceiveFault::Closing(closing)) => closing.code.to_string(),
        Err(fault) => panic!("{fault}"),
    }
}

#[test]
fn the_crate_does_what_each_vector_says() {
    let mut count = 0;
    for line in TSV.lines() {
        let mut cells = line.split('\t');
        let [role, case, _level, reads] = std::array::from_fn(|_| cells.next().unwrap());
        let mut end = endpoint(if role == "server" {
            Role::Server
        } else {
            Role::Client
        });
        for cell in cells {
            let [number, hex, permitted] =
                <[&str; 3]>::try_from(cell.split(':').collect::<Vec<_>>()).unwrap();
            let payload = unhex(hex).unwrap();
            let came = verdict(&mut end, number.parse().unwrap(), &payload);
            // The first is what the proved layer does.
            assert_eq!(
                permitted.split(',').next(),
                Some(&came[..]),
                "{role} {case}: {hex}"
            );
            if reads == "1" {
                read_all(&mut end);
            }
            count += 1;
        }
    }
    assert!(count > 1000, "{count} payloads");
}
