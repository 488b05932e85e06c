//! Round trips of model files, as tests of any engine.

use crate::runs::{model_a, model_a_spoilt};
use crate::{Call, Case, Engine, Random, Row, Side, Sizes, Test, of_rows};

/// The file that the engine writes of a model.
fn written(engine: &dyn Engine, build: &Case) -> Vec<u8> {
    let bytes = vec![0; 24 + 4 * build.n + 12 * build.m + 4 * build.e];
    let side = Side::of(engine, &Case { call: Call::Write, bytes: bytes.into(), ..build.clone() });
    assert_eq!(side.answer.number, 0, "a write that is accepted");
    side.left.bytes.to_vec()
}

/// The tables that the engine reads from a file, just as long as the model's.
fn read(engine: &dyn Engine, model: &Case, file: &[u8]) -> Case {
    let empty = |rows: usize| vec![0u16; rows].into();
    let lent = Case {
        call: Call::Read,
        kinds: empty(model.m),
        makes: empty(model.m),
        params: vec![0; model.m].into(),
        firsts: empty(model.m),
        counts: empty(model.m),
        vars: empty(model.e),
        coefs: vec![0; model.e].into(),
        starts: vec![0; model.n].into(),
        bytes: file.to_vec().into(),
        ..model.clone()
    };
    let side = Side::of(engine, &lent);
    let counts = (side.answer.n as usize, side.answer.m as usize, side.answer.e as usize);
    assert_eq!((side.answer.number, counts), (0, (model.n, model.m, model.e)), "a read that is accepted");
    side.left
}

/// The bytes of model A, field by field.
fn the_file_of_model_a(engine: &dyn Engine) {
    let shorts = |fields: &[u16]| fields.iter().flat_map(|field| field.to_le_bytes()).collect::<Vec<u8>>();
    let longs = |fields: &[u32]| fields.iter().flat_map(|field| field.to_le_bytes()).collect::<Vec<u8>>();
    let row =
        |kind, makes, parameter, part: [u16; 2]| [shorts(&[kind, makes]), longs(&[parameter]), shorts(&part)].concat();
    let expected = [
        shorts(&[1, 6, 3, 7]),
        longs(&[24, 48, 84, 112]),
        longs(&[25200, 28800, 600, 0, 0, 0]),
        row(8, 3, 0, [0, 3]),
        row(9, 4, 0, [3, 3]),
        row(1, 5, 2, [6, 1]),
        shorts(&[0, 1, 1, 1, 2, 1, 0, 1, 1, 1, 2, 1, 3, 4]),
    ]
    .concat();
    assert_eq!(written(engine, &model_a()), expected);
}

/// Writing and reading gives the same tables, and writing those the same bytes.
fn there_and_back(engine: &dyn Engine) {
    let mut random = Random::new(7);
    for _ in 0..500 {
        round_trip(engine, &Sizes::any_model(&mut random));
    }
}

fn round_trip(engine: &dyn Engine, model: &Case) {
    let file = written(engine, model);
    let back = read(engine, model, &file);
    let again = Case { call: model.call, bytes: model.bytes.clone(), ..back };
    assert_eq!(again, *model, "the tables that were written");
    assert_eq!(written(engine, &again), file, "the bytes that were read");
}

/// Values inside are not judged: any tables go there and back.
fn tables_that_build_refuses(engine: &dyn Engine) {
    round_trip(engine, &model_a_spoilt());
}

/// The largest file.
fn the_largest_file(engine: &dyn Engine) {
    let rows: Vec<Row> = (0..4096).map(|variable| Row::plain(1, variable, &[4095 - variable; 4])).collect();
    let model = of_rows(vec![-1; 4096], &rows);
    assert_eq!(written(engine, &model).len(), 131_096);
    round_trip(engine, &model);
}

/// Bytes beyond the file are untouched.
fn a_longer_byte_buffer(engine: &dyn Engine) {
    let case = Case { call: Call::Write, bytes: vec![0xEE; 120].into(), ..model_a() };
    let side = Side::of(engine, &case);
    assert_eq!(side.left.bytes[112..], [0xEE; 8]);
}

/// All round trips by name.
pub const FILES: &[Test] = &[
    ("the file of model A", the_file_of_model_a),
    ("there and back", there_and_back),
    ("tables that build refuses", tables_that_build_refuses),
    ("the largest file", the_largest_file),
    ("a longer byte buffer", a_longer_byte_buffer),
];
