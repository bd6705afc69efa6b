//! Places of the picture, worked out by hand.

use super::*;

fn map() -> Map {
    Map {
        low: 0x2000_0000,
        high: 0x2000_0800,
        board: vec![
            Shape::new((0x2000_0000, 0x2000_0400), "low", "", "board"),
            Shape::new((0x2000_0400, 0x2000_0800), "high", "", "board"),
        ],
        row: 8,
        ..Map::default()
    }
}

fn read(value: &Value) -> f64 {
    value.as_str().unwrap().parse().unwrap()
}

#[test]
fn regions_are_drawn_to_scale_from_the_bottom_up() {
    let value = map().value();
    let [low, high] = [0, 1].map(|place| value["groups"][0][place].clone());
    assert_eq!((read(&high["y"]), read(&high["height"])), (34.0, 210.0));
    assert_eq!((read(&low["y"]), read(&low["height"])), (244.0, 210.0));
    assert_eq!((read(&value["top"]), read(&value["bottom"])), (34.0, 454.0));
}

#[test]
fn what_goes_past_the_picture_is_cut_and_what_lies_outside_is_left_out() {
    let mut map = map();
    map.trap = vec![
        Shape::new((0, 1 << 32), "all", "", "bounds"),
        Shape::new((0x2000_0800, 0x2000_0808), "above", "", "asked"),
        Shape::new((0x1FFF_FFF8, 0x2000_0000), "below", "", "asked"),
        Shape::new((0x2000_0400, 0x2000_0300), "unsound", "", "bounds"),
    ];
    let value = map.value();
    assert_eq!(value["groups"][4].as_array().map(Vec::len), Some(1));
    assert_eq!(read(&value["groups"][4][0]["height"]), 420.0);
    assert_eq!(value["right"].as_array().map(Vec::len), Some(1));
}

#[test]
fn what_is_thinner_than_a_line_is_drawn_as_one() {
    let mut map = map();
    map.high = map.low + (1 << 20);
    map.trap = vec![Shape::new((0x2000_0000, 0x2000_0008), "asked", "", "asked")];
    let value = map.value();
    let shape = &value["groups"][4][0];
    assert_eq!((read(&shape["y"]), read(&shape["height"])), (453.4, 0.6));
}

#[test]
fn changed_rows_that_touch_are_one_stretch() {
    let mut map = map();
    map.changed = vec![0, 1, 2, 128];
    let value = map.value();
    let stretches = value["groups"][3].as_array().unwrap();
    assert_eq!(stretches.len(), 2);
    assert_eq!(
        read(&stretches[0]["height"]),
        (420.0f64 * 24.0 / 2048.0 * 10.0).round() / 10.0
    );
    assert_eq!(Map::bytes_a_line(0, 420), 1);
    assert_eq!(Map::bytes_a_line(0, 421), 2);
    assert_eq!(Map::bytes_a_line(0, 1 << 20), 2497);
}

#[test]
fn labels_have_a_line_each_and_stay_in_the_picture() {
    assert_eq!(
        spread(&[10.0, 11.0, 200.0], 0.0, 300.0),
        [10.0, 25.0, 200.0]
    );
    assert_eq!(
        spread(&[295.0, 296.0, 297.0], 0.0, 300.0),
        [270.0, 285.0, 300.0]
    );
    let many: Vec<Shape> = (0..64)
        .map(|place| Shape::new((0x2000_0000 + place, 0x2000_0001 + place), "x", "", "board"))
        .collect();
    let value = Map {
        board: many,
        ..map()
    }
    .value();
    let places: Vec<f64> = value["left"]
        .as_array()
        .unwrap()
        .iter()
        .map(|l| read(&l["y"]))
        .collect();
    assert!(
        places
            .windows(2)
            .all(|pair| pair[1] - pair[0] >= LINE - 0.2),
        "{places:?}"
    );
    assert!(places[0] >= TOP && places[63] <= read(&value["bottom"]) + 5.0);
}

#[test]
fn the_strip_shows_the_request_beside_the_bounds() {
    let board = map().board;
    let strip = Strip {
        asked: (0x2000_0478, 0x2000_0480),
        bounds: (0x2000_0480, 0x2000_0800),
        board: &board,
    };
    let value = strip.value();
    // The strip is [20000450, 200004a0), 80 bytes of 10.5 units.
    assert_eq!(
        (read(&value["asked"]["x"]), read(&value["asked"]["width"])),
        (430.0, 84.0)
    );
    assert_eq!(
        (read(&value["bounds"]["x"]), read(&value["bounds"]["width"])),
        (514.0, 336.0)
    );
    assert_eq!(
        (&value["bounds"]["before"], &value["bounds"]["after"]),
        (&json!(false), &json!(true))
    );
    assert_eq!(value["regions"].as_array().map(Vec::len), Some(1));
    assert_eq!(value["ticks"].as_array().map(Vec::len), Some(6));
    let far = Strip {
        asked: (0xFFFF_FFFC, 0x1_0000_0004),
        bounds: (0, 16),
        board: &board,
    };
    assert_eq!(far.value()["bounds"], Value::Null);
}
