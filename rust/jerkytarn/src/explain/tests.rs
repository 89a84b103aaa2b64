use super::*;
use crate::planner::Planner;

const EXAMPLE: &[u8] = include_bytes!("../../../../examples/three-tiles.job");

const DIRECTED: &[u8] = include_bytes!("../../../../examples/directed.job");

const TIMING: &[u8] = include_bytes!("../../../../examples/timing.job");

/// The example with a line put in the place of another.
fn with_line(number: usize, line: &str) -> Vec<u8> {
    replaced(EXAMPLE, number, line)
}

/// A text with a line put in the place of another.
fn replaced(text: &[u8], number: usize, line: &str) -> Vec<u8> {
    let lines = text.split_inclusive(|byte| *byte == b'\n').enumerate();
    lines.flat_map(|(place, old)| if place + 1 == number { line.as_bytes() } else { old }.to_vec()).collect()
}

/// The library's refusal of a text, in words.
fn refused(text: &[u8]) -> (u32, u32, String) {
    let mut planner = Planner::new();
    let refusal = planner.print(text).expect_err("the text is refused");
    (refusal.number, refusal.line, message("a.job", text, refusal, planner.lent()))
}

/// That a text gets this number and line, and that the message has all of these words.
fn expect(text: &[u8], number: u32, line: u32, words: &[&str]) {
    let (got_number, got_line, message) = refused(text);
    assert_eq!((got_number, got_line), (number, line), "{message}");
    expect_words(&message, number, line, words);
}

/// That a message tells of this number and line, and has all of these words.
fn expect_words(message: &str, number: u32, line: u32, words: &[&str]) {
    for word in words {
        assert!(message.contains(word), "no {word:?} in\n{message}");
    }
    assert!(message.starts_with(&format!("a.job:{line}: refused {number}: ")), "{message}");
}

#[test]
fn every_example_of_the_table_gets_its_number_and_line() {
    for rule in &RULES {
        let Some(text) = rule.example.text else { continue };
        let mut lent = Planner::new().lent();
        match rule.example.lend {
            None => {}
            Some("work=100") => lent.work = 100,
            Some("order=1") => lent.order = 1,
            Some("answer=2") => lent.answer = 2,
            Some(other) => panic!("{other}"),
        }
        let refusal = Planner::lending(lent).print(text.as_bytes()).expect_err("an example is refused");
        assert_eq!((refusal.number, refusal.line), (rule.number, rule.example.line));
        let told = message("a.job", text.as_bytes(), refusal, lent);
        assert!(told.contains("  found     "), "{told}");
        assert!(in_words(rule).contains(rule.title));
    }
    let numbers: Vec<u32> = RULES.iter().map(|rule| rule.number).collect();
    let all: Vec<u32> = (1..=LAST).filter(|number| ended(*number).is_none()).collect();
    assert_eq!(numbers, all);
    assert!(overview().lines().count() > LAST as usize);
}

#[test]
fn keys_and_missing_lines() {
    expect(b"", 2, 1, &["the text is empty", "`width=`"]);
    expect(b"width=3\n", 2, 2, &["ends after line 1", "`height=`"]);
    expect(b"width=3", 2, 1, &["not ended by a line feed"]);
    expect(b"\xef\xbb\xbfwidth=3\n", 2, 1, &["byte order mark"]);
    expect(b"\xff\xfew\0i\0", 2, 1, &["line feed"]);
    expect(b"width=3\r\nheight=1\r\n", 2, 1, &["carriage return", "width=3\\r"]);
    expect(b"Width=3\n", 2, 1, &["small letters"]);
    expect(b"width = 3\n", 2, 1, &["spaces"]);
    expect(b"width\n", 2, 1, &["without `=`"]);
    expect(b"# a block\nwidth=3\n", 2, 1, &["comment"]);
    expect(b"\nwidth=3\n", 2, 1, &["empty line"]);
    expect(b"height=3\nwidth=3\n", 2, 1, &["the key `height`", "order width height"]);
    expect(b"widht=3\n", 2, 1, &["the key `widht`", "no such key"]);
    expect(&with_line(9, "nets=2\n"), 2, 9, &["`east` of layer 2"]);
    expect(&with_line(11, "east=1,1\n"), 2, 11, &["raise `layers`, which is 2"]);
    expect(&with_line(13, "edges=0,0,e\n"), 2, 13, &["`net`, `pins` and `edges`"]);
    expect(&with_line(14, "net=2\n"), 2, 14, &["empty `edges=`"]);
    expect(&with_line(15, "pins=0,0,1\n"), 2, 15, &["`net=2`"]);
    expect(&[EXAMPLE, b"\n"].concat(), 2, 18, &["empty line after the last", "announces 2 nets"]);
    expect(&[EXAMPLE, b"net=3\n"].concat(), 2, 18, &["raise the 2"]);
    expect(&[EXAMPLE, b"bye"].concat(), 2, 18, &["not ended"]);
    expect(&with_line(11, "nets=3\n"), 2, 18, &["`nets=2`", "ends after line 17"]);
}

#[test]
fn values_of_another_form() {
    expect(b"width=03\n", 2, 1, &["zero before", "width=03", "^^"]);
    expect(b"width=\n", 2, 1, &["missing"]);
    expect(b"width=300000\n", 2, 1, &["five digits"]);
    expect(b"width=-3\n", 2, 1, &["sign"]);
    expect(b"width=3.5\n", 2, 1, &["whole number"]);
    expect(b"width=3 \n", 2, 1, &["spaces around"]);
    expect(b"width=3\x1b[31m\n", 2, 1, &["width=3\\x1b[31m", "not a number"]);
    expect(&with_line(7, "east=1\n"), 2, 7, &["1 entry", "2 capacities", "add the 1"]);
    expect(&with_line(7, "east=1,1,1\n"), 2, 7, &["3 entries", "take out 1"]);
    expect(&with_line(7, "east=1,\n"), 2, 7, &["entry 2: a number is missing", "comma too many"]);
    expect(&with_line(8, "north=1\n"), 2, 8, &["empty list"]);
    expect(&with_line(13, "pins=\n"), 2, 13, &["no pins"]);
    expect(&with_line(13, "pins=0,0,1;\n"), 2, 13, &["pin 2: an empty entry", "semicolon too many"]);
    expect(&with_line(13, "pins=0,0\n"), 2, 13, &["pin 1", "2 parts"]);
    expect(&with_line(13, "pins=0,0,1,2,0,1\n"), 2, 13, &["6 parts", "semicolon, not a comma"]);
    expect(&with_line(13, "pins=0,0,x\n"), 2, 13, &["layer: `x`"]);
    expect(&with_line(14, "edges=1,0,w\n"), 2, 14, &["written 0,0,e"]);
    expect(&with_line(14, "edges=0,1,s\n"), 2, 14, &["written 0,0,n"]);
    expect(&with_line(14, "edges=0,0,E\n"), 2, 14, &["small letters"]);
    expect(&with_line(14, "edges=0,0,up\n"), 2, 14, &["the way is `up`"]);
}

#[test]
fn numbers_out_of_range() {
    expect(b"width=65\n", 3, 1, &["`width` is 65", "from 1 to 64"]);
    expect(&with_line(3, "layers=9\n"), 3, 3, &["from 2 to 8"]);
    expect(&with_line(9, "east=1,65536\n"), 3, 9, &["entry 2 is 65536", "from tile 1,0 to tile 2,0 on layer 2"]);
    expect(&with_line(9, "east=99999,1\n"), 3, 9, &["entry 1 is 99999", "a capacity from 0 to 65535", "^^^^^"]);
    expect(&with_line(11, "nets=4097\n"), 3, 11, &["from 0 to 4096"]);
    expect(&with_line(13, "pins=3,0,1\n"), 3, 13, &["in pin 1 x is 3", "from 0 to 2"]);
    expect(&with_line(13, "pins=0,0,1;0,1,1\n"), 3, 13, &["in pin 2 y is 1"]);
    expect(&with_line(13, "pins=0,0,0\n"), 3, 13, &["the layer is 0", "from 1 to 2"]);
    expect(&with_line(14, "edges=2,0,e\n"), 3, 14, &["in edge 1 the way east from tile 2,0 leaves the grid"]);
    expect(&with_line(14, "edges=0,0,n\n"), 3, 14, &["no edge goes north from the last row"]);
    expect(&with_line(14, "edges=9,0,e\n"), 3, 14, &["x is 9"]);
}

#[test]
fn nets_pins_and_edges() {
    expect(&with_line(15, "net=1\n"), 4, 15, &["net 1 stands twice", "the 2nd net"]);
    expect(&with_line(15, "net=7\n"), 4, 15, &["before net 7"]);
    expect(&with_line(12, "net=0\n"), 4, 12, &["the 1st net"]);
    expect(&with_line(13, "pins=0,0,1;1,0,1;0,0,1\n"), 5, 13, &["entry 1 and again as entry 3"]);
    expect(&with_line(14, "edges=1,0,e;1,0,e\n"), 6, 14, &["edge 1,0,e as entry 1 and again as entry 2"]);
    expect(&with_line(14, "edges=0,0,e\n"), 8, 14, &["pin 2 of line 13, 2,0,1", "tile 1,0, which is reached"]);
    expect(&with_line(17, "edges=1,0,e\n"), 8, 17, &["not reached from the first pin's tile 0,0"]);
}

#[test]
fn a_number_that_has_ended() {
    let told = number_in_words(7).unwrap();
    assert!(told.starts_with("Refusal 7: rings: it no longer occurs\n") && told.contains("They are cut"), "{told}");
    assert!(overview().contains("\n   7  rings: it no longer occurs\n   8  "));
    assert_eq!((number_in_words(0), number_in_words(14)), (None, None));
}

#[test]
fn an_edge_apart_beside_a_ring() {
    let head = "width=4\nheight=2\nlayers=2\nalpha=1\nbeta=1\ngamma=0\neast=1,1,1,1,1,1\nnorth=1,1,1,1\n\
        east=1,1,1,1,1,1\nnorth=1,1,1,1\nnets=1\nnet=1\npins=0,0,1\n";
    let job = |edges: &str| format!("{head}edges={edges}\n").into_bytes();
    expect(&job("0,0,e;2,1,e"), 8, 14, &["edge 2, 2,1,e", "     ^^^^^"]);
    expect(
        &job("0,0,e;0,0,n;0,1,e;1,0,n;2,1,e"),
        8,
        14,
        &["edge 5, 2,1,e", "is not reached from the first pin's tile 0,0"],
    );
    expect(&job("0,0,e;0,0,n;0,1,e;1,0,n;1,0,n"), 6, 14, &["edge 1,0,n as entry 4 and again as entry 5"]);
    assert!(Planner::new().print(&job("0,0,e;1,0,e;0,0,n;0,1,e;2,0,n;1,1,e")).is_ok());
}

/// That the example with directions, with a line put in the place of another, is told so where it gets this number.
fn expect_directed(number: u32, line: u32, new: &str, words: &[&str]) {
    let text = replaced(DIRECTED, line as usize, new);
    let message = message("a.job", &text, Refusal { number, line }, Planner::new().lent());
    expect_words(&message, number, line, words);
}

#[test]
fn lines_of_directions_of_another_form() {
    expect_directed(
        2,
        4,
        "dirs=\n",
        &["0 letters", "with 3 letters `h` or `v`, comma between", "correct `layers` (3)"],
    );
    expect_directed(2, 4, "dirs=h,v\n", &["2 letters", "add the 1"]);
    expect_directed(
        2,
        4,
        "dirs=h,v,h,v\n",
        &["4 letters", "take out 1 from here on", "| dirs=h,v,h,v\n", "|            ^\n"],
    );
    expect_directed(2, 4, "dirs=h,v,\n", &["letter 3: missing", "comma too many"]);
    expect_directed(2, 4, "dirs=h,V,h\n", &["letter 2: `V` is not `h` or `v`", "write the letters small"]);
    expect_directed(2, 4, "dirs=hv,h\n", &["letter 1: `hv`", "put a comma between two letters"]);
    expect_directed(2, 4, "dirs=h;v;h\n", &["letter 1: `h;v;h`", "put a comma between two letters"]);
    expect_directed(2, 4, "dirs=h, v,h\n", &["letter 2: ` v`", "take the spaces out"]);
    expect_directed(2, 4, "dirs=e,n,e\n", &["letter 1: `e`", "`h` for a layer of east edges"]);
    expect_directed(2, 4, "dirs=h,x,h\n", &["letter 2: `x` is not `h` or `v`", "      ^"]);
    expect_directed(2, 4, "dirs=h,v,h\r\n", &["carriage return"]);
    let unended = message(
        "a.job",
        b"width=3\nheight=2\nlayers=3\ndirs=h,v,h",
        Refusal { number: 2, line: 4 },
        Lengths::enough(0),
    );
    expect_words(&unended, 2, 4, &["not ended by a line feed", "`dirs=` with 3 letters"]);
}

#[test]
fn the_key_of_directions_where_it_does_not_stand() {
    for line in ["Dirs=h,v,h\n", " dirs=h,v,h\n", "dirs =h,v,h\n", "dirs\n"] {
        expect_directed(
            2,
            4,
            line,
            &["`alpha=` and a number", "begin the line with `dirs=`, in small letters and without spaces"],
        );
    }
    expect_directed(2, 4, "dir=h,v,h\n", &["the key `dir`", "no such key; here stands `dirs` or `alpha`"]);
    expect_directed(2, 5, "dirs=h,v,h\n", &["the key `dirs`", "`alpha=`", "there is one such line"]);
    expect_directed(2, 6, "dirs=h,v,h\n", &["the key `dirs`", "right after `layers`, as line 4, or not at all"]);
    expect_directed(2, 2, "dirs=h,v,h\n", &["the key `dirs`", "`height=`", "right after `layers`"]);
    expect_directed(2, 2, "alpha=1\n", &["in the order width height layers", "[dirs] alpha beta"]);
}

#[test]
fn lines_behind_directions_have_their_kinds() {
    expect_directed(3, 10, "east=0,0,0,65536\n", &["entry 4 is 65536", "from tile 1,1 to tile 2,1 on layer 2"]);
    expect_directed(2, 14, "east=0,0,0,0\n", &["raise `layers`, which is 3"]);
    expect_directed(4, 18, "net=3\n", &["the 2nd net"]);
    expect_directed(8, 17, "edges=0,0,e;1,0,e\n", &["pin 2 of line 16, 2,1,1", "tile 2,0, which is reached"]);
    let text = [DIRECTED, b"\n"].concat();
    let after = message("a.job", &text, Refusal { number: 2, line: 27 }, Lengths::enough(0));
    expect_words(
        &after,
        2,
        27,
        &["an empty line after the last line", "after line 26: the `nets` line announces 4 nets"],
    );
}

#[test]
fn tracks_and_edges_against_the_directions() {
    expect_directed(
        12,
        10,
        "east=0,0,7,1\n",
        &[
            "entry 3 is 7, for the edge from tile 0,1 to tile 1,1 on layer 2",
            "0: by line 4 layer 2 is `v` and carries no east edges",
            "`h` for layer 2 on line 4",
            "| east=0,0,7,1\n         |          ^\n",
        ],
    );
    expect_directed(
        12,
        13,
        "north=0,0,65535\n",
        &["entry 3 is 65535", "layer 3 is `h` and carries no north edges", "^^^^^"],
    );
    // a line of directions of which none is `v`
    let text = replaced(DIRECTED, 4, "dirs=h,h,h\n");
    let told = message("a.job", &text, Refusal { number: 13, line: 17 }, Lengths::enough(0));
    let words =
        ["edge 3, 2,0,n, goes north, and no layer is `v`", "line 4 has `dirs=h,h,h`", "`v` for a layer on line 4"];
    expect_words(&told, 13, 17, &words);
    expect_words(&told, 13, 17, &["| edges=0,0,e;1,0,e;2,0,n\n         |                   ^^^^^\n"]);
}

#[test]
fn working_numbers_are_told_on_the_line_of_directions() {
    let lent = Lengths { work: 247, ..Lengths::enough(0) };
    let told = message("a.job", DIRECTED, Refusal { number: 9, line: 4 }, lent);
    expect_words(&told, 9, 4, &["247 working numbers lent", "248 or more", "4 | dirs=h,v,h"]);
}

/// That the example with wanted layers, with a line put in the place of another, gets this number there and is told so.
fn expect_timing(number: u32, line: u32, new: &str, words: &[&str]) {
    expect(&replaced(TIMING, line as usize, new), number, line, words);
}

#[test]
fn lines_of_wanted_layers_of_another_form() {
    expect_timing(2, 15, "low=\n", &["a number is missing", "`low=` of net 1 and a number from 1 to 3"]);
    expect_timing(2, 15, "low=03\n", &["`03` has a zero before other digits", "| low=03\n         |     ^^\n"]);
    expect_timing(2, 19, "low= 3\n", &["spaces around the number", "`low=` of net 2"]);
    expect_timing(2, 15, "low=3;\n", &["`3;` is not a number"]);
    expect_timing(2, 15, "low=2,3\n", &["`2,3` is not a number"]);
    expect_timing(2, 15, "low=-1\n", &["has a sign"]);
    expect_timing(2, 15, "low=100000\n", &["more than five digits"]);
    expect_timing(2, 15, "low=3\r\n", &["carriage return"]);
    let start = TIMING.windows(6).position(|part| part == b"low=3\n").unwrap();
    expect(&TIMING[..start + 5], 2, 15, &["not ended by a line feed", "`low=` of net 1"]);
    expect(&TIMING[..start], 2, 15, &["ends after line 14", "`pins=` of net 1"]);
}

#[test]
fn wanted_layers_out_of_range() {
    let advice = "name one of the 3 layers, or take the line out if net 2 may be on any layer";
    expect_timing(3, 19, "low=0\n", &["`low` is 0", "a number from 1 to 3", advice]);
    expect_timing(3, 19, "low=4\n", &["`low` is 4", "a number from 1 to 3", "| low=4\n         |     ^\n"]);
    expect_timing(3, 15, "low=99999\n", &["`low` is 99999", "if net 1 may be on any layer"]);
}

#[test]
fn the_key_of_wanted_layers_where_it_does_not_stand() {
    for line in ["Low=3\n", " low=3\n", "low =3\n", "low\n", "LOW=3\n"] {
        let words = ["`pins=` of net 1", "begin the line with `low=`, in small letters and without spaces"];
        expect_timing(2, 15, line, &words);
    }
    let place = "a `low` line stands right after the `net` line of its net, or not at all";
    expect_timing(2, 15, "lows=3\n", &["the key `lows`", "no such key; here stands `low` or `pins`"]);
    expect_timing(2, 16, "lows=3\n", &["the key `lows`", "no such key; here stands `pins`"]);
    expect_timing(2, 16, "low=3\n", &["the key `low`", "`pins=` of net 1", "take it out: a net has one such line"]);
    expect_timing(
        2,
        28,
        "low=2\n",
        &["the key `low`", "`edges=` of net 4", "put it before the `pins` line: a `low` line stands"],
    );
    expect_timing(2, 17, "low=3\n", &["the key `low`", "`edges=` of net 1", "a net has one such line"]);
    expect_timing(2, 18, "low=3\n", &["the key `low`", "`net=2`", place]);
    expect_timing(2, 13, "low=3\n", &["the key `low`", "`nets=`", place]);
    expect(&[TIMING, b"low=2\n"].concat(), 2, 37, &["text after the last line", place]);
    expect_timing(2, 2, "alpha=1\n", &["[dirs] alpha beta", "net [low] pins edges"]);
}

#[test]
fn lines_behind_wanted_layers_have_their_kinds() {
    expect_timing(3, 16, "pins=0,0,4\n", &["in pin 1 the layer is 4"]);
    expect_timing(5, 20, "pins=0,0,1;0,0,1\n", &["entry 1 and again as entry 2"]);
    expect_timing(6, 21, "edges=0,0,e;0,0,e\n", &["edge 0,0,e as entry 1 and again as entry 2"]);
    expect_timing(8, 21, "edges=0,0,e\n", &["pin 2 of line 20, 2,0,2", "tile 1,0, which is reached"]);
    expect_timing(4, 26, "net=5\n", &["net number 5", "the 4th net"]);
    expect_timing(4, 29, "net=4\n", &["net 4 stands twice", "the 5th net"]);
    expect_timing(2, 29, "pins=0,0,1\n", &["`net=5`", "each net has `net`, `pins` and `edges`"]);
    expect(&[TIMING, b"\n"].concat(), 2, 37, &["an empty line after the last line", "after line 36"]);
    let lent = Lengths { answer: 10, ..Planner::new().lent() };
    let refusal = Planner::lending(lent).print(TIMING).unwrap_err();
    let told = message("a.job", TIMING, refusal, lent);
    expect_words(&told, 11, 36, &["10 bytes of answer list lent", "11 or more"]);
}

#[test]
fn a_text_too_long() {
    let (number, line, message) = refused(&vec![b'x'; layerplan::TEXT_MOST + 1]);
    assert_eq!((number, line), (1, 0));
    assert!(message.starts_with("a.job: refused 1: the text is too long\n  found"), "{message}");
}

#[test]
fn an_unknown_number_is_told_as_such() {
    let lent = Lengths::enough(0);
    assert!(message("a", b"", Refusal { number: 77, line: 3 }, lent).starts_with("a:3: refused 77"));
}
