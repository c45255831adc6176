//! Request 2026-08: which texts are in the grammar, and where the others leave it.

use independent::declaration::{in_grammar, Start};
use independent::random::Random;
use independent::texts::{damaged, extreme, grown, jumbled};

fn place(text: &str) -> Result<(), usize> {
    in_grammar(text.as_bytes(), Start::Prototype)
}

#[test]
fn what_makers_paste_is_in_the_grammar() {
    for text in [
        "double level(int key, struct { float a; int b; } p, ...);",
        "extern const char * const name(void)",
        "void f()",
        "int (...)",
        "unsigned long long int f(signed char c, short unsigned s)",
        "void process(struct plugin *p, float **in, float **out, unsigned frames);",
        "const char *name(const clap_plugin_t *plugin, uint32_t index, void (*done)(void *), bool on);",
        "int f(int (*compare)(const void *, const void *), int a[], int b[4][5])",
        "union { struct { int a, *b, c[3]; } s; long double _Complex z; } g(__m256 v)",
    ] {
        assert_eq!(place(text), Ok(()), "{text}");
    }
}

#[test]
fn the_place_is_the_first_byte_after_which_nothing_fits() {
    // A third `long` could go on to be a name, and so could every reserved word.
    assert_eq!(place("int f(long long long, int)"), Err(20));
    assert_eq!(place("int f(long long longer, int)"), Ok(()));
    // A name that is not reserved may be what a pointer points to.
    assert_eq!(place("int f(foo)"), Err(9));
    assert_eq!(place("int f(foo *p)"), Ok(()));
    assert_eq!(place("int f(foo p)"), Err(10));
    assert_eq!(place("int f(size_t n, uint32_t m)"), Ok(()));
    assert_eq!(place("int f(unsigned size_t)"), Err(21));
    assert_eq!(place("int f(struct { int a[010]; } s)"), Err(22));
    assert_eq!(place("int f(int /* frames */ n)"), Err(10));
    assert_eq!(place("int f(struct { int a[0]; } s)"), Ok(()));
    assert_eq!(place("int f(struct { } s)"), Err(15));
    assert_eq!(place("int f(struct t s)"), Err(15));
    assert_eq!(place("int f(int a) /* level */"), Err(13));
    assert_eq!(place("int f(int a) ; ;"), Err(15));
    assert_eq!(place("int f(int, . . .)"), Err(12));
    assert_eq!(place("int f(.... )"), Err(9));
}

#[test]
fn a_text_that_only_stops_short_has_its_length_as_place() {
    for text in [
        "",
        " ",
        "lon",
        "int",
        "int f",
        "int f(",
        "int f(int a[",
        "int f(int, ..",
        "struct { int a; }",
    ] {
        assert_eq!(place(text), Err(text.len()), "{text}");
    }
}

#[test]
fn every_grown_text_is_in_the_grammar() {
    let mut random = Random::new(26);
    for start in [Start::Prototype, Start::Types] {
        for _ in 0..1000 {
            let text = grown(start, &mut random);
            assert_eq!(in_grammar(&text, start), Ok(()), "{}", String::from_utf8_lossy(&text));
        }
    }
}

/// The place by its own words, on short texts: the text up to the byte before it can go on,
/// since its place is its length or it is in the grammar, and with that byte it cannot.
#[test]
fn a_place_is_where_the_text_before_it_still_fits() {
    let mut random = Random::new(8);
    for _ in 0..300 {
        let text = match random.below(2) {
            0 => damaged(&grown(Start::Prototype, &mut random), &mut random),
            _ => jumbled(&mut random),
        };
        let Err(place) = in_grammar(&text, Start::Prototype) else { continue };
        for end in 0..=place {
            let before = in_grammar(&text[..end], Start::Prototype);
            assert!(before == Ok(()) || before == Err(end), "{}", String::from_utf8_lossy(&text));
        }
        if place < text.len() {
            assert_eq!(in_grammar(&text[..place + 1], Start::Prototype), Err(place));
        }
    }
}

#[test]
fn long_and_deep_texts_end() {
    let reading = || {
        for text in extreme() {
            let _ = in_grammar(&text, Start::Prototype);
        }
    };
    std::thread::Builder::new().stack_size(256 << 20).spawn(reading).unwrap().join().unwrap();
}
