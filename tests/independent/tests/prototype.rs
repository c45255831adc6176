//! Request 2026-08: what a prototype says, and the declaration that says a named part.

use independent::declaration::Start;
use independent::description::{Model, MODELS};
use independent::generator::{random_description, MIDDLE, SMALL};
use independent::notation::description;
use independent::places::accepted;
use independent::prototype::{declaration, named_part, read, Unread};
use independent::random::Random;
use independent::refusal::Refusal;
use independent::texts::{damaged, grown};
use independent::tidying::tidy;

fn says(text: &str, function: &str) {
    let read = read(text.as_bytes(), Model::Lp64).expect(text);
    assert_eq!(read, tidy(&description(function)).expect(function), "{text}");
}

#[test]
fn prototypes_say_what_they_say_in_c() {
    says("double level(int key, struct { float a; int b; } p);", "double: int, struct{float, int}");
    says("void f(void)", "void:");
    says("void f()", "void:");
    says(
        "void *f(const char *, char name[], int (*done)(struct t *, ...))",
        "pointer: pointer, pointer, pointer",
    );
    says(
        "unsigned long long f(unsigned long, long long int, size_t, uint16_t)",
        "long: long, long, long, short",
    );
    says("int f(struct { char a[2][3], *b; } s)", "int: struct{char[3][2], pointer}");
    says("foo *f(void (*g)(int), long double _Complex z)", "pointer: pointer, complex_long_double");
    says("int f(union { __m256 v; double d[2]; } u, bool b)", "int: union{m256, double[2]}, bool");
    says(
        "int f(struct { void (*call)(int, struct { int a; }); foo *p; } s)",
        "int: struct{pointer, pointer}",
    );
}

#[test]
fn long_is_the_models_own() {
    let bytes = |text: &str, model| read(text.as_bytes(), model).expect(text);
    assert_eq!(
        bytes("void f(long, long long)", Model::Lp64),
        tidy(&description("void: long, long")).unwrap()
    );
    assert_eq!(
        bytes("void f(long, long long)", Model::Ilp32),
        tidy(&description("ilp32 void: int, long")).unwrap()
    );
}

/// "types first completed inside a target leave the table again"
#[test]
fn a_target_counts_for_nothing() {
    let bytes = read(b"int f(struct {short a;} *p, short b)", Model::Lp64).unwrap();
    assert_eq!(bytes[5], 3);
    assert_eq!(&bytes[11..23], &[0, 3, 0, 0, 0, 15, 0, 0, 0, 2, 0, 0]);
    let members: String = (0..300).map(|n| format!("int m{n};")).collect();
    assert!(read(format!("int f(struct {{ {members} }} *p);").as_bytes(), Model::Lp64).is_ok());
    let refused = read(format!("int f(struct {{ {members} }} p);").as_bytes(), Model::Lp64);
    assert_eq!(refused, Err(Unread::Refused(Refusal::CountsAgainstRules)));
}

#[test]
fn limits_are_judged_on_the_tidy_result() {
    let ints = vec!["int"; 64].join(",");
    assert!(read(format!("int f({ints})").as_bytes(), Model::Lp64).is_ok());
    let four = Err(Unread::Refused(Refusal::CountsAgainstRules));
    assert_eq!(read(format!("int f({ints}, int)").as_bytes(), Model::Lp64), four);
    let six = Err(Unread::Refused(Refusal::RecordAgainstRules(1)));
    for size in ["0", "99999", "99999999999999999999999"] {
        let text = format!("void f(struct {{ int a[{size}]; }} s)");
        assert_eq!(read(text.as_bytes(), Model::Lp64), six, "{text}");
    }
    assert_eq!(
        read(format!("int f(int {})", "a".repeat(4096)).as_bytes(), Model::Lp64),
        Err(Unread::TooLong)
    );
}

/// "reading that gives the tidy form of that part": of random descriptions.
#[test]
fn a_declaration_is_read_back_as_the_named_part() {
    let mut random = Random::new(29);
    let (mut read_back, mut too_long) = (0, 0);
    for index in 0..3000 {
        let bytes = random_description(&mut random, if index % 4 == 0 { MIDDLE } else { SMALL });
        let Ok(given) = accepted(&bytes) else { continue };
        let d = given.types.description();
        let Some(text) = declaration(d) else {
            too_long += 1;
            continue;
        };
        let Ok(part) = named_part(&bytes) else { continue };
        assert_eq!(read(text.as_bytes(), d.model()), Ok(part), "{text}");
        read_back += 1;
    }
    assert!(read_back > 500 && too_long < read_back, "{read_back} read back, {too_long} too long");
}

/// Whatever is read and accepted is tidy, in both models, and its declaration is read
/// back as itself.
#[test]
fn what_is_read_is_tidy() {
    let mut random = Random::new(30);
    for _ in 0..2000 {
        let text = grown(Start::Prototype, &mut random);
        for model in MODELS {
            let Ok(bytes) = read(&text, model) else { continue };
            assert_eq!(tidy(&bytes).as_ref(), Ok(&bytes), "{}", String::from_utf8_lossy(&text));
            let again = declaration(accepted(&bytes).unwrap().types.description());
            if let Some(again) = again {
                assert_eq!(read(again.as_bytes(), model), Ok(bytes));
            }
        }
        let _ = read(&damaged(&text, &mut random), Model::Lp64);
    }
}
