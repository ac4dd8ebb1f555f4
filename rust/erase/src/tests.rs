//! What is taken out, and what isn't known.

use crate::erase::{Place, erase};

const PLACE: Place<'_> = Place {
    krate: "qs_own",
    erased: &["qs_own", "qs_other"],
    laws: false,
    laws_alone: false,
    program: false,
    inlines: false,
};

fn is_made(rattle: &str, rust: &str) {
    assert_eq!(
        erase(&PLACE, rattle).map_err(|unknown| unknown.what),
        Ok(rust.to_owned())
    );
}

/// The eraser stops at that text.
fn stops(rattle: &str, at: &str) {
    match erase(&PLACE, rattle) {
        Ok(rust) => panic!("it made {rust:?}"),
        Err(unknown) => assert!(rattle[unknown.at..].starts_with(at), "{}", unknown.what),
    }
}

#[test]
fn a_contract_goes() {
    is_made(
        "fn f(a: u8) -> u8\n    requires { a < 2 ^ 4 }\n    // Why.\n    ensures same { result ≡ a }\n{\n    a\n}\n",
        "fn f(a: u8) -> u8 {\n    a\n}\n",
    );
    is_made("fn f(a: u8)\n    requires { a < 4 };\n", "fn f(a: u8);\n");
    is_made(
        "fn f(a: &mut u8) -> &mut u8\n    ensures* writes_back { follows a result }\n{\n    a\n}\n",
        "fn f(a: &mut u8) -> &mut u8 {\n    a\n}\n",
    );
    is_made(
        "fn f(a: u64, b: &mut [u8])\n    requires { (a ≤ 2 ^ 4) × (1 ≤ length b.old) }\n    requires other { a < length b.old }\n{\n}\n",
        "fn f(a: u64, b: &mut [u8]) {\n    debug_assert!(a <= 1 << 4);\n    debug_assert!(1 <= b.len());\n}\n",
    );
}

#[test]
fn ghosts_go_with_their_comments() {
    is_made(
        "//! A file.\n\nghost use A.{◌≡◌};\n\nuse std::marker::Model;\nuse std::mem;\n\n// A view.\nimpl<'a> Model for T<'a> {\n    ghost view = { λ t. t };\n}\n\nstruct S;\n",
        "//! A file.\n\nuse crate::shim::mem;\n\nstruct S;\n",
    );
}

#[test]
fn paths_have_their_roots() {
    is_made(
        "use crate::a::B;\nuse qs_other::C;\nuse a::D;\n",
        "use crate::proved::qs_own::a::B;\nuse crate::proved::qs_other::C;\nuse a::D;\n",
    );
    stops("use qs_unknown::C;\n", "qs_unknown");
}

#[test]
fn laws_that_are_handed_on_go() {
    let rattle = "use qs_other::C;\npub use qs_other::laws::{a, b};\n";
    let place = Place {
        laws: true,
        ..PLACE
    };
    assert_eq!(
        erase(&place, rattle).map_err(|unknown| unknown.what),
        Ok("use crate::proved::qs_other::C;\n".to_owned())
    );
    is_made(
        rattle,
        "use crate::proved::qs_other::C;\npub use crate::proved::qs_other::laws::{a, b};\n",
    );
    is_made("use a::D;\npub use qs_other::laws;\n", "use a::D;\n");
}

#[test]
fn a_module_of_laws_alone_goes() {
    let rattle = "mod a;\npub mod laws;\nmod z;\n";
    let place = Place {
        laws_alone: true,
        ..PLACE
    };
    assert_eq!(
        erase(&place, rattle).map_err(|unknown| unknown.what),
        Ok("mod a;\nmod z;\n".to_owned())
    );
    is_made(rattle, rattle);
}

#[test]
fn laws_go_with_all_above_them() {
    let place = Place {
        laws: true,
        ..PLACE
    };
    let rattle = "/// What holds.\n#[tactic(auto, using(crate::proofs::A::b))]\npub fn law()\n    ensures { Holds }\n{}\n\npub fn other() {\n    act();\n}\n";
    assert_eq!(
        erase(&place, rattle).map_err(|unknown| unknown.what),
        Ok("pub fn other() {\n    act();\n}\n".to_owned())
    );
}

#[test]
fn text_and_characters_stay() {
    is_made(
        "const A: &str = \"ghost // requires \\\" {\";\nconst B: u8 = b'\\'';\nconst C: char = '{';\n",
        "const A: &str = \"ghost // requires \\\" {\";\nconst B: u8 = b'\\'';\nconst C: char = '{';\n",
    );
}

#[test]
fn an_error_has_its_message() {
    is_made(
        "#[derive(Debug, Drop, Error)]\npub enum E {\n    /// Why.\n    #[error(\"no {0:x}\")]\n    No(u8),\n    #[error(\"it\")]\n    It { a: u8 },\n}\n",
        "#[derive(Debug)]\npub enum E {\n    /// Why.\n    No(u8),\n    It { a: u8 },\n}\n\nimpl core::fmt::Display for E {\n    fn fmt(&self, f: &mut core::fmt::Formatter<'_>) -> core::fmt::Result {\n        match self {\n            Self::No(field) => write!(f, \"no {0:x}\", field),\n            Self::It { .. } => f.write_str(\"it\"),\n        }\n    }\n}\n\nimpl core::error::Error for E {}\n",
    );
}

#[test]
fn a_call_for_c_is_a_plain_function() {
    is_made(
        "mod answers;\n\n#[unsafe(no_mangle)]\npub extern \"C\" fn f(a: u8) -> u8\n    ensures { result ≡ a }\n{\n    a\n}\n",
        "pub(crate) mod answers;\n\npub fn f(a: u8) -> u8 {\n    a\n}\n",
    );
    is_made("mod answers;\n", "mod answers;\n");
    stops("pub extern \"system\" fn f() {}\n", "extern");
    stops("#[unsafe(link_section)]\nfn f() {}\n", "unsafe");
}

#[test]
fn a_ghost_field_goes_with_its_code() {
    is_made(
        "struct S {\n    a: u8,\n    pub(crate) ghost value: { N } by { coded n },\n}\n",
        "struct S {\n    a: u8,\n}\n",
    );
}

#[test]
fn a_hint_on_inlining_stays() {
    is_made(
        "#[inline(never)]\nfn f()\n    requires { a }\n{}\n",
        "#[inline(never)]\nfn f() {}\n",
    );
}

#[test]
fn a_short_function_that_others_call_is_inlined() {
    let place = Place {
        inlines: true,
        ..PLACE
    };
    let made = |rattle: &str| erase(&place, rattle).map_err(|unknown| unknown.what);
    assert_eq!(
        made(
            "/// It.\npub(crate) fn f()\n    ensures { a }\n{}\n\nimpl T {\n    #[cfg(test)]\n    pub const fn h(a: [u8; 2]) {\n        fn inner() {}\n    }\n}\n"
        ),
        Ok("/// It.\n#[inline]\npub(crate) fn f() {}\n\nimpl T {\n    #[cfg(test)]\n    #[inline]\n    pub const fn h(a: [u8; 2]) {\n        fn inner() {}\n    }\n}\n".to_owned())
    );
    for same in [
        "#[inline(never)]\n#[cfg(a)]\npub fn f() {}\n",
        "#[test]\nfn f() {}\n",
        "pub type F = fn(u8) -> u8;\n",
    ] {
        assert_eq!(made(same), Ok(same.to_owned()));
    }
    let of_lines = |count: usize| format!("pub fn f() {{\n{}}}\n", "    a();\n".repeat(count - 2));
    assert_eq!(
        made(&of_lines(40)),
        Ok(format!("#[inline]\n{}", of_lines(40)))
    );
    assert_eq!(made(&of_lines(41)), Ok(of_lines(41)));
}

#[test]
fn a_step_of_a_proof_goes_with_its_calls() {
    is_made(
        "impl S {\n    /// What holds.\n    #[inline(always)]\n    pub(crate) fn learn_sum(&self)\n        ensures { sum self.now ≡ 0 }\n    {\n        let _a = self.a;\n    }\n\n    fn f(&mut self) {\n        self.learn_sum();\n        part(self.all[0], 1).learn_sum();\n        self.a = 1;\n    }\n}\n",
        "impl S {\n    fn f(&mut self) {\n        self.a = 1;\n    }\n}\n",
    );
    stops("fn learn_sum(a: &mut u8) {\n}\n", "learn_sum");
    stops("fn learn_sum() -> u8 {\n    1\n}\n", "learn_sum");
    stops("fn f() {\n    let a = s.learn_sum();\n}\n", "learn_sum");
    stops("use crate::a::learn_sum;\n", "learn_sum");
}

#[test]
fn unknown_forms_stop_it() {
    stops("fn f() {\n    let ghost = 1;\n}\n", "ghost");
    stops("fn f()\n    ensures a ≡ b\n{}\n", "ensures");
    stops("fn f() {\n    prove!(a < b);\n}\n", "prove");
    stops("fn f() {\n    v.sort();\n}\n", "sort");
    stops("fn f() {\n    let v = i.collect();\n}\n", "collect");
    stops("#[cold]\nfn f() {}\n", "cold");
    stops(
        "type D = Box<dyn A + Drop + B>;\nfn f(d: Drop) {}\n",
        "Drop)",
    );
    stops("fn f() {\n    a ≤ b\n}\n", "≤");
    stops("/* a */\n", "/*");
    stops("const A: &str = \"\n", "\"");
}
