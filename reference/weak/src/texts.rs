//! What the translation is tried on.

/// Texts that are no part of a crate as it is known here, each to be refused, and one to be taken.
pub fn own_tests() -> Vec<(&'static str, bool)> {
    let refused = [
        "fn f() requires { x } fn g() {}\n",
        "fn f()\n    ensures { result\n{\n    1;\n}\n",
        "fn f()\n    decreases { n }\n{}\n",
        "fn f() {\n    ghost let x = 1;\n}\n",
        "fn f() {\n    invariant { x ≡ 1 }\n}\n",
        "fn f() {\n    unsafe { 1 }\n}\n",
        "#[inline]\nfn f() {}\n",
        "#[tactic(auto)] fn f() {}\n",
        "#[tactic(auto)\nfn f() {}\n",
        "#[derive(Clone, Copy, Drop)]\nstruct S {\n    a: u8,\n}\n",
        "fn f() {\n    #[tactic(auto)]\n    1;\n}\n",
        "ghost fn f() {}\n",
        "ghost use a.b.{c}; fn f() {}\n",
        "ghost use a.b.{c,\nfn f() {\n    1;\n}\n",
        "ghost use a.b\nfn f() {}\n",
        "extern \"C\" {}\n",
        "pub extern \"C\" fn f() {}\n",
        "fn f() {\n    static X: u8 = 1;\n}\n",
        "fn f() -> u8 {\n    std::mem::take(1)\n}\n",
        "trait T {\n    fn f() {\n        1;\n    }\n}\n",
        "trait T {\n    ghost g: {\n        x };\n}\n",
        "impl A for B {\n    type C = u8;\n}\n",
        "struct S {\n    ghost a: { x }, b: u8,\n}\n",
        "impl A for B {\n    ghost g = { x }; fn f() {}\n}\n",
        "#[derive(Clone, Copy, Debug)]\nstruct S;\n",
        "/* text */\n",
        "fn f() {\n    g(\"text\");\n}\n",
        "fn f()\n    ensures { result } {\n    1;\n}\n",
        "fn f() {\n",
        "impl S {\n    const X: u8 = 1;\n}\n",
        "mod m { fn f() {} }\n",
        "let x = 1;\n",
    ];
    let taken = "// why\n#![tactic(auto)]\nghost use a.b.{c};\nghost use a.b.{\n    d,\n};\n#[derive(Clone, Copy)]\npub(crate) struct S {\n    pub a: [u8; 2],\n}\n\
                 #[tactic(\n    auto,\n    using(crate::a[1]),\n)]\nfn f<'a>(s: &'a [u8]) -> [u8; 2]\n    requires { x }\n    ensures it_holds {\n        result.{a} }\n\
                 {\n    let x = b\"\\\"}\";\n    crate::g(b'}', x)\n}\n\
                 #[derive(Clone, Copy, PartialEq, Eq)]\npub struct U;\nstruct V<'a> {\n    a: &'a [u8],\n    pub ghost b: { x },\n}\nstatic X: [u8; 2] = [1, 2];\n\
                 pub trait T<const N: usize> {\n    ghost g: { x };\n    fn f(s: &mut [u8; N]) -> Option<Result<u8, S>>\n        requires { x }\n        ensures a { x };\n}\n\
                 impl T<64> for U {\n    ghost g = { x };\n    fn f(s: &mut [u8; 64]) -> Option<Result<u8, S>> {\n        g(x?)\n    }\n}\n\
                 pub fn f<const N: usize, H: T<N>>(s: [u8; N]) -> u8\n    ensures { x }\n{\n    H::f(s)\n}\n";
    refused.into_iter().map(|text| (text, false)).chain([(taken, true)]).collect()
}

/// What `own_tests` expects of its last text.
pub const TAKEN: &str = "#[derive(Clone, Copy)]\npub(crate) struct S {\n    pub a: [u8; 2],\n}\nfn f<'a>(s: &'a [u8]) -> [u8; 2]\n{\n    \
                         let x = b\"\\\"}\";\n    here::g(b'}', x)\n}\n\
                         #[derive(Clone, Copy, PartialEq, Eq)]\npub struct U;\nstruct V<'a> {\n    a: &'a [u8],\n}\nstatic X: [u8; 2] = [1, 2];\n\
                         pub trait T<const N: usize> {\n    fn f(s: &mut [u8; N]) -> Option<Result<u8, S>>\n          ;\n}\n\
                         impl T<64> for U {\n    fn f(s: &mut [u8; 64]) -> Option<Result<u8, S>> {\n        g(x?)\n    }\n}\n\
                         pub fn f<const N: usize, H: T<N>>(s: [u8; N]) -> u8\n{\n    H::f(s)\n}\n";
