//! Cuts the Rust under test out of a checkout of Chialisp, which the environment variable CHIALISP_SRC names, into OUT_DIR.
//! Nothing of it is kept in this repository. A missing item stops the build with its name.

mod cut;

use std::path::{Path, PathBuf};
use std::{env, fs};

const DEFAULT_CHECKOUT: &str = "../../../shared/docs/src";

/// A file that is taken whole, and functions that it must have.
const WHOLE: &[(&str, &str, &[&str])] = &[
    (
        "src/compiler/rename.rs",
        "rename.rs",
        &[
            "fn invent_new_names_sexp",
            "fn rename_in_cons",
            "fn rename_in_qq",
            "fn rename_in_bodyform",
            "fn rename_assign_bindings",
            "fn rename_args_helperform",
            "fn rename_children_compileform",
            "fn rename_args_compileform",
        ],
    ),
    ("src/compiler/gensym.rs", "gensym.rs", &["fn gensym"]),
];

/// A file, and the items that are cut out of it. `impl X :: fn f` is one method.
const PARTS: &[(&str, &str, &[&str])] = &[
    ("src/compiler/sexp.rs", "sexp.rs", SEXP),
    ("src/compiler/comptypes.rs", "comptypes.rs", COMPTYPES),
    ("src/compiler/frontend.rs", "frontend.rs", &["fn make_provides_set"]),
    ("src/compiler/codegen.rs", "codegen.rs", &["fn toposort_assign_bindings"]),
    ("src/util/mod.rs", "util.rs", &["type Number", "fn u8_from_number", "struct TopoSortItem", "fn toposort"]),
];

const SEXP: &[&str] = &[
    "enum SExp",
    "impl Eq for SExp",
    "impl PartialEq for SExp",
    "fn make_cons",
    "fn enlist",
    "impl SExp :: fn loc",
    "impl SExp :: fn with_loc",
    "impl SExp :: fn atom_from_string",
    "impl SExp :: fn atom_from_vec",
    "impl SExp :: fn nilp",
    "impl SExp :: fn atomize",
    "impl SExp :: fn equal_to",
    "impl SExp :: fn proper_list",
];

const COMPTYPES: &[&str] = &[
    "struct CompileErr",
    "fn list_to_cons",
    "enum BindingPattern",
    "enum LetFormInlineHint",
    "struct Binding",
    "enum LetFormKind",
    "struct LetData",
    "struct LambdaData",
    "enum BodyForm",
    "enum SyntheticType",
    "struct DefunData",
    "struct DefmacData",
    "struct DefconstData",
    "enum ConstantKind",
    "struct ImportLongName",
    "enum LongNameTranslation",
    "impl ImportLongName :: fn as_u8_vec",
    "struct QualifiedModuleInfoTarget",
    "struct QualifiedModuleInfo",
    "struct ModuleImportListedName",
    "impl ModuleImportListedName",
    "enum ModuleImportSpec",
    "impl ModuleImportSpec :: fn to_sexp",
    "struct NamespaceData",
    "struct NamespaceRefData",
    "enum HelperForm",
    "enum IncludeProcessType",
    "struct IncludeDesc",
    "struct CompileForm",
    "impl CompileForm :: fn loc",
    "impl CompileForm :: fn to_sexp",
    "fn generate_defmacro_sexp",
    "impl HelperForm :: fn to_sexp",
    "fn compose_lambda_serialized_form",
    "fn compose_let",
    "fn compose_assign",
    "fn get_let_marker_text",
    "impl BodyForm",
    "impl Binding",
    "fn map_m",
    "fn map_m_reverse",
];

fn main() {
    println!("cargo:rerun-if-env-changed=CHIALISP_SRC");
    println!("cargo:rerun-if-changed=build.rs");
    println!("cargo:rerun-if-changed=cut.rs");
    let out = PathBuf::from(env::var("OUT_DIR").expect("cargo sets OUT_DIR"));
    let checkout = checkout();
    for (file, name, needed) in WHOLE {
        let text = source(&checkout, file);
        for wanted in *needed {
            part(file, &text, wanted);
        }
        write(&out, name, &text);
    }
    for (file, name, wanted) in PARTS {
        let text = source(&checkout, file);
        let parts: Vec<String> = wanted.iter().map(|wanted| part(file, &text, wanted)).collect();
        write(&out, name, &parts.join("\n\n"));
    }
}

fn checkout() -> PathBuf {
    let package = PathBuf::from(env::var("CARGO_MANIFEST_DIR").expect("cargo sets CARGO_MANIFEST_DIR"));
    match env::var("CHIALISP_SRC") {
        Ok(folder) => PathBuf::from(folder),
        Err(_) => package.join(DEFAULT_CHECKOUT),
    }
}

fn source(checkout: &Path, file: &str) -> String {
    let path = checkout.join(file);
    println!("cargo:rerun-if-changed={}", path.display());
    fs::read_to_string(&path).unwrap_or_else(|why| stop(&format!("CHIALISP_SRC has no {file}: {why}")))
}

fn part(file: &str, text: &str, wanted: &str) -> String {
    let found = match wanted.split_once(" :: ") {
        None => cut::item(text, wanted).map(str::to_string),
        Some((owner, name)) => cut::method(text, owner, name).map(|method| format!("{owner} {{\n    {method}\n}}")),
    };
    found.unwrap_or_else(|| stop(&format!("{file} of CHIALISP_SRC has no {wanted}")))
}

fn write(out: &Path, name: &str, text: &str) {
    fs::write(out.join(name), cut::without_serde(text)).unwrap_or_else(|why| stop(&format!("cannot write {name}: {why}")));
}

fn stop(why: &str) -> ! {
    eprintln!("{why}");
    std::process::exit(1)
}
