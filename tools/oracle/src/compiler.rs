//! The Rust under test, cut out of its files by the build, at the module paths that it names itself by.

#![allow(dead_code)]

pub mod srcloc {
    pub use crate::shims::Srcloc;
}

pub mod sexp {
    use crate::compiler::srcloc::Srcloc;
    use crate::shims::zero;
    use crate::util::{u8_from_number, Number};
    use std::borrow::Borrow;
    use std::rc::Rc;

    include!(concat!(env!("OUT_DIR"), "/sexp.rs"));
}

pub mod comptypes {
    use crate::compiler::sexp::{enlist, SExp};
    use crate::compiler::srcloc::Srcloc;
    use crate::shims::truthy;
    use std::rc::Rc;

    include!(concat!(env!("OUT_DIR"), "/comptypes.rs"));
}

pub mod frontend {
    use crate::compiler::sexp::SExp;
    use std::collections::HashSet;
    use std::rc::Rc;

    include!(concat!(env!("OUT_DIR"), "/frontend.rs"));
}

pub mod codegen {
    use crate::compiler::comptypes::{Binding, BindingPattern, CompileErr};
    use crate::compiler::frontend::make_provides_set;
    use crate::compiler::srcloc::Srcloc;
    use crate::util::{toposort, TopoSortItem};
    use std::collections::HashSet;
    use std::rc::Rc;

    include!(concat!(env!("OUT_DIR"), "/codegen.rs"));
}

pub mod gensym {
    include!(concat!(env!("OUT_DIR"), "/gensym.rs"));
}

pub mod rename {
    include!(concat!(env!("OUT_DIR"), "/rename.rs"));

    /// What the file keeps to itself.
    pub mod inner {
        use super::{BodyForm, CompileErr, HashMap, Rc, SExp};

        pub type Map = HashMap<Vec<u8>, Vec<u8>>;

        pub fn invent_new_names_sexp(body: Rc<SExp>) -> Vec<(Vec<u8>, Vec<u8>)> {
            super::invent_new_names_sexp(body)
        }

        pub fn rename_in_qq(namemap: &Map, body: Rc<SExp>) -> Rc<SExp> {
            super::rename_in_qq(namemap, body)
        }

        pub fn rename_in_bodyform(namemap: &Map, body: Rc<BodyForm>) -> Result<BodyForm, CompileErr> {
            super::rename_in_bodyform(namemap, body)
        }
    }
}
