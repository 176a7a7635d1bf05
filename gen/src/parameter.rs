//! What a parameter of each sort is to the program logic. The words that these texts use of the file they are printed
//! into: `κ` and `q` give the lifetime and the share of a number, `slice` the machine value of a slice, and the facts
//! that a parameter fits are `NAME-fit` for a number and `NAME-room` for a slice.

/// Of an unsigned number.
#[derive(Clone, Copy, PartialEq)]
pub enum Width {
    U8,
    U16,
    U32,
    U64,
    Usize,
}

impl Width {
    /// Its type in the logic.
    pub fn row(self) -> &'static str {
        match self {
            Width::U8 => "u8",
            Width::U16 => "u16",
            Width::U32 => "u32",
            Width::U64 => "u64",
            Width::Usize => "usize",
        }
    }

    pub fn bits(self) -> u32 {
        match self {
            Width::U8 => 8,
            Width::U16 => 16,
            Width::U32 => 32,
            Width::U64 | Width::Usize => 64,
        }
    }

    /// Its machine type.
    pub fn machine(self) -> String {
        format!("tyInt w{}", self.bits())
    }

    /// A number of this width as a machine value.
    pub fn value(self, number: &str) -> String {
        format!("vint w{} {number}", self.bits())
    }
}

#[derive(Clone, Copy, PartialEq)]
pub enum Sort {
    /// `u32`, `usize`, ..
    Number(Width),
    /// `&[u32]`, `&[u8]`, ..
    Shared(Width),
    /// `&[S]` of a struct: the file's name for the struct's module, and the struct's own.
    Records(&'static str, &'static str),
    /// `&mut [u64]`, `&mut [u16]`, ..
    Buffer(Width),
}

impl Sort {
    /// Its type in Rattle.
    pub fn rattle(self) -> String {
        match self {
            Sort::Number(width) => width.row().to_string(),
            Sort::Shared(width) => format!("&[{}]", width.row()),
            Sort::Records(_, record) => format!("&[{record}]"),
            Sort::Buffer(width) => format!("&mut [{}]", width.row()),
        }
    }
}

/// A parameter, at its place.
#[derive(Clone)]
pub struct Parameter {
    /// As a walk by hand spells it: `op-assignments` for `op_assignments`.
    pub name: String,
    pub sort: Sort,
    /// The number of its lifetime, where it has one: how many parameters before it are references.
    pub lifetime: usize,
}

/// The parameters of a function, of these names and sorts in this order.
pub fn in_order<'a>(given: impl IntoIterator<Item = (&'a str, Sort)>) -> Vec<Parameter> {
    let mut references = 0;
    let mut parameters = Vec::new();
    for (name, sort) in given {
        let parameter = Parameter { name: name.replace('_', "-"), sort, lifetime: references };
        references += usize::from(parameter.is_reference());
        parameters.push(parameter);
    }
    parameters
}

impl Parameter {
    pub fn is_number(&self) -> bool {
        matches!(self.sort, Sort::Number(_))
    }

    pub fn is_reference(&self) -> bool {
        !self.is_number()
    }

    pub fn is_buffer(&self) -> bool {
        matches!(self.sort, Sort::Buffer(_))
    }

    /// A number's type, or that of a slice's elements.
    pub fn element(&self) -> String {
        match self.sort {
            Sort::Number(width) | Sort::Shared(width) | Sort::Buffer(width) => width.row().to_string(),
            Sort::Records(module, _) => format!("{module}.the-row"),
        }
    }

    /// Its type in the logic.
    pub fn row(&self) -> String {
        let (n, element) = (self.lifetime, self.element());
        match self.sort {
            Sort::Number(_) => element,
            Sort::Shared(_) | Sort::Records(..) => {
                format!("ShrSlice (named {n}) (κ {n}) {element}")
            }
            Sort::Buffer(_) => format!("MutSlice (named {n}) (κ {n}) {element}"),
        }
    }

    /// Its machine type.
    pub fn machine_type(&self) -> String {
        let n = self.lifetime;
        match self.sort {
            Sort::Number(width) => width.machine(),
            Sort::Shared(width) => format!("sliceTy (tyRef (named {n}) imm ({}))", width.machine()),
            Sort::Records(..) => format!("sliceTy (tyRef (named {n}) imm (pointee ({} .written)))", self.element()),
            Sort::Buffer(width) => format!("sliceTy (tyRef (named {n}) mut ({}))", width.machine()),
        }
    }

    /// Its machine value.
    pub fn machine_value(&self) -> String {
        match self.sort {
            Sort::Number(width) => width.value(&self.name),
            _ => format!("slice {}", self.name),
        }
    }

    /// The type of what it denotes.
    pub fn denotes(&self) -> String {
        match self.sort {
            Sort::Number(_) => "ℕ".to_string(),
            Sort::Records(_, record) => format!("RefT (List {record})"),
            _ => "RefT (List ℕ)".to_string(),
        }
    }

    /// The fact that it fits, bound.
    pub fn fact(&self) -> String {
        let name = &self.name;
        match self.sort {
            Sort::Number(width) => format!("({name}-fit : {name} < 2 ^ {})", width.bits()),
            _ => format!("({name}-room : Room {} (length ({name} .now)))", self.element()),
        }
    }

    /// That its machine value is of its machine type.
    pub fn fits(&self) -> String {
        match self.sort {
            Sort::Number(_) => format!("(tt, record {{ fits = {}-fit }})", self.name),
            _ => slice_fits(&self.name),
        }
    }

    /// The path from the proof that its value is one to the fact that it fits.
    pub fn fact_path(&self) -> &'static str {
        if self.is_number() {
            " .1"
        } else {
            " .0 .1"
        }
    }

    /// What is still had of it at the end.
    pub fn stay(&self) -> String {
        let (n, element) = (self.lifetime, self.element());
        match self.sort {
            Sort::Number(_) => format!("stay-none (λ _. {element}) yes"),
            Sort::Shared(_) | Sort::Records(..) => {
                format!("stay-none-slice ({n} ∷ []) tt (plain (λ _. {element})) yes")
            }
            Sort::Buffer(_) => format!("stay-slice ({n} ∷ []) tt (plain (λ _. {element}))"),
        }
    }

    /// That it can be given up, where there are so many lifetimes.
    pub fn go(&self, lifetimes: usize) -> String {
        let (n, element) = (self.lifetime, self.element());
        let given = format!("𝓤 H A W {lifetimes}");
        match self.sort {
            Sort::Number(_) => format!("goes-none {given} (λ _. {element}) yes (λ κs x f. refl)"),
            Sort::Shared(_) | Sort::Records(..) => {
                format!("goes-none-slice {given} ({n} ∷ []) tt (plain (λ _. {element})) yes")
            }
            Sort::Buffer(_) => format!("goes-slice {given} {n} tt (plain (λ _. {element}))"),
        }
    }

    /// How its machine values are spelled.
    pub fn spelled(&self) -> String {
        match self.sort {
            Sort::Number(width) => format!("uint-vals w{}", width.bits()),
            _ => "slice-vals".to_string(),
        }
    }

    /// That owning it tells them, where there are so many lifetimes.
    pub fn told(&self, lifetimes: usize) -> String {
        let (n, element) = (self.lifetime, self.element());
        let given = format!("(named {n}) (lft {lifetimes} κs {n}) {element}");
        match self.sort {
            Sort::Number(width) => format!("uint-tells w{}", width.bits()),
            Sort::Shared(_) | Sort::Records(..) => format!("shr-slice-tells {given}"),
            Sort::Buffer(_) => format!("mut-slice-tells {given}"),
        }
    }
}

/// That the machine value of the slice of this name is of its machine type.
pub fn slice_fits(name: &str) -> String {
    format!("(tt, (tt, (record {{ fits = {name}-room .0 }}, tt)))")
}

/// Parameters bound with their types, those of one type in a row together.
pub fn bound(parameters: &[Parameter]) -> Vec<String> {
    let runs = parameters.chunk_by(|one, next| one.denotes() == next.denotes());
    runs.map(|run| {
        let names: Vec<&str> = run.iter().map(|parameter| parameter.name.as_str()).collect();
        format!("({} : {})", names.join(" "), run[0].denotes())
    })
    .collect()
}

#[cfg(test)]
mod tests {
    use super::*;

    #[test]
    fn lifetimes_count_the_references() {
        let sorts =
            [Sort::Number(Width::U32), Sort::Shared(Width::U8), Sort::Number(Width::Usize), Sort::Buffer(Width::U64)];
        let parameters = in_order(["a", "b_b", "c", "d"].into_iter().zip(sorts));
        let rows: Vec<String> = parameters.iter().map(Parameter::row).collect();
        assert_eq!(rows, ["u32", "ShrSlice (named 0) (κ 0) u8", "usize", "MutSlice (named 1) (κ 1) u64"]);
        assert_eq!(bound(&parameters), ["(a : ℕ)", "(b-b : RefT (List ℕ))", "(c : ℕ)", "(d : RefT (List ℕ))"]);
    }
}
